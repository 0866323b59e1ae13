// Tests of the conversion of older lists, outside the proof. The whole of it is tested with a fixture that an older gateway made:
// tests/conversion.py.

package oplog

import (
	"context"
	"errors"
	"testing"
	"time"
)

func TestNewListIsMarked(t *testing.T) {
	t.Parallel()
	ctx, l := context.Background(), withList(t, &machine{})
	for n := 0; n < 2; n++ {
		if err := l.Prepare(ctx, t.TempDir(), true); err != nil {
			t.Fatal(err)
		}
	}
	if isCurrent, _, err := l.format(ctx); !isCurrent || err != nil {
		t.Error(isCurrent, err)
	}
}

// A newer gateway does not share the list with older ones that run, and starts once they have stopped.
func TestOlderGatewayRuns(t *testing.T) {
	t.Parallel()
	ctx, l := context.Background(), withList(t, &machine{})
	renew := func() {
		if _, err := l.cluster.Client().Put(ctx, "drf/clock", stamp(time.Now().UnixMilli())); err != nil {
			t.Error(err)
		}
	}
	renew()
	stop, stopped := make(chan struct{}), make(chan struct{})
	go func() {
		defer close(stopped)
		for {
			select {
			case <-stop:
				return
			case <-time.After(500 * time.Millisecond):
				renew()
			}
		}
	}()
	err := l.Prepare(ctx, t.TempDir(), false)
	close(stop)
	<-stopped
	if !errors.Is(err, ErrOlderGateway) {
		t.Error("while one runs:", err)
	}
	if left, err := l.cluster.Client().Get(ctx, "drf/clock"); err != nil || len(left.Kvs) != 1 {
		t.Error("it was converted all the same", err)
	}
	if err := l.Prepare(ctx, t.TempDir(), false); err != nil {
		t.Error("when it has stopped:", err)
	}
	if left, err := l.cluster.Client().Get(ctx, "drf/clock"); err != nil || len(left.Kvs) != 0 {
		t.Error("it was not converted", err)
	}
}
