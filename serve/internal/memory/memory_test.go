// Tests of how often garbage is collected. Outside the proof.

package memory

import (
	"context"
	"runtime"
	"runtime/debug"
	"testing"
	"time"
)

func TestPercent(t *testing.T) {
	for _, one := range []struct {
		used uint64
		want int
	}{
		{0, leastPercent}, {1 << 20, mostPercent}, {room / 4, 300}, {room / 2, 100}, {room * 9 / 10, leastPercent}, {room, leastPercent}, {10 * room, leastPercent},
	} {
		if got := percentFor(one.used); got != one.want {
			t.Errorf("%d bytes in use: %d%%, want %d%%", one.used, got, one.want)
		}
	}
}

// The heap has little garbage while much is in use, and more again when that is freed.
func TestRun(t *testing.T) {
	t.Setenv("GOGC", "")
	before := debug.SetGCPercent(100)
	ctx, cancel := context.WithCancel(context.Background())
	done := make(chan struct{})
	go func() {
		defer close(done)
		Run(ctx)
	}()
	until := func(what string, holds func(percent int) bool) {
		t.Helper()
		percent := 0
		for end := time.Now().Add(20 * time.Second); time.Now().Before(end); time.Sleep(20 * time.Millisecond) {
			runtime.GC()
			percent = debug.SetGCPercent(100)
			if debug.SetGCPercent(percent); holds(percent) {
				return
			}
		}
		t.Fatalf("%s: %d%%", what, percent)
	}
	until("little in use", func(percent int) bool { return percent > 100 })
	held := make([]byte, 2*room)
	until("much in use", func(percent int) bool { return percent == leastPercent })
	runtime.KeepAlive(held)
	held = nil
	until("little in use again", func(percent int) bool { return percent > 100 })
	cancel()
	<-done
	debug.SetGCPercent(before)
}
