// Tests of positions against a slice of them. Outside the proof.

package allocator

import (
	"context"
	"errors"
	"math/rand"
	"sync"
	"testing"
	"time"

	"gateway/internal/oplog"
)

// somePositions are positions after one another: several messages of one revision, revisions that are left out, messages without lines.
func somePositions(from oplog.Position, count int) []oplog.Position {
	chance, now := rand.New(rand.NewSource(7)), from
	positions := make([]oplog.Position, count)
	for k := range positions {
		if chance.Intn(3) == 0 {
			now.Sub += 1 + chance.Intn(3)
		} else {
			now.Main, now.Sub = now.Main+1+int64(chance.Intn(200)), chance.Intn(2)
		}
		now.Messages, now.Lines, now.Bytes = now.Messages+1, now.Lines+int64(chance.Intn(3)), now.Bytes+int64(chance.Intn(1<<20))
		positions[k] = now
	}
	return positions
}

func TestPositions(t *testing.T) {
	from := oplog.Position{Revision: oplog.Revision{Main: 70, Sub: 3}, Messages: 1000, Lines: 5000, Bytes: 1 << 40}
	all := somePositions(from, 5*chunkSize+17)
	p := newPositions()
	p.begin(from)
	for rest := all; len(rest) > 0; {
		some := 1 + len(rest)/3
		p.add(rest[:some], false)
		rest = rest[some:]
	}
	if p.last() != all[len(all)-1] {
		t.Fatal(p.last())
	}
	before := func(k int) oplog.Position {
		if k == 0 {
			return from
		}
		return all[k-1]
	}
	ctx := context.Background()
	for k, want := range all {
		b, a, err := p.wait(ctx, want.Revision)
		if err != nil || a != want || b != before(k) {
			t.Fatalf("message %d: %+v %+v %v", want.Messages, b, a, err)
		}
		if b, a, is := p.ofMessage(want.Messages); !is || a != want || b != before(k) {
			t.Fatalf("message %d: %+v %+v", want.Messages, b, a)
		}
	}
	for _, lost := range []oplog.Revision{{}, {Main: 1}, from.Revision, {Main: 70, Sub: 4_000}} {
		if _, _, err := p.wait(ctx, lost); !errors.Is(err, ErrForgotten) {
			t.Error(lost, err)
		}
	}
	for _, lost := range []int64{-1, 0, 1000, p.last().Messages + 1} {
		if _, _, is := p.ofMessage(lost); is {
			t.Error(lost)
		}
	}
	p.forget(all[2*chunkSize+5].Revision)
	if _, _, is := p.ofMessage(all[2*chunkSize-1].Messages); is {
		t.Error("a whole chunk before the position is kept")
	}
	for _, want := range all[2*chunkSize+5:] {
		if _, a, err := p.wait(ctx, want.Revision); err != nil || a != want {
			t.Fatal(a, err)
		}
	}
	size := 0
	for _, c := range p.chunks[:len(p.chunks)-1] {
		size += cap(c.steps)
	}
	if most := 8 * chunkSize * (len(p.chunks) - 1); size > most {
		t.Errorf("%d bytes, want at most %d", size, most)
	}
}

// Those who wait are woken by their message alone, and look again when the list is read from elsewhere.
func TestWaiting(t *testing.T) {
	all := somePositions(oplog.Position{}, 100)
	p := newPositions()
	p.begin(oplog.Position{})
	var group sync.WaitGroup
	ctx, cancel := context.WithTimeout(context.Background(), 20*time.Second)
	defer cancel()
	for k := range all {
		for n := 0; n < 2; n++ {
			group.Add(1)
			go func(want oplog.Position) {
				defer group.Done()
				if _, a, err := p.wait(ctx, want.Revision); err != nil || a != want {
					t.Error(a, err)
				}
			}(all[k])
		}
	}
	for k := range all {
		p.add(all[k:k+1], false)
	}
	group.Wait()
	if len(p.waiting) > 0 {
		t.Error(p.waiting)
	}
	brief, end := context.WithTimeout(ctx, 10*time.Millisecond)
	defer end()
	lost := oplog.Revision{Main: 1 << 40}
	if _, _, err := p.wait(brief, lost); !errors.Is(err, ErrDue) {
		t.Error(err)
	}
	done := make(chan error)
	go func() {
		_, _, err := p.wait(ctx, lost)
		done <- err
	}()
	time.Sleep(10 * time.Millisecond)
	p.begin(oplog.Position{Revision: oplog.Revision{Main: 1 << 41}})
	if err := <-done; !errors.Is(err, ErrForgotten) {
		t.Error(err)
	}
}
