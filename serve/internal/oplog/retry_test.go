// Tests of batches whose transactions are tried again. Outside the proof.

package oplog

import (
	"context"
	"errors"
	"fmt"
	"testing"
	"time"
)

// A batch without a key is not put a second time when it may have been pruned since it was first tried. It is put when nothing was.
func TestRetryAfterPruning(t *testing.T) {
	t.Parallel()
	ctx := context.Background()
	l := withList(t, &machine{})
	at, err := l.Append(ctx, batchOf(Anonymous("a"), "x"))
	if err != nil {
		t.Fatal(err)
	}
	try := func(p *pending) error {
		for n := 0; n < 2; n++ {
			if err := l.tryCommit(ctx, []*pending{p}, 10*time.Second); !errors.Is(err, errKeptChanged) {
				if err != nil {
					t.Fatal(err)
				}
				break
			}
		}
		return p.err
	}
	kept, err := l.Kept.load(ctx)
	if err != nil {
		t.Fatal(err)
	}
	if err := try(&pending{Batch: batchOf(Anonymous("a"), "x"), tries: 1, guard: kept.revision}); err != nil {
		t.Error("nothing was pruned:", err)
	}
	if err := l.Prune(ctx, Position{Revision: at, Messages: 1}); err != nil {
		t.Fatal(err)
	}
	unavailable := (*UnavailableError)(nil)
	if err := try(&pending{Batch: batchOf(Anonymous("a"), "x"), tries: 1, guard: kept.revision}); !errors.As(err, &unavailable) || !unavailable.MayBeApplied {
		t.Error("a batch that may have been pruned:", err)
	}
	if err := try(&pending{Batch: batchOf(Anonymous("a"), "x")}); err != nil {
		t.Error("a new batch:", err)
	}
	if left, err := l.all(ctx, Revision{}); err != nil || len(left) != 2 {
		t.Error(len(left), err)
	}
}

// Messages without keys are pruned without being read, and those with keys keep their numbers.
func TestPruningOfMixedMessages(t *testing.T) {
	t.Parallel()
	ctx := context.Background()
	l := withList(t, &machine{})
	var at []Revision
	for n := 0; n < 40; n++ {
		key := Anonymous("a")
		if n%10 == 3 || n >= 20 && n < 25 {
			key = fmt.Sprint("a/", n)
		}
		group := []*pending{{Batch: batchOf(key, "x")}, {Batch: batchOf(Anonymous("b"), "x")}, {Batch: batchOf(fmt.Sprintf("c/%d", n), "x")}}
		if n%2 == 0 {
			group = group[:2]
		}
		for {
			err := l.tryCommit(ctx, group, 10*time.Second)
			if err == nil {
				break
			}
			if !errors.Is(err, errKeptChanged) {
				t.Fatal(err)
			}
		}
		for _, p := range group {
			at = append(at, p.at)
		}
	}
	all, err := l.all(ctx, Revision{})
	if err != nil || len(all) != len(at) {
		t.Fatal(len(all), err)
	}
	for _, upTo := range []int{1, 30, 32, 90, 99} { // within transactions too
		if err := l.Prune(ctx, Position{Revision: at[upTo-1], Messages: int64(1000 + upTo)}); err != nil {
			t.Fatal(err)
		}
		left, err := l.all(ctx, Revision{})
		if err != nil || len(left) != len(at)-upTo || left[0].Key != all[upTo].Key {
			t.Fatalf("up to %d: %d messages are left, %v", upTo, len(left), err)
		}
	}
	kept := 0
	for n, m := range all[:99] {
		number, is, err := l.Kept.Find(ctx, m.Key)
		if err != nil || is == isAnonymous(m.Key) || is && number != int64(1001+n) {
			t.Errorf("message %d, %q: %d %v %v", 1001+n, m.Key, number, is, err)
		}
		if is {
			kept++
		}
	}
	if kept < 20 || kept != l.Kept.Count() {
		t.Error(kept, l.Kept.Count())
	}
}
