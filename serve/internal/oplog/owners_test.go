// Tests of how many keys one owner may have. Outside the proof.

package oplog

import (
	"context"
	"encoding/binary"
	"errors"
	"fmt"
	"strings"
	"sync"
	"testing"
	"time"
)

func TestOwnersOfKeys(t *testing.T) {
	t.Parallel()
	for key, want := range map[string]string{"web/1": "web", "web/a/b": "web", "web/ 00ff": "web", "silent/agents/n1/7": "silent"} {
		if got := ownerOf(key); got != want {
			t.Errorf("the owner of %q is %q, want %q", key, got, want)
		}
	}
	const last = 1<<messageBits - 1
	for _, message := range []int64{0, 1, last} {
		for _, owner := range []ownerNumber{0, 1, 1<<ownerBits - 1, numberOf("web")} {
			one := segment(encodeSegment([]keptEntry{{at: 7, message: message, owner: owner}}))
			if e := one.entry(0); e.message != message || e.owner != owner || e.at != 7 || len(one) != entrySize {
				t.Errorf("message %d of owner %d became %+v", message, owner, e)
			}
			if owner > 0 && int64(binary.BigEndian.Uint64(one[32:])) < 0 {
				t.Error("older gateways read a negative number")
			}
		}
	}
	// An older gateway's entry has the number of the message alone.
	old := make(segment, entrySize)
	binary.BigEndian.PutUint64(old[24:], 7)
	binary.BigEndian.PutUint64(old[32:], 1_000_000)
	if e := old.entry(0); e.message != 1_000_000 || e.at != 7 || e.owner != 0 {
		t.Errorf("an older gateway's entry: %+v", e)
	}
	for n := 0; n < 10_000; n++ {
		if number := numberOf(fmt.Sprint("caller", n)); number == 0 || number >= 1<<ownerBits {
			t.Fatalf("caller%d has the number %d", n, number)
		}
	}
}

func TestCountingIsDue(t *testing.T) {
	t.Parallel()
	now := time.Unix(1000, 0)
	for _, c := range []struct {
		what              string
		keys, added, more int
		revision          int64
		age               time.Duration
		want              bool
	}{
		{"few of many", 0, 0, 25, 1, 0, false},
		{"over a quarter of what is left", 0, 0, 26, 1, 0, true},
		{"over a quarter, with those since", 60, 5, 6, 1, 0, true},
		{"a count that is old", 0, 0, 1, 1, 10 * time.Second, true},
		{"keys were pruned or dropped", 0, 0, 1, 2, 0, true},
		{"refused just before", 100, 0, 1, 1, 500 * time.Millisecond, false},
		{"refused a second ago", 99, 1, 1, 1, time.Second, true},
	} {
		o := newOwners()
		if !o.due("web", 1, 100, 1, now) {
			t.Error("an unknown owner is not counted")
		}
		o.set("web", c.keys, 1, now)
		for n := 0; n < c.added; n++ {
			o.take("web", 100)
		}
		if got := o.due("web", c.more, 100, c.revision, now.Add(c.age)); got != c.want {
			t.Errorf("%s: %v, want %v", c.what, got, c.want)
		}
	}
}

// limited returns a batch of a caller that may have half of the keys.
func limited(key string) *Batch {
	b := batchOf(key, "x")
	b.Limited = true
	return b
}

// A caller that uses up its half of the keys is refused by each gateway, whether its messages are in the list or pruned. Other callers are not
// refused.
func TestKeysOfOneOwnerAreBounded(t *testing.T) {
	t.Parallel()
	ctx, full, applied := context.Background(), (*FullError)(nil), (*AppliedError)(nil)
	l := withList(t, &machine{})
	other := listOf(t, l.cluster, l.Clock)
	l.Kept.max, other.Kept.max = 40, 40
	var mu sync.Mutex
	var last Revision
	put, group := 0, sync.WaitGroup{}
	for n := 0; n < 30; n++ { // many at once, so that they share transactions
		group.Add(1)
		go func(n int) {
			defer group.Done()
			at, err := l.Append(ctx, limited(fmt.Sprintf("greedy/%d", n)))
			mu.Lock()
			defer mu.Unlock()
			switch {
			case err == nil:
				if put++; last.Before(at) {
					last = at
				}
			case !errors.As(err, &full) || !full.Keys:
				t.Error(err)
			}
		}(n)
	}
	group.Wait()
	if put < 20 { // two transactions at the same time do not see each other's
		t.Fatalf("%d keys of one caller, want 20", put)
	}
	check := func(when string) {
		t.Helper()
		for _, gateway := range []*Log{l, other} {
			// What a gateway counted can lack transactions that ran at the same time, until a quarter of the share is used.
			var err error
			for n := 0; n < 5 && err == nil; n++ {
				_, err = gateway.Append(ctx, limited(fmt.Sprintf("greedy/new-%d", n)))
			}
			if !errors.As(err, &full) || !full.Keys {
				t.Error(when, "a new key:", err)
			}
			if _, err := gateway.Append(ctx, limited(Anonymous("greedy"))); err != nil {
				t.Error(when, "without a key:", err)
			}
			for _, name := range []string{"other", "greedy1", "greed"} {
				if _, err := gateway.Append(ctx, limited(name+"/"+when)); err != nil {
					t.Error(when, name, err)
				}
			}
		}
	}
	check("in-the-list")
	all, err := l.all(ctx, Revision{})
	if err != nil {
		t.Fatal(err)
	}
	known := ""
	for _, m := range all {
		if ownerOf(m.Key) == "greedy" && !isAnonymous(m.Key) && !strings.HasPrefix(m.Key, "greedy/new-") {
			known = m.Key
		}
	}
	if at, err := other.Append(ctx, limited(known)); err != nil || last.Before(at) {
		t.Error("the same batch again:", at, err)
	}
	if err := l.Prune(ctx, Position{Revision: last, Messages: int64(put)}); err != nil {
		t.Fatal(err)
	}
	check("pruned")
	if _, err := other.Append(ctx, limited(known)); !errors.As(err, &applied) {
		t.Error("a kept key:", err)
	}
	if _, err := l.Append(ctx, batchOf("greedy/operator", "x")); err != nil {
		t.Error("with a right to more:", err)
	}
	if err := l.Kept.DropExpired(ctx, time.Now().Add(2*time.Hour), time.Hour); err != nil {
		t.Fatal(err)
	}
	for _, gateway := range []*Log{other, l} {
		if _, err := gateway.Append(ctx, limited("greedy/later")); err != nil {
			t.Error("when its keys have expired:", err)
		}
	}
}
