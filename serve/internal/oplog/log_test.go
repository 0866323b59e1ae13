// Tests of the list over a real etcd in this process. Outside the proof.

package oplog

import (
	"context"
	"errors"
	"fmt"
	"sync"
	"testing"
	"time"

	"gateway/internal/etcd"
	"gateway/internal/etcdtest"
)

// withEtcd returns an etcd of the test's own.
func withEtcd(t *testing.T) *etcd.Cluster {
	return etcdtest.Start(t, 1<<30)
}

// listOf returns a list with a clock, and appends until the test ends.
func listOf(t *testing.T, cluster *etcd.Cluster, c *Clock) *Log {
	ctx, cancel := context.WithCancel(context.Background())
	l := New(cluster, "drf/", c, nil, 1000)
	var group sync.WaitGroup
	t.Cleanup(func() {
		cancel()
		group.Wait()
	})
	for n := 0; n < 2; n++ {
		group.Add(1)
		go func() {
			defer group.Done()
			l.Run(ctx)
		}()
	}
	return l
}

// withList returns a list on an etcd and a clock of the test's own.
func withList(t *testing.T, m *machine) *Log {
	cluster := withEtcd(t)
	c := clockOf(cluster, "a", m, true)
	if err := c.renew(context.Background()); err != nil {
		t.Fatal(err)
	}
	return listOf(t, cluster, c)
}

func (l *Log) all(ctx context.Context, after Revision) (all []Message, err error) {
	err = l.Load(ctx, after, 0, func(some []Message) error {
		all = append(all, some...)
		return nil
	})
	return all, err
}

func TestWrongClockStampsNothing(t *testing.T) {
	t.Parallel()
	cluster, ctx := withEtcd(t), context.Background()
	right, wrong := &machine{}, &machine{wall: time.Minute}
	if err := clockOf(cluster, "a", right, true).renew(ctx); err != nil {
		t.Fatal(err)
	}
	l := listOf(t, cluster, clockOf(cluster, "b", wrong, false))
	clock := (*ClockError)(nil)
	if _, err := l.Append(ctx, batchOf("a/1", "x")); !errors.As(err, &clock) {
		t.Error(err)
	}
	if messages, err := l.all(ctx, Revision{}); len(messages) > 0 || err != nil {
		t.Error(messages, err)
	}
}

func TestOneOrder(t *testing.T) {
	t.Parallel()
	cluster, ctx := withEtcd(t), context.Background()
	c := clockOf(cluster, "a", &machine{}, true)
	if err := c.renew(ctx); err != nil {
		t.Fatal(err)
	}
	gateways := []*Log{listOf(t, cluster, c), listOf(t, cluster, c)}
	stop, end := context.WithCancel(ctx)
	var followed []Message
	done := make(chan error, 1)
	go func() {
		done <- gateways[0].Follow(stop, 0, func(some []Message) error {
			if followed = append(followed, some...); !some[len(some)-1].Last {
				t.Error("a transaction was not handed on whole")
			}
			if len(followed) == 1200 {
				end()
			}
			return nil
		})
	}()
	var group sync.WaitGroup
	var mu sync.Mutex
	places := map[string]Revision{}
	for caller := 0; caller < 40; caller++ {
		group.Add(1)
		go func(caller int) {
			defer group.Done()
			for n := 0; n < 60; n++ { // each key is used by two callers, and by each twice
				key := fmt.Sprintf("a/%d-%d", caller/2, n)
				for _, l := range gateways {
					at, err := l.Append(ctx, batchOf(key, key, ""))
					mu.Lock()
					if old, was := places[key]; err != nil || was && old != at {
						t.Errorf("%s: %v, and then %v (%v)", key, old, at, err)
					}
					places[key] = at
					mu.Unlock()
				}
			}
		}(caller)
	}
	group.Wait()
	<-done
	all, err := gateways[1].all(ctx, Revision{})
	if err != nil || len(all) != 1200 || len(followed) != 1200 {
		t.Fatal(err, len(all), len(followed))
	}
	for n, m := range all {
		if m.Revision != followed[n].Revision || m.Last != followed[n].Last || m.Key != followed[n].Key || m.Revision != places[m.Key] || string(m.Lines()[0]) != m.Key || len(m.Lines()) != 2 {
			t.Fatal(n, m, followed[n])
		}
	}
	if later, err := gateways[0].all(ctx, all[499].Revision); err != nil || len(later) != 700 || later[0].Revision != all[500].Revision {
		t.Error(len(later), err)
	}
}

func TestKeyIsUsedOnce(t *testing.T) {
	t.Parallel()
	ctx, m := context.Background(), &machine{}
	l := withList(t, m)
	cycle := func() *Batch {
		b := &Batch{Key: "a/1"}
		b.Add([]byte(`{"event":"cycle"}`), true)
		return b
	}
	first, err := l.Append(ctx, cycle())
	if err != nil {
		t.Fatal(err)
	}
	m.pass(time.Second, time.Second)
	if again, err := l.Append(ctx, cycle()); again != first || err != nil {
		t.Error(again, err)
	}
	conflict, applied := (*ConflictError)(nil), (*AppliedError)(nil)
	if _, err := l.Append(ctx, batchOf("a/1", "x")); !errors.As(err, &conflict) {
		t.Error(err)
	}
	if err := l.Prune(ctx, Position{Revision: first, Messages: 7}); err != nil {
		t.Fatal(err)
	}
	if left, err := l.all(ctx, Revision{}); len(left) > 0 || err != nil {
		t.Error(left, err)
	}
	if _, err := l.Append(ctx, cycle()); !errors.As(err, &applied) || applied.Message != 7 {
		t.Error(err)
	}
	if _, err := l.Append(ctx, batchOf("a/1", "x")); !errors.As(err, &conflict) || conflict.Message != 7 {
		t.Error(err)
	}
	// The key is kept for the window, and then the segment is dropped.
	start := l.Clock.Now()
	for _, c := range []struct {
		after time.Duration
		want  int
	}{{time.Hour, 1}, {time.Hour + 3*time.Minute, 0}} {
		if err := l.Kept.DropExpired(ctx, start.Add(c.after), time.Hour); err != nil {
			t.Fatal(err)
		}
		if _, _, err := l.Kept.Find(ctx, "x"); err != nil || l.Kept.Count() != c.want {
			t.Errorf("after %v: %d keys, %v", c.after, l.Kept.Count(), err)
		}
	}
	if again, err := l.Append(ctx, cycle()); err != nil || again == first {
		t.Error("a key was kept for longer than its window", again, err)
	}
}

// A gateway that does not know yet which messages another one pruned appends nothing a second time.
func TestPruningByAnotherGateway(t *testing.T) {
	t.Parallel()
	ctx := context.Background()
	one := withList(t, &machine{})
	other := listOf(t, one.cluster, one.Clock)
	if _, err := other.Append(ctx, batchOf("a/0", "x")); err != nil { // which reads the kept keys
		t.Fatal(err)
	}
	at, err := one.Append(ctx, batchOf("a/1", "x"))
	if err == nil {
		err = one.Prune(ctx, Position{Revision: at, Messages: 2})
	}
	if err != nil {
		t.Fatal(err)
	}
	applied := (*AppliedError)(nil)
	if _, err := other.Append(ctx, batchOf("a/1", "x")); !errors.As(err, &applied) || applied.Message != 2 {
		t.Error(err)
	}
}

func TestPrunedMessagesKeepTheirNumbers(t *testing.T) {
	t.Parallel()
	ctx := context.Background()
	l := withList(t, &machine{})
	var places []Revision
	for n := 1; n <= 120; n++ {
		at, err := l.Append(ctx, batchOf(fmt.Sprintf("a/%d", (n*37)%121), "x"))
		if err != nil {
			t.Fatal(err)
		}
		places = append(places, at)
	}
	for _, upTo := range []int{60, 110} { // the second continues where the first, or one that was interrupted, ended
		if err := l.Prune(ctx, Position{Revision: places[upTo-1], Messages: int64(1000 + upTo)}); err != nil {
			t.Fatal(err)
		}
	}
	applied := (*AppliedError)(nil)
	for n := 1; n <= 110; n++ {
		_, err := l.Append(ctx, batchOf(fmt.Sprintf("a/%d", (n*37)%121), "x"))
		if !errors.As(err, &applied) || applied.Message != int64(1000+n) {
			t.Error(n, err)
		}
	}
	if left, err := l.all(ctx, Revision{}); err != nil || len(left) != 10 {
		t.Error(len(left), err)
	}
}

// A batch without a key from its caller leaves no kept key.
func TestAnonymousKeysAreNotKept(t *testing.T) {
	t.Parallel()
	ctx := context.Background()
	l := withList(t, &machine{})
	at, err := l.Append(ctx, batchOf(Anonymous("a"), "x"))
	if err == nil {
		err = l.Prune(ctx, Position{Revision: at, Messages: 1})
	}
	if _, _, found := l.Kept.Find(ctx, "a/1"); err != nil || found != nil || l.Kept.Count() != 0 {
		t.Error(err, found, l.Kept.Count())
	}
}

func TestKeptKeysAreBounded(t *testing.T) {
	t.Parallel()
	ctx := context.Background()
	l := withList(t, &machine{})
	l.Kept.max = 3
	var at Revision
	var err error
	for n := 0; n < 3; n++ {
		if at, err = l.Append(ctx, batchOf(fmt.Sprintf("a/%d", n), "x")); err != nil {
			t.Fatal(err)
		}
	}
	if err := l.Prune(ctx, Position{Revision: at, Messages: 3}); err != nil {
		t.Fatal(err)
	}
	full, applied := (*FullError)(nil), (*AppliedError)(nil)
	if _, err := l.Append(ctx, batchOf("a/new", "x")); !errors.As(err, &full) || !full.Keys {
		t.Error("a new key:", err)
	}
	if _, err := l.Append(ctx, batchOf("a/1", "x")); !errors.As(err, &applied) {
		t.Error("a kept key:", err)
	}
	if _, err := l.Append(ctx, batchOf(Anonymous("a"), "x")); err != nil {
		t.Error("without a key:", err)
	}
}

func TestConditions(t *testing.T) {
	t.Parallel()
	ctx := context.Background()
	l := withList(t, &machine{})
	first, err := l.cluster.Client().Put(ctx, "drf/watched/n1", "")
	if err != nil {
		t.Fatal(err)
	}
	b := batchOf("silent/agents/n1/1", "x")
	b.Conditions = []Condition{l.Unchanged("drf/watched/n1", first.Header.Revision)}
	if _, err := l.cluster.Client().Put(ctx, "drf/watched/n1", ""); err != nil { // it came again just before it is ended
		t.Fatal(err)
	}
	if _, err := l.Append(ctx, b); !errors.Is(err, ErrNotDue) {
		t.Error("an agent that is alive was ended", err)
	}
	touching := batchOf("a/1", "x")
	touching.Touches = []string{"agents"}
	at, err := l.Append(ctx, touching)
	if err != nil {
		t.Fatal(err)
	}
	for n, c := range []struct {
		after int64
		want  error
	}{{at.Main - 1, ErrNotDue}, {at.Main, nil}} {
		b := batchOf(fmt.Sprintf("b/%d", n), "x")
		b.Conditions = []Condition{l.Untouched("agents", c.after)}
		if _, err := l.Append(ctx, b); !errors.Is(err, c.want) || (err == nil) != (c.want == nil) {
			t.Errorf("untouched since %d: %v", c.after, err)
		}
	}
}

func TestForgottenMessagesAreNotPassedOver(t *testing.T) {
	t.Parallel()
	ctx := context.Background()
	l := withList(t, &machine{})
	for n := 0; n < 3; n++ {
		if _, err := l.Append(ctx, batchOf(fmt.Sprintf("a/%d", n), "x")); err != nil {
			t.Fatal(err)
		}
	}
	answer, err := l.cluster.Client().Get(ctx, "drf/m/a/2")
	if err != nil {
		t.Fatal(err)
	}
	if err := l.Compact(ctx, answer.Header.Revision); err != nil {
		t.Fatal(err)
	}
	ctx, cancel := context.WithTimeout(ctx, 20*time.Second)
	defer cancel()
	hand := func(some []Message) error {
		return fmt.Errorf("%d messages were handed on, those before them not", len(some))
	}
	if err := l.Follow(ctx, 1, hand); err == nil || ctx.Err() != nil || !errors.Is(err, errCompacted) {
		t.Error(err)
	}
}

// Messages are read whole and in order when they are of very different sizes.
func TestLoadOfLargeMessages(t *testing.T) {
	t.Parallel()
	ctx := context.Background()
	l := withList(t, &machine{})
	large := make([]byte, 60_000)
	for n := range large {
		large[n] = 'x'
	}
	var want []string
	for n := 0; n < 150; n++ {
		b := batchOf(fmt.Sprintf("a/%d", n), fmt.Sprint(n))
		for k := 0; n%25 == 0 && k < 30; k++ {
			b.Add(large, false)
		}
		if _, err := l.Append(ctx, b); err != nil {
			t.Fatal(err)
		}
		want = append(want, b.Key)
	}
	all, err := l.all(ctx, Revision{})
	if err != nil || len(all) != len(want) {
		t.Fatal(len(all), err)
	}
	for n, m := range all {
		if m.Key != want[n] {
			t.Errorf("message %d has the key %s", n, m.Key)
		}
	}
}

// The sender of a message is stored, unless a gateway runs that does not know senders. A batch that is sent again from another address is the same
// batch.
func TestSendersAreKept(t *testing.T) {
	t.Parallel()
	ctx, l := context.Background(), withList(t, &machine{})
	knows := true
	l.KeepSenders = func() bool { return knows }
	send := func(key, address string) Revision {
		t.Helper()
		b := batchOf(key, "x")
		b.Sender = Sender{"web", address}
		at, err := l.Append(ctx, b)
		if err != nil {
			t.Fatal(err)
		}
		return at
	}
	first := send("web/1", "10.0.0.7")
	if again := send("web/1", "10.0.0.8"); again != first {
		t.Error("sent again from another address:", again, first)
	}
	knows = false
	if again := send("web/1", "10.0.0.8"); again != first {
		t.Error("sent again while an older gateway runs:", again, first)
	}
	send("web/2", "10.0.0.9")
	messages, err := l.all(ctx, Revision{})
	if err != nil || len(messages) != 2 || messages[0].Sender != (Sender{"web", "10.0.0.7"}) || messages[1].Sender != (Sender{}) {
		t.Errorf("%+v %v", messages, err)
	}
}
