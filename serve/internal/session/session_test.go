// Tests of sessions over a real etcd and a registry whose events are all accepted. Outside the proof.

package session

import (
	"context"
	"errors"
	"fmt"
	"strings"
	"sync"
	"testing"
	"time"

	"gateway/internal/etcd"
	"gateway/internal/etcdtest"
	"gateway/internal/oplog"
	"gateway/internal/registry"
)

type silent struct{}

func (silent) Line(string, string, time.Duration) {}
func (silent) OfferMade(string)                   {}
func (silent) OfferEnded(string, string)          {}
func (silent) FrameworkRemoved(string)            {}

// world is a service whose allocator answers every line with ok.
type world struct {
	t        *testing.T
	log      *oplog.Log
	registry *registry.Registry

	mu    sync.Mutex
	lines []string
	count int
	now   time.Duration // of the manager
}

func newWorld(t *testing.T) *world {
	cluster := etcdtest.Start(t, 1<<30)
	return &world{t: t, log: newLog(t, cluster), registry: registry.New(silent{})}
}

func newLog(t *testing.T, cluster *etcd.Cluster) *oplog.Log {
	ctx, cancel := context.WithCancel(context.Background())
	l := oplog.New(cluster, "drf/", oplog.NewClock(cluster, "drf/", "one", 10*time.Second, true), nil, 1000)
	var group sync.WaitGroup
	for _, run := range []func(context.Context){l.Clock.Run, l.Run} {
		group.Add(1)
		go func(run func(context.Context)) {
			defer group.Done()
			run(ctx)
		}(run)
	}
	t.Cleanup(func() {
		cancel()
		group.Wait()
	})
	for l.Clock.Fault() != "" {
		time.Sleep(10 * time.Millisecond)
	}
	return l
}

// follow applies messages until the test ends.
func (w *world) follow() {
	ctx, cancel := context.WithCancel(context.Background())
	done := make(chan struct{})
	w.t.Cleanup(func() {
		cancel()
		<-done
	})
	go func() {
		defer close(done)
		w.log.Follow(ctx, 0, func(messages []oplog.Message) error {
			w.mu.Lock()
			defer w.mu.Unlock()
			for _, m := range messages {
				w.count++
				applied := &registry.Message{Number: int64(w.count), Revision: m.Revision.Main, Last: m.Last, At: m.At, Key: m.Key, Lines: m.Lines()}
				for _, line := range applied.Lines {
					applied.Replies = append(applied.Replies, []byte(`{"ok":true}`+"\n"))
					w.lines = append(w.lines, string(line))
				}
				w.registry.Apply(applied)
			}
			return nil
		})
	}()
}

func (w *world) manager(timeouts map[string]time.Duration, rate float64, burst int) *Manager {
	m := New(Config{Timeouts: timeouts, Rate: rate, Burst: burst, Alone: true}, w.log, w.registry, func() error { return nil })
	m.running = func() time.Duration {
		w.mu.Lock()
		defer w.mu.Unlock()
		return w.now
	}
	m.lastRun, m.calm = w.now, w.now
	return m
}

// pass lets the manager's time pass, in steps in which it runs.
func (w *world) pass(m *Manager, seconds int) {
	for ; seconds > 0; seconds-- {
		w.mu.Lock()
		w.now += time.Second
		w.mu.Unlock()
		w.run(m)
	}
}

func (w *world) run(m *Manager) {
	m.observe()
	for _, kind := range kinds {
		if m.config.Timeouts[kind] > 0 {
			if err := m.endSilent(context.Background(), kind); err != nil {
				w.t.Error(err)
			}
		}
	}
}

func (w *world) send(lines ...string) {
	b := &oplog.Batch{Key: oplog.Anonymous("a"), Touches: []string{registry.Agents, registry.Frameworks}}
	for _, line := range lines {
		b.Add([]byte(line), false)
	}
	if _, err := w.log.Append(context.Background(), b); err != nil {
		w.t.Fatal(err)
	}
	w.waitFor(lines[len(lines)-1])
}

func (w *world) has(line string) (count int) {
	w.mu.Lock()
	defer w.mu.Unlock()
	for _, one := range w.lines {
		if one == line {
			count++
		}
	}
	return count
}

func (w *world) waitFor(line string) {
	w.t.Helper()
	for end := time.Now().Add(20 * time.Second); w.has(line) == 0; time.Sleep(5 * time.Millisecond) {
		if time.Now().After(end) {
			w.t.Fatalf("%s did not come", line)
		}
	}
}

// waitLeaseEnds waits until a session has no lease.
func (w *world) waitLeaseEnds(m *Manager, kind, name string) {
	w.t.Helper()
	for end := time.Now().Add(30 * time.Second); ; time.Sleep(50 * time.Millisecond) {
		answer, err := w.log.Cluster().Client().Get(context.Background(), m.key("alive", kind, name))
		if err == nil && len(answer.Kvs) == 0 {
			return
		}
		if time.Now().After(end) {
			w.t.Fatal("a lease does not end", err)
		}
	}
}

func (w *world) beat(m *Manager, kind, name string, want bool) {
	w.t.Helper()
	if was, err := m.Heartbeat(context.Background(), kind, name); err != nil || was != want {
		w.t.Errorf("heartbeat of %s: %v %v, want %v", name, was, err, want)
	}
}

const (
	addSite    = `{"event":"add_framework","framework":"site","roles":["web"]}`
	removeSite = `{"event":"remove_framework","framework":"site"}`
)

func TestSilentOnesAreEnded(t *testing.T) {
	t.Parallel()
	w := newWorld(t)
	w.follow()
	m := w.manager(map[string]time.Duration{registry.Agents: time.Second, Removals: time.Second, registry.Frameworks: time.Second}, 10, 10)
	w.send(addSite, `{"event":"add_agent","agent":"n1","total":"cpus:1"}`)
	w.beat(m, registry.Frameworks, "site", false)
	w.beat(m, registry.Frameworks, "site", true)
	w.beat(m, registry.Agents, "n1", false)
	w.waitLeaseEnds(m, registry.Frameworks, "site")
	w.waitLeaseEnds(m, registry.Agents, "n1")
	w.pass(m, 6)
	w.waitFor(`{"event":"remove_framework","framework":"site"}`)
	w.waitFor(`{"agent":"n1","event":"deactivate_agent"}`)
	w.waitLeaseEnds(m, Removals, "n1")
	w.pass(m, 2)
	w.waitFor(`{"agent":"n1","event":"remove_agent"}`)
	w.pass(m, 10)
	for _, line := range []string{`{"event":"remove_framework","framework":"site"}`, `{"agent":"n1","event":"deactivate_agent"}`, `{"agent":"n1","event":"remove_agent"}`} {
		if n := w.has(line); n != 1 {
			t.Errorf("%s came %d times", line, n)
		}
	}
}

// The lease of a framework that left does not end the one that registered again under its name.
func TestStaleLeaseEndsNobody(t *testing.T) {
	t.Parallel()
	w := newWorld(t)
	w.follow()
	m := w.manager(map[string]time.Duration{registry.Frameworks: time.Second}, 10, 10)
	w.send(addSite)
	w.beat(m, registry.Frameworks, "site", false)
	w.send(removeSite, addSite)
	w.waitLeaseEnds(m, registry.Frameworks, "site")
	w.pass(m, 10)
	if n := w.has(removeSite); n != 1 {
		t.Errorf("%d removals, want the caller's alone", n)
	}
	// Its own session is watched like any other.
	w.beat(m, registry.Frameworks, "site", false)
	w.waitLeaseEnds(m, registry.Frameworks, "site")
	w.pass(m, 10)
	for end := time.Now().Add(20 * time.Second); w.has(removeSite) != 2; time.Sleep(5 * time.Millisecond) {
		if time.Now().After(end) {
			t.Fatalf("%d removals, want 2", w.has(removeSite))
		}
	}
}

// A gateway that has not seen yet that a framework registered again does not end it either.
func TestStaleLeaseAtAGatewayBehind(t *testing.T) {
	t.Parallel()
	w := newWorld(t)
	m := w.manager(map[string]time.Duration{registry.Frameworks: time.Second}, 10, 10)
	line := []byte(addSite)
	b := &oplog.Batch{Key: "a/1", Touches: []string{registry.Frameworks}}
	b.Add(line, false)
	at, err := w.log.Append(context.Background(), b)
	if err != nil {
		t.Fatal(err)
	}
	w.registry.Apply(&registry.Message{Number: 1, Revision: at.Main, Last: true, Lines: [][]byte{line}, Replies: [][]byte{[]byte(`{"ok":true}` + "\n")}})
	w.beat(m, registry.Frameworks, "site", false)
	again := &oplog.Batch{Key: "a/2", Touches: []string{registry.Frameworks}}
	again.Add([]byte(removeSite), false)
	again.Add(line, false)
	if _, err := w.log.Append(context.Background(), again); err != nil {
		t.Fatal(err)
	}
	w.waitLeaseEnds(m, registry.Frameworks, "site")
	w.pass(m, 10)
	ended := 0
	w.log.Load(context.Background(), oplog.Revision{}, 0, func(messages []oplog.Message) error {
		for _, one := range messages {
			if strings.HasPrefix(one.Key, "silent/") {
				ended++
			}
		}
		return nil
	})
	if ended != 0 {
		t.Errorf("%d endings of a framework that registered again", ended)
	}
}

// After a pause of the service, time-outs start again, so that owners that kept sending heartbeats are not ended.
func TestPauseEndsNobody(t *testing.T) {
	t.Parallel()
	w := newWorld(t)
	w.follow()
	m := w.manager(map[string]time.Duration{registry.Frameworks: time.Second}, 10, 10)
	w.send(addSite)
	w.beat(m, registry.Frameworks, "site", false)
	w.pass(m, 10)
	w.waitLeaseEnds(m, registry.Frameworks, "site") // as nobody could send a heartbeat
	w.mu.Lock()
	w.now += 8 * time.Second // in which the manager did not run
	w.mu.Unlock()
	w.run(m)
	w.pass(m, 3)
	w.beat(m, registry.Frameworks, "site", false)
	w.run(m)
	if n := w.has(removeSite); n != 0 {
		t.Fatalf("%d removals after a pause", n)
	}
	w.waitLeaseEnds(m, registry.Frameworks, "site")
	w.pass(m, 10)
	w.waitFor(removeSite)
}

func TestEndingsAreLimited(t *testing.T) {
	t.Parallel()
	w := newWorld(t)
	w.follow()
	m := w.manager(map[string]time.Duration{registry.Agents: time.Second}, 0.5, 3)
	var lines []string
	for n := 0; n < 12; n++ {
		lines = append(lines, fmt.Sprintf(`{"event":"add_agent","agent":"n%d","total":"cpus:1"}`, n))
	}
	w.send(lines...)
	for n := range lines {
		w.beat(m, registry.Agents, fmt.Sprintf("n%d", n), false)
	}
	for n := range lines {
		w.waitLeaseEnds(m, registry.Agents, fmt.Sprintf("n%d", n))
	}
	ended := func() (count int) {
		for n := range lines {
			count += w.has(fmt.Sprintf(`{"agent":"n%d","event":"deactivate_agent"}`, n))
		}
		return count
	}
	w.pass(m, 5)
	time.Sleep(300 * time.Millisecond)
	if n := ended(); n > 4 {
		t.Errorf("%d at once, want 3", n)
	}
	w.pass(m, 4)
	time.Sleep(300 * time.Millisecond)
	if n := ended(); n > 6 {
		t.Errorf("%d after 4 s, want 5", n)
	}
	w.pass(m, 20)
	for end := time.Now().Add(20 * time.Second); ended() != 12; time.Sleep(10 * time.Millisecond) {
		if time.Now().After(end) {
			t.Fatalf("%d of 12 were ended", ended())
		}
	}
}

func TestHeartbeatsOfTheUnknown(t *testing.T) {
	t.Parallel()
	w := newWorld(t)
	w.follow()
	m := w.manager(map[string]time.Duration{registry.Agents: time.Second}, 10, 10)
	unknown := (*UnknownError)(nil)
	if _, err := m.Heartbeat(context.Background(), registry.Agents, "nobody"); !errors.As(err, &unknown) {
		t.Error(err)
	}
	if _, err := m.Heartbeat(context.Background(), registry.Frameworks, "site"); !errors.Is(err, ErrNotWatched) {
		t.Error(err)
	}
	w.pass(m, 10)
	if len(w.lines) != 0 {
		t.Error(w.lines)
	}
}
