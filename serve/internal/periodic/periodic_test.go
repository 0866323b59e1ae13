// Tests of what gateways append by themselves. Outside the proof.

package periodic

import (
	"context"
	"strings"
	"sync"
	"testing"
	"time"

	"gateway/internal/allocator"
	"gateway/internal/drftest"
	"gateway/internal/etcd"
	"gateway/internal/etcdtest"
	"gateway/internal/oplog"
	"gateway/internal/registry"
)

func TestMain(m *testing.M) { drftest.Main(m) }

type uncounted struct{}

func (uncounted) Line(string, string, time.Duration) {}
func (uncounted) OfferMade(string)                   {}
func (uncounted) OfferEnded(string, string)          {}
func (uncounted) FrameworkRemoved(string)            {}

// start starts a gateway's parts, and returns its list and its registry.
func start(t *testing.T, cluster *etcd.Cluster, config Config) (*oplog.Log, *registry.Registry) {
	ctx, cancel := context.WithCancel(context.Background())
	l := oplog.New(cluster, "drf/", oplog.NewClock(cluster, "drf/", t.Name(), 10*time.Second, true), nil, 1000)
	folder := t.TempDir()
	j, err := allocator.OpenJournal(folder)
	if err != nil {
		t.Fatal(err)
	}
	state := registry.New(uncounted{})
	a := allocator.New(allocator.Config{Program: drftest.Program(t), Folder: folder, SnapshotMessages: 3, EpochLines: 1 << 32}, l, j, state, func(err error) { t.Error(err) })
	r := New(config, l, a, state, func() error {
		if l.Clock.Fault() != "" {
			return &oplog.ClockError{}
		}
		return a.Ready()
	})
	var group sync.WaitGroup
	for _, run := range []func(context.Context){l.Clock.Run, l.Run, func(ctx context.Context) { a.Run(ctx) }, r.Run, r.RunCycles} {
		group.Add(1)
		go func(run func(context.Context)) {
			defer group.Done()
			run(ctx)
		}(run)
	}
	t.Cleanup(func() {
		cancel()
		group.Wait()
	})
	return l, state
}

// Two gateways append each cycle, each end of a late offer and each marker once.
func TestOnceByTwo(t *testing.T) {
	cluster := etcdtest.Start(t, 1<<30)
	config := Config{Cycle: 200 * time.Millisecond, OfferTimeout: time.Second, Window: time.Hour}
	l, state := start(t, cluster, config)
	_, other := start(t, cluster, config)
	var mu sync.Mutex
	counts, keys, lines := map[string]int{}, map[string]int{}, map[string]int{}
	ctx, cancel := context.WithCancel(context.Background())
	defer cancel()
	go l.Follow(ctx, 0, func(messages []oplog.Message) error {
		mu.Lock()
		defer mu.Unlock()
		for _, m := range messages {
			kind, _, _ := strings.Cut(m.Key, "/")
			counts[kind]++
			keys[m.Key]++
			if kind == "rescind" {
				lines[string(m.Text)]++
			}
		}
		return nil
	})
	for end := time.Now().Add(60 * time.Second); ; time.Sleep(50 * time.Millisecond) {
		mu.Lock()
		isDone := counts["cycle"] >= 8 && counts["rescind"] >= 3 && counts["state"] >= 2
		mu.Unlock()
		if isDone {
			break
		}
		if time.Now().After(end) {
			t.Fatal(counts)
		}
	}
	mu.Lock()
	defer mu.Unlock()
	for key, count := range keys {
		if count != 1 {
			t.Errorf("%s was appended %d times", key, count)
		}
	}
	for line, count := range lines {
		if count != 1 || !strings.Contains(line, `"event":"rescind"`) {
			t.Errorf("%s was appended %d times", line, count)
		}
	}
	if state.Info().Applied == 0 || other.Info().Applied == 0 {
		t.Error("a gateway applied nothing")
	}
}
