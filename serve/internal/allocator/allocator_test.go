// Tests of the allocator with a stand-in for drf. Outside the proof.

package allocator

import (
	"context"
	"errors"
	"fmt"
	"os"
	"strings"
	"sync"
	"syscall"
	"testing"
	"time"

	"gateway/internal/drftest"
	"gateway/internal/etcd"
	"gateway/internal/etcdtest"
	"gateway/internal/oplog"
	"gateway/internal/registry"
)

func TestMain(m *testing.M) { drftest.Main(m) }

type uncounted struct{}

func (uncounted) Line(string, string, time.Duration) {}
func (uncounted) OfferMade(string)                   {}
func (uncounted) OfferEnded(string, string)          {}
func (uncounted) FrameworkRemoved(string)            {}

// running is a running allocator with its own list and journal.
type running struct {
	*Allocator
	questions *Questions
	log       *oplog.Log
	fatal     chan error
}

func run(t *testing.T, cluster *etcd.Cluster, folder string, config Config) *running {
	ctx, cancel := context.WithCancel(context.Background())
	config.Program, config.Folder = drftest.Program(t), folder
	l := oplog.New(cluster, "drf/", oplog.NewClock(cluster, "drf/", "one", 10*time.Second, true), nil, 1000)
	j, err := OpenJournal(folder)
	if err != nil {
		t.Fatal(err)
	}
	r := &running{log: l, fatal: make(chan error, 2)}
	r.Allocator = New(config, l, j, registry.New(uncounted{}), func(err error) { r.fatal <- err })
	r.questions = NewQuestions(r.Allocator)
	var group sync.WaitGroup
	for _, run := range []func(context.Context){l.Clock.Run, l.Run, r.questions.Run, func(ctx context.Context) {
		if err := r.Allocator.Run(ctx); err != nil {
			r.fatal <- err
		}
	}} {
		group.Add(1)
		go func(run func(context.Context)) {
			defer group.Done()
			run(ctx)
		}(run)
	}
	t.Cleanup(func() {
		cancel()
		group.Wait()
	})
	until(t, "ready", func() bool {
		select {
		case err := <-r.fatal:
			t.Fatal(err)
		default:
		}
		return r.Ready() == nil && l.Clock.Fault() == ""
	})
	return r
}

func until(t *testing.T, what string, holds func() bool) {
	t.Helper()
	for end := time.Now().Add(30 * time.Second); !holds(); time.Sleep(5 * time.Millisecond) {
		if time.Now().After(end) {
			t.Fatal("never: ", what)
		}
	}
}

func (r *running) send(t *testing.T, key string, lines ...string) Reply {
	t.Helper()
	b := &oplog.Batch{Key: key}
	for _, line := range lines {
		b.Add([]byte(line), false)
	}
	ctx, cancel := context.WithTimeout(context.Background(), 30*time.Second)
	defer cancel()
	at, err := r.log.Append(ctx, b)
	if err != nil {
		t.Fatal(err)
	}
	reply, err := r.Reply(ctx, at)
	if err != nil {
		t.Fatal(err)
	}
	return reply
}

func TestReplies(t *testing.T) {
	r := run(t, etcdtest.Start(t, 1<<30), t.TempDir(), Config{SnapshotMessages: 1000, EpochLines: 1 << 32})
	for n := 0; n < 3; n++ {
		reply := r.send(t, fmt.Sprintf("a/%d", n), "x", "y")
		if reply.Message != int64(n+1) || reply.FirstLine != int64(2*n+1) || string(reply.Lines) != "{\"ok\":true}\n{\"ok\":true}\n" {
			t.Errorf("%+v", reply)
		}
	}
	if again := r.send(t, "a/0", "x", "y"); again.Message != 1 {
		t.Errorf("%+v", again)
	}
	pid := r.Status().Pid
	if err := syscall.Kill(pid, syscall.SIGKILL); err != nil {
		t.Fatal(err)
	}
	until(t, "another child", func() bool { return r.Ready() == nil && r.Status().Pid != pid })
	if reply := r.send(t, "a/3", "z"); reply.Message != 4 || reply.FirstLine != 7 {
		t.Errorf("after a restart: %+v", reply)
	}
	if s := r.Status(); s.Restarts != 1 || s.Messages != 4 || s.Lines != 7 {
		t.Errorf("%+v", s)
	}
}

// Questions are answered as of the messages before them, by a second child, not by the one that replies to lines.
func TestQuestions(t *testing.T) {
	r := run(t, etcdtest.Start(t, 1<<30), t.TempDir(), Config{SnapshotMessages: 1000, EpochLines: 1 << 32})
	ctx, cancel := context.WithTimeout(context.Background(), 30*time.Second)
	defer cancel()
	for n := 1; n < 5; n++ {
		r.send(t, fmt.Sprintf("a/%d", n), "x", "y", strings.Repeat("long", 100_000))
		answer, err := r.questions.Ask(ctx, "report", "")
		if err != nil || answer.Message != int64(n) || string(answer.Text) != fmt.Sprintf(`{"lines":%d}`, 3*n) {
			t.Errorf("%+v %s %v", answer, answer.Text, err)
		}
	}
	pid := r.questions.Pid()
	if pid == 0 || pid == r.Status().Pid {
		t.Error(pid)
	}
	syscall.Kill(pid, syscall.SIGKILL)
	if _, err := r.questions.Ask(ctx, "report", ""); err != nil && !errors.Is(err, ErrNoAnswer) {
		t.Error(err)
	}
	if answer, err := r.questions.Ask(ctx, "explain", "7"); err != nil || string(answer.Text) != `{"lines":12}` {
		t.Error(answer, err)
	}
}

// A snapshot is due after a number of messages or bytes, and everything before the previous snapshot is pruned.
func TestMarkers(t *testing.T) {
	r := run(t, etcdtest.Start(t, 1<<30), t.TempDir(), Config{SnapshotMessages: 10, SnapshotBytes: 100_000, SnapshotApart: time.Hour, EpochLines: 1 << 32})
	now := time.Now()
	for n := 0; n < 9; n++ {
		r.send(t, fmt.Sprintf("a/%d", n), "x")
	}
	if _, is := r.Marker(now.Add(2 * time.Hour)); is {
		t.Error("a marker after 9 messages")
	}
	r.send(t, "a/9", "x")
	if _, is := r.Marker(now.Add(2 * time.Hour)); !is {
		t.Error("no marker after 10 messages and an hour")
	}
	r.snapshots.mu.Lock()
	r.snapshots.marked.At = now.UnixMilli()
	r.snapshots.mu.Unlock()
	if _, is := r.Marker(now.Add(time.Minute)); is {
		t.Error("a marker after a minute")
	}
	for made := 1; made <= 3; made++ {
		for n := 0; n < 2; n++ {
			r.send(t, fmt.Sprintf("b/%d-%d", made, n), strings.Repeat("x", 60_000))
		}
		marker, is := r.Marker(now)
		if !is {
			t.Fatal("no marker after 120,000 bytes")
		}
		if _, err := r.log.Append(context.Background(), marker); err != nil {
			t.Fatal(err)
		}
		until(t, "a snapshot", func() bool { return r.Status().Snapshot == made })
	}
	ctx := context.Background()
	until(t, "pruning", func() bool {
		found, _, err := r.log.Snapshots(ctx)
		kept, _, _ := r.journal.Bounds()
		return err == nil && len(found) == 2 && found[1].Number == 3 && kept == found[0].Bytes
	})
	applied := (*oplog.AppliedError)(nil)
	b := &oplog.Batch{Key: "a/0"}
	b.Add([]byte("x"), false)
	if _, err := r.log.Append(ctx, b); !errors.As(err, &applied) || applied.Message != 1 {
		t.Error(err)
	}
}

// A start resumes from a snapshot, with the registry that belongs to it.
func TestResume(t *testing.T) {
	cluster, folder := etcdtest.Start(t, 1<<30), t.TempDir()
	config := Config{SnapshotMessages: 1, EpochLines: 1 << 32}
	t.Run("first", func(t *testing.T) {
		r := run(t, cluster, folder, config)
		r.send(t, "a/agent", `{"event":"add_agent","agent":"n","total":"cpus:1"}`)
		for made := 1; made <= 3; made++ {
			r.send(t, fmt.Sprintf("a/%d", made), `{"event":"cycle"}`)
			marker, _ := r.Marker(time.Now())
			if _, err := r.log.Append(context.Background(), marker); err != nil {
				t.Fatal(err)
			}
			until(t, "a snapshot", func() bool { return r.Status().Snapshot == made })
		}
		until(t, "pruning", func() bool {
			_, is, err := r.log.Kept.Find(context.Background(), "a/1")
			return is && err == nil
		})
		if err := r.journal.Mark(); err != nil {
			t.Fatal(err)
		}
	})
	for _, lost := range []string{"", "registry.", "state."} {
		t.Run("without "+lost, func(t *testing.T) {
			files, _ := os.ReadDir(folder)
			for _, file := range files {
				if lost != "" && strings.HasPrefix(file.Name(), lost) {
					os.Remove(folder + "/" + file.Name())
				}
			}
			r := run(t, cluster, folder, config)
			info := r.registry.Info()
			if _, is := r.registry.Registration(registry.Agents, "n"); !is || info.Offers != 3 || info.Applied != r.Status().Messages {
				t.Errorf("%+v", info)
			}
		})
	}
}

// Many messages make a snapshot due whatever the time. What is pruned then leaves the list, and its replies are kept for their time.
func TestManyMessages(t *testing.T) {
	r := run(t, etcdtest.Start(t, 1<<30), t.TempDir(), Config{SnapshotMessages: 1000, SnapshotMost: 10, SnapshotApart: time.Hour, EpochLines: 1 << 32})
	for n, made := 0, 0; made < 3; n++ {
		r.send(t, fmt.Sprintf("a/%d", n), fmt.Sprintf("x%d", n))
		if marker, is := r.Marker(time.Now()); is {
			made++
			if since := r.Status().Messages; since < int64(made*10) {
				t.Fatalf("snapshot %d after %d messages", made, since)
			}
			if _, err := r.log.Append(context.Background(), marker); err != nil {
				t.Fatal(err)
			}
			until(t, "a snapshot", func() bool { return r.Status().Snapshot == made })
		}
	}
	until(t, "pruning", func() bool {
		_, is, err := r.log.Kept.Find(context.Background(), "a/0")
		return is && err == nil
	})
	for n := 0; n < 10; n++ {
		b, applied := &oplog.Batch{Key: fmt.Sprintf("a/%d", n)}, (*oplog.AppliedError)(nil)
		b.Add([]byte(fmt.Sprintf("x%d", n)), false)
		if _, err := r.log.Append(context.Background(), b); !errors.As(err, &applied) {
			t.Fatal(err)
		}
		if reply, err := r.ReplyTo(applied.Message); err != nil || reply.Message != int64(n+1) || string(reply.Lines) != "{\"ok\":true}\n" {
			t.Errorf("message %d: %+v %v", applied.Message, reply, err)
		}
	}
	if _, err := r.ReplyTo(1 << 40); !errors.Is(err, ErrForgotten) {
		t.Error(err)
	}
}

// Replies are kept for their time, and the journal's file has a bound.
func TestKeptReplies(t *testing.T) {
	const second = 1000
	s := &snapshots{allocator: &Allocator{config: Config{SnapshotApart: time.Minute, SnapshotBytes: 100}}, kept: []oplog.Snapshot{{}}}
	at := func(number int, seconds, bytes int64) oplog.Snapshot {
		return oplog.Snapshot{Number: number, At: seconds * second, Position: oplog.Position{Messages: int64(number), Bytes: bytes}}
	}
	for _, one := range []struct {
		pruned, now oplog.Snapshot
		want        int64
	}{
		{at(1, 10, 10), at(2, 20, 20), 0}, // 1 is younger than a minute
		{at(2, 20, 20), at(3, 69, 30), 0},
		{at(3, 69, 30), at(4, 71, 40), 1},
		{at(4, 71, 40), at(5, 131, 50), 4},
		{at(4, 71, 40), at(5, 131, 50), 4},
		{at(5, 131, 50), at(6, 140, 241), 5}, // 4 is 201 bytes before
		{at(6, 140, 241), at(7, 150, 242), 5},
	} {
		if kept := s.keepFrom(one.pruned, one.now); kept.Messages != one.want {
			t.Errorf("pruned up to %d at %d: replies are kept from %d, want %d", one.pruned.Number, one.now.Number, kept.Messages, one.want)
		}
	}
}
