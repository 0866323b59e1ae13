// Compares the registry's state with a small allocator and a slow definition. Outside the proof.

package mesos

import (
	"crypto/sha256"
	"encoding/json"
	"fmt"
	"reflect"
	"sort"
	"strings"
	"testing"

	"gateway/internal/registry"
)

// slowTask is a task as the definition has it.
type slowTask struct {
	framework, task, agent string
	executor, state        string
	number                 int64
	statuses               []string // uuids, in order
	acked                  int
	isDone                 bool // no status is taken any more
	isRunBy                bool // a custom executor
}

// uuidOf is the uuid of a status of the service's own: the first half of a digest of the message and the task.
func uuidOf(m *registry.Message, t *slowTask) string {
	sum := sha256.Sum256([]byte(fmt.Sprint(m.Number) + " " + t.framework + " " + t.task))
	return string(sum[:16])
}

// slowExecutor is a custom executor as the definition has it.
type slowExecutor struct {
	framework, agent, id, info string
	number                     int64
	isEnding                   bool
}

// define derives the outcome of each task that was ever launched from all messages.
func define(messages []*registry.Message) (rows []string) {
	var tasks []*slowTask
	var executors []*slowExecutor
	find := func(framework, agent, id string) *slowExecutor {
		for _, e := range executors {
			if e.framework == framework && e.agent == agent && e.id == id {
				return e
			}
		}
		return nil
	}
	dropExecutors := func(is func(e *slowExecutor) bool) {
		kept := executors[:0:0]
		for _, e := range executors {
			if !is(e) {
				kept = append(kept, e)
			}
		}
		executors = kept
	}
	isFramework, ofName, knowsKilling := map[string]bool{}, map[string]string{}, map[string]bool{}
	roles, stream := map[string]map[string]bool{}, map[string]string{}
	hasAll := func(sub *Subscription) bool {
		for _, role := range sub.Roles {
			if !roles[sub.Name][role] {
				return false
			}
		}
		return true
	}
	for _, m := range messages {
		n, _ := decode(m.Note)
		for k, line := range m.Lines {
			if registry.AnswerOf(m.Replies[k]) != "ok" {
				continue
			}
			fields := registry.Fields(line)
			switch registry.Kind(line) {
			case "add_framework", "set_framework":
				var list []string
				json.Unmarshal(fields["roles"], &list)
				roles[registry.Text(fields, "framework")] = setOf(list)
			case "remove_framework":
				id := ofName[registry.Text(fields, "framework")]
				isFramework[id] = false
				kept := tasks[:0:0]
				for _, t := range tasks {
					if t.framework != id {
						kept = append(kept, t)
					}
				}
				tasks = kept
				dropExecutors(func(e *slowExecutor) bool { return e.framework == id })
			case "remove_agent":
				dropExecutors(func(e *slowExecutor) bool { return e.agent == registry.Text(fields, "agent") })
				for _, t := range tasks {
					if t.agent == registry.Text(fields, "agent") && !t.isDone {
						t.isDone, t.statuses = true, append(t.statuses, uuidOf(m, t))
					}
				}
			}
		}
		switch n.Kind {
		case NoteSubscribe:
			if (isFramework[n.Framework] || registry.AnswerOf(m.Replies[0]) == "ok") && hasAll(n.Subscription) {
				stream[n.Framework] = n.Stream
				isFramework[n.Framework], ofName[n.Subscription.Name], knowsKilling[n.Framework] = true, n.Framework, n.Subscription.Has("TASK_KILLING_STATE")
			}
		case NoteUpdate:
			if isFramework[n.Framework] && stream[n.Framework] == n.Stream && hasAll(n.Subscription) {
				knowsKilling[n.Framework] = n.Subscription.Has("TASK_KILLING_STATE")
			}
		case NoteLeave:
			if stream[n.Framework] == n.Stream {
				stream[n.Framework] = ""
			}
		case NoteAccept:
			for _, l := range n.Launches {
				does := isFramework[n.Framework]
				for _, h := range append(append([]Hold(nil), l.Holds...), l.ExecutorHolds...) {
					does = does && registry.AnswerOf(m.Replies[h.Line]) == "ok"
				}
				for _, t := range tasks {
					does = does && (t.framework != n.Framework || t.task != l.Task)
				}
				e := find(n.Framework, l.Agent, l.Executor)
				if len(l.ExecutorInfo) > 0 {
					does = does && (e != nil || l.StartsExecutor) && (e == nil || !e.isEnding && e.info == string(l.ExecutorInfo))
				}
				if does && len(l.ExecutorInfo) > 0 && e == nil {
					executors = append(executors, &slowExecutor{framework: n.Framework, agent: l.Agent, id: l.Executor, info: string(l.ExecutorInfo), number: m.Number})
				}
				if does {
					tasks = append(tasks, &slowTask{framework: n.Framework, task: l.Task, agent: l.Agent, executor: l.Executor, number: m.Number, isRunBy: len(l.ExecutorInfo) > 0})
				}
			}
		case NoteKill, NoteShutdown:
			if e := find(n.Framework, n.Agent, n.Executor); e != nil && n.Kind == NoteShutdown {
				e.isEnding = true
				continue
			}
			for _, t := range tasks {
				isMeant := t.task == n.Task && (n.Agent == "" || n.Agent == t.agent)
				if n.Kind == NoteShutdown {
					isMeant = t.executor == n.Executor && t.agent == n.Agent
				}
				if t.framework == n.Framework && isMeant && t.state == "TASK_RUNNING" && !t.isDone && !t.isRunBy && knowsKilling[n.Framework] {
					t.statuses, t.state = append(t.statuses, uuidOf(m, t)), "TASK_KILLING"
				}
			}
		case NoteDrain:
			for _, t := range tasks {
				if t.agent == n.Agent && registry.AnswerOf(m.Replies[0]) == "ok" && t.state == "TASK_RUNNING" && !t.isDone && !t.isRunBy && knowsKilling[t.framework] {
					t.statuses, t.state = append(t.statuses, uuidOf(m, t)), "TASK_KILLING"
				}
			}
		case NoteEnded:
			dropExecutors(func(e *slowExecutor) bool {
				return e.framework == n.Framework && e.agent == n.Agent && e.id == n.Executor && e.number == n.Launch
			})
		case NoteStatus:
			for _, t := range tasks {
				isNew := len(t.statuses) == 0 || t.statuses[len(t.statuses)-1] != string(n.Status.UUID)
				isLate := t.state == "TASK_KILLING" && !IsTerminal(n.Status.State) || n.Status.State == "TASK_KILLING" && !knowsKilling[n.Framework]
				if t.framework == n.Framework && t.task == n.Task && t.number == n.Launch && !t.isDone && isNew && !isLate {
					t.statuses, t.state, t.isDone = append(t.statuses, string(n.Status.UUID)), n.Status.State, IsTerminal(n.Status.State)
				}
			}
		case NoteAck:
			kept := tasks[:0:0]
			for _, t := range tasks {
				for _, ack := range n.Acks {
					if ack.Framework == t.framework && ack.Task == t.task && t.acked < len(t.statuses) && t.statuses[t.acked] == string(ack.UUID) {
						t.acked++
					}
				}
				if !t.isDone || t.acked < len(t.statuses) {
					kept = append(kept, t)
				}
			}
			tasks = kept
		}
	}
	for _, t := range tasks {
		rows = append(rows, fmt.Sprintf("%s %s %d: %d of %d, done %v", t.framework, t.task, t.number, t.acked, len(t.statuses), t.isDone))
	}
	for _, e := range executors {
		rows = append(rows, fmt.Sprintf("executor %s %s %s %s %d: ending %v", e.framework, e.agent, e.id, e.info, e.number, e.isEnding))
	}
	sort.Strings(rows)
	return rows
}

// check compares a state with the allocator.
func (w *world) check(s *State) error {
	holds := map[string]bool{}
	for key := range s.Users {
		holds[key] = true
	}
	for key := range s.Unused {
		if holds[key] {
			return fmt.Errorf("the hold %s is used and unused", key)
		}
		holds[key] = true
	}
	for key := range w.tasks {
		if !holds[key] {
			return fmt.Errorf("the allocator's task %s leaks", key)
		}
	}
	for key := range s.Users { // one that is unused may have gone with its agent
		if w.tasks[key] == "" {
			return fmt.Errorf("the hold %s is not a task of the allocator's", key)
		}
	}
	for _, f := range s.Frameworks {
		for _, e := range f.Executors {
			for _, h := range e.Holds {
				if key := HoldKey(f.Name, h.Name); s.Users[key] == 0 {
					return fmt.Errorf("executor %s runs without its hold %s", e.ID, key)
				}
			}
		}
		for _, t := range f.Tasks {
			for _, h := range t.Holds {
				if key := HoldKey(f.Name, h.Name); !IsTerminal(t.State) && s.Users[key] == 0 {
					return fmt.Errorf("task %s runs without its hold %s", t.Task, key)
				}
			}
		}
	}
	if !reflect.DeepEqual(w.offers, s.Offers) {
		return fmt.Errorf("the offers %v are not the allocator's %v", s.Offers, w.offers)
	}
	if err := w.checkRoles(s); err != nil {
		return err
	}
	if err := checkDrains(s); err != nil {
		return err
	}
	if len(s.Frameworks) != len(w.frameworks) || len(s.IDs) != len(s.Frameworks) {
		return fmt.Errorf("%d frameworks, and %d of the allocator's", len(s.Frameworks), len(w.frameworks))
	}
	return nil
}

// streams checks the published events: nothing comes on a stream before its first event or after its end, and updates of a task are in order.
type streams struct {
	first  map[string]bool
	ended  map[string]bool
	failed string
}

func (c *streams) publish(e Event) {
	switch {
	case e.Kind == EventReset:
	case e.Kind == EventEnd:
		c.ended[e.Stream] = true
	case c.ended[e.Stream]:
		c.failed = fmt.Sprintf("%s came after the end of %s", e.Kind, e.Stream)
	case e.Kind == "SUBSCRIBED" || e.Kind == "REGISTERED":
		if c.first[e.Stream] {
			c.failed = "a stream begins twice"
		}
		c.first[e.Stream] = true
	case !c.first[e.Stream]:
		c.failed = fmt.Sprintf("%s came before the beginning of %s", e.Kind, e.Stream)
	}
}

// Random messages of gateways whose knowledge can be outdated, with restarts from snapshots in between.
func TestFoldIsAsDefined(t *testing.T) {
	const seeds, steps = 200, 500
	launched, ended, executors, left := 0, 0, 0, 0
	for seed := int64(1); seed <= seeds; seed++ {
		w, c := newWorld(seed), &streams{first: map[string]bool{}, ended: map[string]bool{}}
		s := New(c.publish)
		seen := New(func(Event) {})
		var messages []*registry.Message
		known := 0 // of seen
		for step := 0; step < steps; step++ {
			if w.Intn(4) == 0 {
				for _, m := range messages[known:] {
					seen.Apply(m)
				}
				known = len(messages)
			}
			m := w.random(seen)
			messages = append(messages, m)
			s.Apply(m)
			if err := w.check(s); err != nil || c.failed != "" {
				t.Fatalf("seed %d, message %d: %v %s\n%s %s", seed, m.Number, err, c.failed, m.Lines, m.Note)
			}
			if w.Intn(50) == 0 { // a restart
				restored := New(c.publish)
				if err := restored.Restore(s.Snapshot()); err != nil || string(restored.Snapshot()) != string(s.Snapshot()) {
					t.Fatalf("seed %d, message %d: restored as %s, want %s (%v)", seed, m.Number, restored.Snapshot(), s.Snapshot(), err)
				}
				s = restored
			}
			if step%250 == 249 {
				if got, want := rowsOf(s), define(messages); !reflect.DeepEqual(got, want) {
					t.Fatalf("seed %d, message %d:\n%s\nwant\n%s", seed, m.Number, strings.Join(got, "\n"), strings.Join(want, "\n"))
				}
			}
		}
		for _, m := range messages {
			n, is := decode(m.Note)
			if is && n.Kind == NoteAccept {
				launched += len(n.Launches)
			}
			if is && n.Kind == NoteEnded {
				executors++
			}
		}
		ended, left = ended+len(s.Completed), left+w.left
	}
	if launched < 10000 || ended < 1000 || executors < 1000 || left < 1000 {
		t.Errorf("only %d launches, %d ends, %d ends of executors and %d roles that were left", launched, ended, executors, left)
	}
}

func rowsOf(s *State) (rows []string) {
	for _, f := range s.Frameworks {
		for _, t := range f.Tasks {
			rows = append(rows, fmt.Sprintf("%s %s %d: %s, done %v", f.ID, t.Task, t.Number, progressOf(t), IsTerminal(t.State)))
		}
		for _, e := range f.Executors {
			rows = append(rows, fmt.Sprintf("executor %s %s %s %s %d: ending %v", f.ID, e.Agent, e.ID, e.Info, e.Number, e.IsEnding))
		}
	}
	sort.Strings(rows)
	return rows
}

// progressOf counts statuses by what the test's world put into the row.
func progressOf(t *Task) string {
	return fmt.Sprintf("%d of %d", t.Taken-len(t.Unacked), t.Taken)
}

func TestPruning(t *testing.T) {
	s, w := New(func(Event) {}), newWorld(1)
	for k := 0; k < maxRemoved+5; k++ {
		name := fmt.Sprintf("x.%d", k)
		s.Apply(w.message(&Note{Kind: NoteSubscribe, Framework: fmt.Sprint(k), Stream: "s", Subscription: &Subscription{Name: name}}, line("add_framework", "framework", name)))
		for n := 0; n < 30; n++ {
			s.complete(s.Frameworks[fmt.Sprint(k)], &Task{Launch: Launch{Task: fmt.Sprint(n)}, State: "TASK_FINISHED"})
		}
		s.Apply(w.message(nil, line("remove_framework", "framework", name)))
	}
	if len(s.Removed) != maxRemoved || len(s.Completed) != maxCompleted || s.WasRemoved("4") || !s.WasRemoved("5") || len(s.Frameworks) != 0 {
		t.Error(len(s.Removed), len(s.Completed), len(s.Frameworks))
	}
}

func TestNotesOfOthersAreIgnored(t *testing.T) {
	s := New(func(Event) {})
	empty := string(s.Snapshot())
	for _, note := range []string{"", "x", "{}", `{"kind":"cluster","id":"c"}`, `[1]`, `{"mesos":7}`, `{"mesos":"unknown"}`, `{"mesos":"accept"}`, `{"mesos":"status","framework":"f"}`} {
		s.Apply(&registry.Message{Number: 1, Note: []byte(note)})
	}
	if string(s.Snapshot()) != empty {
		t.Errorf("%s", s.Snapshot())
	}
	if err := s.Restore([]byte("x")); err == nil {
		t.Error("a broken snapshot was restored")
	}
	if err := s.Restore(nil); err != nil || s.Snapshot() != nil {
		t.Error(err)
	}
}
