// Tests of operators' changes to agents, and of what operators see. Outside the proof.

package mesos

import (
	"fmt"
	"reflect"
	"strings"
	"testing"

	"gateway/internal/mesos/codec"
	"gateway/internal/registry"
)

// list is a state with a list of messages, which all lines answer with ok.
type list struct {
	*State
	number int64
	events []string // kinds of what streams and operators get
}

func newList() *list {
	l := &list{}
	l.State = New(func(e Event) { l.events = append(l.events, strings.TrimSpace(e.Kind+" "+e.Stream)) })
	l.Watch(func(c Change) { l.events = append(l.events, c.Kind) })
	return l
}

// put applies a message.
func (l *list) put(n *Note, lines ...string) {
	l.number++
	m := &registry.Message{Number: l.number, At: 1000 * l.number}
	if n != nil {
		m.Note = n.Encode()
	}
	for _, one := range lines {
		m.Lines, m.Replies = append(m.Lines, []byte(one)), append(m.Replies, []byte(isOK))
	}
	l.Apply(m)
}

func taskInfoOf(id string, graceSeconds int64) []byte {
	m := codec.New("mesos.TaskInfo").Set("name", "name of "+id).Set("task_id.value", id).Set("agent_id.value", "n1").Set("command.value", strings.Repeat("x", 5000))
	if graceSeconds > 0 {
		m.Set("kill_policy.grace_period.nanoseconds", graceSeconds*1_000_000_000)
	}
	return m.Protobuf()
}

// begin adds an agent and a framework, and launches tasks with times of grace in seconds.
func (l *list) begin(graces ...int64) {
	info := codec.New("mesos.AgentInfo").Set("hostname", "h").Set("id.value", "n1").Protobuf()
	l.put(&Note{Kind: NoteAgent, Agent: "n1", Stream: "a", Info: info}, line("add_agent", "agent", "n1"), line("activate_agent", "agent", "n1"))
	l.put(&Note{Kind: NoteSubscribe, Framework: "f", Stream: "s", Subscription: &Subscription{Name: "f", Roles: []string{"web"}, Capabilities: []string{"PARTITION_AWARE"}}}, line("add_framework", "framework", "f"))
	n := &Note{Kind: NoteAccept, Framework: "f"}
	for k, grace := range graces {
		id := fmt.Sprintf("t%d", k)
		n.Launches = append(n.Launches, Launch{Task: id, Agent: "n1", Executor: id, Info: taskInfoOf(id, grace), Role: "web", Holds: []Hold{{Name: id}}})
	}
	l.put(n, line("accept", "framework", "f", "offer", 1))
}

// end reports the end of a task, and acknowledges it.
func (l *list) end(task string) {
	uuid := []byte("0123456789abcdef")
	l.put(&Note{Kind: NoteStatus, Framework: "f", Task: task, Agent: "n1", Launch: l.Frameworks["f"].Tasks[task].Number, Status: &Status{State: "TASK_KILLED", UUID: uuid}})
	l.put(&Note{Kind: NoteAck, Acks: []Ack{{Framework: "f", Task: task, UUID: uuid}}})
}

func (l *list) drain() string {
	if d := l.Agents["n1"].Drain; d != nil {
		return d.State
	}
	return ""
}

func TestDrainFold(t *testing.T) {
	l, most := newList(), int64(5000)
	l.begin(60, 1, 0)
	l.events = nil
	l.put(&Note{Kind: NoteDrain, Agent: "n1", MaxGraceMS: &most}, line("deactivate_agent", "agent", "n1"))
	tasks := l.Frameworks["f"].Tasks
	if strings.Join(l.events, ", ") != "KILL a, KILL a, KILL a" || tasks["t0"].GraceMS != 5000 || tasks["t1"].GraceMS != 1000 || tasks["t2"].GraceMS != 3000 || !tasks["t0"].IsKilling || l.drain() != Draining || !l.Agents["n1"].IsDeactivated {
		t.Errorf("%v %+v %+v", l.events, l.Agents["n1"], tasks["t0"])
	}
	l.end("t0")
	l.end("t1")
	restored := newList() // another gateway continues from a snapshot
	if err := restored.Restore(l.Snapshot()); err != nil || string(restored.Snapshot()) != string(l.Snapshot()) {
		t.Fatal(err)
	}
	restored.number, l = l.number, restored
	if l.drain() != Draining {
		t.Errorf("%s with a task that is left", l.drain())
	}
	l.end("t2")
	if l.drain() != Drained || !l.Agents["n1"].IsDeactivated {
		t.Errorf("%+v", l.Agents["n1"])
	}
	l.put(nil, line("activate_agent", "agent", "n1"))
	if l.drain() != "" || l.Agents["n1"].IsDeactivated {
		t.Errorf("%+v", l.Agents["n1"])
	}
}

// A drain ends when the framework of the last task is removed; a drain without tasks ends at once. A call that the allocator refuses has no effect.
func TestDrainEnds(t *testing.T) {
	l := newList()
	l.begin(0)
	l.put(&Note{Kind: NoteDrain, Agent: "n1", MarkGone: true}, line("deactivate_agent", "agent", "n1"))
	l.put(nil, line("remove_framework", "framework", "f"))
	if l.drain() != Drained || !l.Agents["n1"].Drain.MarkGone {
		t.Errorf("%+v", l.Agents["n1"].Drain)
	}
	l.put(&Note{Kind: NoteDrain, Agent: "n1"}, line("deactivate_agent", "agent", "n1"))
	if l.drain() != Drained || l.Agents["n1"].Drain.MarkGone {
		t.Errorf("%+v", l.Agents["n1"].Drain)
	}
	l = newList()
	l.begin(0)
	for _, kind := range []string{NoteDrain, NoteDeactivate, NoteGone} {
		n := &Note{Kind: kind, Agent: "n1"}
		l.number++
		l.Apply(&registry.Message{Number: l.number, Note: n.Encode(), Lines: [][]byte{[]byte(line("deactivate_agent", "agent", "n1"))}, Replies: [][]byte{[]byte(refused)}})
		l.put(&Note{Kind: kind, Agent: "n9"})
	}
	if l.drain() != "" || l.Agents["n1"].IsDeactivated || l.IsGone("n1") || l.Frameworks["f"].Tasks["t0"].IsKilling {
		t.Errorf("%+v", l.Agents["n1"])
	}
}

func TestGoneFold(t *testing.T) {
	l := newList()
	l.begin(0)
	l.events = nil
	l.put(&Note{Kind: NoteGone, Agent: "n1"}, line("remove_agent", "agent", "n1"))
	if state := l.Frameworks["f"].Tasks["t0"].State; state != "TASK_GONE_BY_OPERATOR" || !l.IsGone("n1") || l.Agents["n1"] != nil || l.Ended[state] != 1 {
		t.Errorf("%s %v", state, l.Gone)
	}
	if text := strings.Join(l.events, ", "); text != "END a, TASK_UPDATED, UPDATE s, FAILURE s, AGENT_REMOVED" {
		t.Error(text)
	}
	for k := 0; k < maxGone+5; k++ {
		l.put(&Note{Kind: NoteGone, Agent: fmt.Sprint(k)}, line("remove_agent", "agent", fmt.Sprint(k)))
	}
	if len(l.Gone) != maxGone || l.IsGone("n1") || l.IsGone("4") || !l.IsGone("5") {
		t.Error(len(l.Gone))
	}
}

// Of a completed task, operators see a short description and the states that it entered, with their times.
func TestCompletedTasksAreKnown(t *testing.T) {
	l := newList()
	l.begin(0)
	n := l.Frameworks["f"].Tasks["t0"].Number
	l.put(&Note{Kind: NoteStatus, Framework: "f", Task: "t0", Agent: "n1", Launch: n, Status: &Status{State: "TASK_RUNNING", UUID: []byte("1234567890123456")}})
	l.put(&Note{Kind: NoteAck, Acks: []Ack{{Framework: "f", Task: "t0", UUID: []byte("1234567890123456")}}})
	l.end("t0")
	known := l.Known(nil)
	if len(known.Completed) != 1 || len(known.Frameworks) != 1 || len(known.Frameworks[0].Tasks) != 0 || known.Ended["TASK_KILLED"] != 1 {
		t.Fatalf("%+v", known)
	}
	done := known.Completed[0]
	if want := []Moment{{"TASK_RUNNING", 4000}, {"TASK_KILLED", 6000}}; !reflect.DeepEqual(done.Moments, want) || len(done.Info) > maxBrief || done.Executor != "" || done.Role != "web" {
		t.Errorf("%+v", done)
	}
	if info := codec.MustReadProtobuf("mesos.TaskInfo", done.Info); info.Text("name") != "name of t0" || info.Has("command") {
		t.Errorf("%s", info.JSON())
	}
	task := Task{}
	for k := 0; k < 100; k++ {
		task.remember([]string{"TASK_RUNNING", "TASK_STAGING"}[k%2], int64(k))
		task.remember([]string{"TASK_RUNNING", "TASK_STAGING"}[k%2], int64(k))
	}
	if n := len(task.Moments); n != maxMoments || task.Moments[0].At != 0 || task.Moments[n-1].At != 99 {
		t.Errorf("%v", task.Moments)
	}
}

// Copies stay as they are while the state changes.
func TestKnownIsACopy(t *testing.T) {
	l := newList()
	l.begin(0, 0)
	wasCalled := false
	known := l.Known(func() { wasCalled = true })
	before := fmt.Sprintf("%+v", known)
	l.put(&Note{Kind: NoteDrain, Agent: "n1"}, line("deactivate_agent", "agent", "n1"))
	l.end("t0")
	l.put(nil, line("remove_framework", "framework", "f"))
	if after := fmt.Sprintf("%+v", known); !wasCalled || after != before {
		t.Errorf("%s\n%s", before, after)
	}
}

// An agent that was deactivated and then removed because it stayed away is deactivated when it registers again, unless it was reactivated in the
// meantime.
func TestDeactivationIsKept(t *testing.T) {
	register := func(l *list, last string) {
		l.put(&Note{Kind: NoteAgent, Agent: "n1", Stream: "b", Info: []byte("x")}, line("add_agent", "agent", "n1"), line(last, "agent", "n1"))
	}
	for _, isReactivated := range []bool{false, true} {
		l := newList()
		l.begin(0)
		l.put(&Note{Kind: NoteDrain, Agent: "n1"}, line("deactivate_agent", "agent", "n1"))
		l.put(nil, line("remove_agent", "agent", "n1"))
		if l.Agents["n1"] != nil || !l.IsDeactivated("n1") || l.IsDeactivated("n2") {
			t.Fatalf("%+v %+v", l.Agents["n1"], l.Kept)
		}
		if isReactivated {
			l.put(&Note{Kind: NoteReactivate, Agent: "n1"})
			register(l, "activate_agent")
		} else {
			register(l, "deactivate_agent")
		}
		if a := l.Agents["n1"]; a.IsDeactivated == isReactivated || (l.drain() == Draining) == isReactivated || len(l.Kept) != 0 { // a status is not acknowledged
			t.Errorf("%v: %+v %+v", isReactivated, a, l.Kept)
		}
	}
	l := newList()
	l.begin(0)
	l.put(&Note{Kind: NoteDeactivate, Agent: "n1"}, line("deactivate_agent", "agent", "n1"))
	l.put(&Note{Kind: NoteGone, Agent: "n1"}, line("remove_agent", "agent", "n1"))
	if len(l.Kept) != 0 {
		t.Errorf("%+v", l.Kept)
	}
	l.put(nil)
	for k := 0; k < maxKept+5; k++ {
		l.keep(&Agent{ID: fmt.Sprint(k), IsDeactivated: true})
	}
	if len(l.Kept) != maxKept {
		t.Error(len(l.Kept))
	}
}

// operate is something that operators do to an agent.
func (w *world) operate(agent string) *registry.Message {
	switch w.Intn(8) {
	case 0, 1, 2:
		return w.message(&Note{Kind: NoteDrain, Agent: agent, MarkGone: w.Intn(2) == 0}, line("deactivate_agent", "agent", agent))
	case 3:
		return w.message(&Note{Kind: NoteDeactivate, Agent: agent}, line("deactivate_agent", "agent", agent))
	case 4, 5:
		return w.message(nil, line("activate_agent", "agent", agent))
	case 6:
		return w.message(&Note{Kind: NoteGone, Agent: agent}, line("remove_agent", "agent", agent))
	}
	return w.message(&Note{Kind: NoteReactivate, Agent: agent})
}

// checkDrains checks that an agent is drained exactly while it has no task, and that those of one that is not are to be killed.
func checkDrains(s *State) error {
	for _, a := range s.Agents {
		tasks := 0
		for _, f := range s.Frameworks {
			for _, t := range f.Tasks {
				if t.Agent != a.ID {
					continue
				}
				if tasks++; a.Drain != nil && !IsTerminal(t.State) && !t.IsKilling {
					return fmt.Errorf("task %s runs on %s, which is drained", t.Task, a.ID)
				}
			}
		}
		if a.Drain != nil && (a.Drain.State == Drained) != (tasks == 0) {
			return fmt.Errorf("the drain of %s is %s with %d tasks", a.ID, a.Drain.State, tasks)
		}
	}
	return nil
}
