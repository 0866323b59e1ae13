// The effect of each kind of note. Outside the proof.

package mesos

import (
	"bytes"
	"crypto/sha256"
	"fmt"
)

// apply applies a note. Answers are the names of refusals of the message's lines, or ok.
func (s *State) apply(n *Note, answers []string) {
	f := s.Frameworks[n.Framework]
	switch n.Kind {
	case NoteCluster:
		if s.Cluster == "" {
			s.Cluster = n.ID
		}
	case NoteSubscribe:
		s.subscribe(n, answers)
	case NoteAgent:
		s.register(n, answers)
	case NoteAgentLeave:
		if a := s.Agents[n.Agent]; a != nil && a.IsConnected && a.Stream == n.Stream {
			a.IsConnected, a.Left = false, s.at
			s.publish(Event{Kind: EventEnd, Stream: n.Stream})
		}
	case NoteDeactivate, NoteDrain, NoteGone, NoteReactivate:
		s.operate(n, answers)
	case NoteAck:
		for _, ack := range n.Acks {
			s.acknowledge(ack)
		}
	case NoteMessage:
		s.toAgent(n.Agent, Event{Kind: "MESSAGE", Framework: n.Framework, Executor: n.Executor, Data: n.Data})
	}
	if f == nil {
		return
	}
	switch n.Kind {
	case NoteUpdate:
		s.updateFramework(f, n)
	case NoteLeave:
		if f.IsConnected && f.Stream == n.Stream {
			s.publish(Event{Kind: EventEnd, Stream: n.Stream})
			f.IsConnected, f.IsOurs, f.Left = false, n.IsOurs, s.at
			s.changed(Change{Kind: FrameworkUpdated, Framework: *f})
		}
	case NoteAccept:
		s.launch(f, n, answers)
	case NoteKill:
		s.kill(f, n.Task, n.Agent, n.GraceMS)
	case NoteShutdown:
		if e := f.Executors[ExecutorKey(n.Agent, n.Executor)]; e != nil {
			s.shutDown(f, e)
			return
		}
		for _, name := range f.TaskNames() {
			if t := f.Tasks[name]; t.Agent == n.Agent && t.Executor == n.Executor && !IsTerminal(t.State) {
				s.kill(f, name, "", n.GraceMS)
			}
		}
	case NoteEnded:
		s.endExecutor(f, n)
	case NoteReconcile:
		s.reconcile(f, n.Asked)
	case NoteReport:
		s.toFramework(f, Event{Kind: "MESSAGE", Agent: n.Agent, Executor: n.Executor, Data: n.Data})
	case NoteStatus:
		s.status(f, n)
	}
}

// subscribe adds a framework, when its first line adds it to the allocator, or replaces its stream.
func (s *State) subscribe(n *Note, answers []string) {
	f, change := s.Frameworks[n.Framework], FrameworkUpdated
	switch {
	case f == nil && (len(answers) == 0 || answers[0] != "ok"):
		s.publish(Event{Kind: EventEnd, Stream: n.Stream, Message: "the allocator did not take the framework"})
		return
	case f == nil:
		f = &Framework{ID: n.Framework, Registered: s.at, Tasks: map[string]*Task{}}
		f.Roles = n.Subscription.Roles
		s.Frameworks[f.ID], s.IDs[n.Subscription.Name], change = f, f.ID, FrameworkAdded
	case !f.canTake(n.Subscription):
		s.publish(Event{Kind: EventEnd, Stream: n.Stream, Message: "the allocator did not take the roles of the framework"})
		return
	default:
		if f.Reregistered = s.at; f.IsConnected {
			s.publish(Event{Kind: EventEnd, Stream: f.Stream, Message: "Framework failed over"})
		}
	}
	f.take(n.Subscription)
	f.Stream, f.Gateway, f.IsConnected, f.IsOurs, f.Left = n.Stream, n.Gateway, true, false, 0
	s.changed(Change{Kind: change, Framework: *f})
	s.toFramework(f, Event{Kind: "SUBSCRIBED"})
	var offers []OfferOf
	for _, o := range s.OffersOf(f.ID) {
		if s.Agents[o.Agent] != nil {
			offers = append(offers, s.offerOf(o))
		}
	}
	if len(offers) > 0 {
		s.toFramework(f, Event{Kind: "OFFERS", Offers: offers})
	}
	for _, name := range f.TaskNames() {
		if t := f.Tasks[name]; len(t.Unacked) > 0 {
			s.update(f, t.Unacked[0])
		}
	}
}

// register adds an agent, or replaces its stream, when its last line activates it.
func (s *State) register(n *Note, answers []string) {
	if len(answers) == 0 || answers[len(answers)-1] != "ok" {
		s.publish(Event{Kind: EventEnd, Stream: n.Stream, Message: "the allocator did not take the agent"})
		return
	}
	a := s.Agents[n.Agent]
	isNew := a == nil
	if isNew {
		a = &Agent{ID: n.Agent, Registered: s.at}
		s.Agents[n.Agent] = a
	} else if a.Reregistered = s.at; a.IsConnected {
		s.publish(Event{Kind: EventEnd, Stream: a.Stream, Message: "the agent registered again"})
	}
	a.Info, a.Stream, a.Gateway, a.IsConnected, a.Left = n.Info, n.Stream, n.Gateway, true, 0
	if isNew {
		s.comeAgain(a)
		s.changed(Change{Kind: AgentAdded, Agent: *a})
	}
	var tasks []TaskOf
	for _, framework := range s.FrameworkIDs() {
		f := s.Frameworks[framework]
		for _, name := range f.tasksOn(a.ID) {
			if t := f.Tasks[name]; !IsTerminal(t.State) {
				tasks = append(tasks, taskOf(f, t))
			}
		}
	}
	s.toAgent(a.ID, Event{Kind: "REGISTERED", Tasks: tasks, Executors: s.executorsOn(a.ID)})
}

// launch adds the tasks of an ACCEPT whose lines were answered `ok`.
func (s *State) launch(f *Framework, n *Note, answers []string) {
	isOK := func(h Hold) bool { return h.Line < len(answers) && answers[h.Line] == "ok" }
	for _, l := range n.Launches {
		for _, h := range l.allHolds() {
			if key := HoldKey(f.Name, h.Name); isOK(h) {
				s.Users[key]++ // which is taken back where the task does not exist
			}
		}
	}
	for _, status := range n.Refused {
		if status.At = s.at; status.Reason != "REASON_INVALID_OFFERS" || !s.wasLaunched(f, status.Task, n.Call) {
			s.Ended[status.State]++
			s.update(f, status)
		}
	}
	var started []TaskOf
	for _, l := range n.Launches {
		refusal := Status{Task: l.Task, Agent: l.Agent, At: s.at}
		for _, h := range l.allHolds() {
			if !isOK(h) {
				refusal.State, refusal.Reason, refusal.Message = s.lost(f, "TASK_DROPPED"), "REASON_INVALID_OFFERS", "Task launched with invalid offers: "+answers[h.Line]
			}
		}
		if f.Tasks[l.Task] != nil && refusal.State == "" {
			refusal.State, refusal.Reason, refusal.Message = "TASK_ERROR", "REASON_TASK_INVALID", "Task has duplicate ID: "+l.Task
		}
		if refusal.State == "" {
			refusal.State, refusal.Reason, refusal.Message = s.checkExecutor(f, &l)
		}
		if refusal.State != "" {
			for _, h := range l.allHolds() {
				if isOK(h) {
					s.leaveHold(HoldKey(f.Name, h.Name))
				}
			}
			if refusal.Reason != "REASON_INVALID_OFFERS" || !s.wasLaunched(f, l.Task, n.Call) {
				s.Ended[refusal.State]++
				s.update(f, refusal)
			}
			continue
		}
		t := &Task{Launch: l, Number: s.number, Call: n.Call, State: "TASK_STAGING", GraceMS: -1, RunBy: s.useExecutor(f, &l)}
		t.ExecutorHolds, t.StartsExecutor = nil, false // which the executor has
		f.Tasks[l.Task] = t
		s.taskChanged(f, t, nil)
		started = append(started, taskOf(f, t))
	}
	byAgent := map[string][]TaskOf{}
	for _, one := range started {
		byAgent[f.Tasks[one.Task].Agent] = append(byAgent[f.Tasks[one.Task].Agent], one)
	}
	for agent, tasks := range byAgent { // one: an ACCEPT is of one agent
		s.toAgent(agent, Event{Kind: "RUN", Tasks: tasks})
	}
}

// wasLaunched reports whether a task was launched by an earlier ACCEPT of the same offers, which was sent again.
func (s *State) wasLaunched(f *Framework, task, call string) bool {
	if t := f.Tasks[task]; t != nil && t.Call == call {
		return true
	}
	for _, one := range s.Completed {
		if one.Framework == f.ID && one.Task == task && one.Call == call {
			return true
		}
	}
	return false
}

func (s *State) kill(f *Framework, task, agent string, graceMS int64) {
	t := f.Tasks[task]
	switch {
	case t == nil:
		s.update(f, s.unknown(f, task, agent))
	case agent != "" && agent != t.Agent: // as by Mesos, it is ignored
	case !IsTerminal(t.State):
		t.IsKilling, t.GraceMS = true, graceMS
		s.toAgent(t.Agent, Event{Kind: "KILL", Tasks: []TaskOf{taskOf(f, t)}})
		if t.State == "TASK_RUNNING" && t.RunBy == 0 && f.Has("TASK_KILLING_STATE") { // a custom executor sends it itself
			s.add(f, t, Status{Task: task, Agent: t.Agent, State: "TASK_KILLING", UUID: s.uuid(f, task), At: s.at})
		}
	}
}

// uuid returns the uuid of a status that no agent sent.
func (s *State) uuid(f *Framework, task string) []byte {
	sum := sha256.Sum256([]byte(fmt.Sprintf("%d %s %s", s.number, f.ID, task)))
	return sum[:16]
}

// unknown is the status of a task that is not known. Messages are applied in order, so all earlier messages are known.
func (s *State) unknown(f *Framework, task, agent string) Status {
	status := Status{Task: task, Agent: agent, State: s.lost(f, "TASK_UNKNOWN"), Reason: "REASON_RECONCILIATION", Message: "Reconciliation: Task is unknown", At: s.at}
	if s.Agents[agent] != nil {
		status.State, status.Message = s.lost(f, "TASK_GONE"), "Reconciliation: Task is unknown to the agent"
	}
	return status
}

// reconcile reports the latest states of the tasks that are asked for, or of all.
func (s *State) reconcile(f *Framework, asked []Asked) {
	if len(asked) == 0 {
		for _, name := range f.TaskNames() {
			asked = append(asked, Asked{Task: name})
		}
	}
	for _, one := range asked {
		t := f.Tasks[one.Task]
		if t == nil {
			s.update(f, s.unknown(f, one.Task, one.Agent))
			continue
		}
		status := Status{Task: t.Task, Agent: t.Agent, State: t.State, Reason: "REASON_RECONCILIATION", Message: "Reconciliation: Latest task state", At: s.at}
		if len(t.Unacked) > 0 { // the state that the framework has, or gets next: it never goes back to an earlier one
			status.State, status.Raw = t.Unacked[0].State, t.Unacked[0].Raw
		} else if t.Last != nil {
			status.Raw = t.Last.Raw
		}
		s.update(f, status)
	}
}

// status applies a status from an agent, unless the task has ended or the status is already known.
func (s *State) status(f *Framework, n *Note) {
	t := f.Tasks[n.Task]
	if t == nil || n.Status == nil || t.Number != n.Launch || t.Agent != n.Agent || IsTerminal(t.State) || t.Last != nil && bytes.Equal(t.Last.UUID, n.Status.UUID) {
		return
	}
	if t.State == "TASK_KILLING" && !IsTerminal(n.Status.State) || n.Status.State == "TASK_KILLING" && !f.Has("TASK_KILLING_STATE") {
		return // it was sent before the kill, or is a state that the framework does not know
	}
	status := *n.Status
	status.Task, status.Agent, status.At = t.Task, t.Agent, s.at
	s.add(f, t, status)
}

func (s *State) acknowledge(ack Ack) {
	f := s.Frameworks[ack.Framework]
	if f == nil {
		return
	}
	t := f.Tasks[ack.Task]
	if t == nil || len(t.Unacked) == 0 || !bytes.Equal(t.Unacked[0].UUID, ack.UUID) {
		return
	}
	switch t.Unacked = append([]Status(nil), t.Unacked[1:]...); {
	case len(t.Unacked) > 0:
		s.update(f, t.Unacked[0])
	case IsTerminal(t.State):
		s.complete(f, t)
	}
}
