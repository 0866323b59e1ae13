// How lines and notes change the rows. A note takes effect if the replies to its own lines allow it. Outside the proof.

package mesos

import (
	"bytes"
	"encoding/json"

	"gateway/internal/registry"
)

// Begin starts an epoch: numbers of offers begin again.
func (s *State) Begin(epoch int) {
	s.mu.Lock()
	defer s.mu.Unlock()
	s.endOffers(func(Offer) bool { return true })
	s.Epoch = epoch
}

// Apply applies a message with its replies.
func (s *State) Apply(m *registry.Message) {
	s.mu.Lock()
	defer s.mu.Unlock()
	s.number, s.at = m.Number, m.At
	n, isNote := decode(m.Note)
	s.isGone = isNote && n.Kind == NoteGone
	answers := make([]string, len(m.Lines))
	for k, line := range m.Lines {
		answers[k] = registry.AnswerOf(m.Replies[k])
		s.follow(registry.Kind(line), line, m.Replies[k], answers[k] == "ok")
	}
	if isNote {
		s.apply(&n, answers)
	}
}

// follow applies a line, whoever sent it.
func (s *State) follow(kind string, line, reply []byte, isOK bool) {
	switch {
	case kind == "finish": // where it is refused, there is no such hold
		fields := registry.Fields(line)
		key := HoldKey(registry.Text(fields, "framework"), registry.Text(fields, "task"))
		delete(s.Users, key)
		delete(s.Unused, key)
	case !isOK:
	case kind == "cycle":
		s.addOffers(reply)
	case kind == "accept", kind == "decline":
		delete(s.Offers, numberOf(line))
	case kind == "rescind":
		if o, is := s.Offers[numberOf(line)]; is {
			s.endOffer(o)
		}
	case kind == "deactivate_agent":
		name := registry.TextOf(line, "agent")
		s.endOffers(func(o Offer) bool { return o.Agent == name })
	case kind == "activate_agent":
		s.reactivate(registry.TextOf(line, "agent"))
	case kind == "remove_agent":
		name := registry.TextOf(line, "agent")
		s.endOffers(func(o Offer) bool { return o.Agent == name })
		s.removeAgent(name)
	case kind == "set_framework":
		s.setRoles(line)
	case kind == "remove_framework":
		s.removeFramework(registry.TextOf(line, "framework"))
	}
}

func numberOf(line []byte) (number uint64) {
	json.Unmarshal(registry.Fields(line)["offer"], &number)
	return number
}

func (s *State) addOffers(reply []byte) {
	var made struct{ Offers []Offer }
	json.Unmarshal(reply, &made)
	byFramework, order := map[string][]OfferOf{}, []string{}
	for _, o := range made.Offers {
		id, is := s.IDs[o.Framework]
		if !is {
			continue
		}
		s.Offers[o.Offer] = o
		if s.Agents[o.Agent] == nil { // it has no link, and runs no task of Mesos': a gateway declines the offer
			continue
		}
		if byFramework[id] == nil {
			order = append(order, id)
		}
		byFramework[id] = append(byFramework[id], s.offerOf(o))
	}
	for _, id := range order {
		s.toFramework(s.Frameworks[id], Event{Kind: "OFFERS", Offers: byFramework[id]})
	}
}

func (s *State) offerOf(o Offer) OfferOf {
	id := s.IDs[o.Framework]
	one := OfferOf{s.OfferID(o.Offer), o, s.Frameworks[id].Subscription, nil}
	if a := s.Agents[o.Agent]; a != nil {
		one.AgentInfo = a.Info
	}
	return one
}

func (s *State) endOffers(is func(Offer) bool) {
	for _, o := range s.offersWith(is) {
		s.endOffer(o)
	}
}

func (s *State) endOffer(o Offer) {
	if s.Agents[o.Agent] != nil { // or its framework does not know it
		s.toFramework(s.Frameworks[s.IDs[o.Framework]], Event{Kind: "RESCIND", Message: s.OfferID(o.Offer)})
	}
	delete(s.Offers, o.Offer)
}

func (s *State) toFramework(f *Framework, e Event) {
	if f != nil && f.IsConnected {
		e.Stream, e.Framework = f.Stream, f.ID
		s.publish(e)
	}
}

func (s *State) toAgent(id string, e Event) {
	if a := s.Agents[id]; a != nil && a.IsConnected {
		e.Stream = a.Stream
		s.publish(e)
	}
}

func (s *State) update(f *Framework, status Status) {
	s.toFramework(f, Event{Kind: "UPDATE", Status: &status})
}

// removeFramework ends a framework's tasks. Its holds went with it.
func (s *State) removeFramework(name string) {
	id, is := s.IDs[name]
	if !is {
		return
	}
	f := s.Frameworks[id]
	for _, o := range s.OffersOf(id) {
		delete(s.Offers, o.Offer)
	}
	for _, key := range f.ExecutorKeys() {
		s.shutDown(f, f.Executors[key])
	}
	for _, task := range f.TaskNames() {
		t := f.Tasks[task]
		if !IsTerminal(t.State) {
			s.toAgent(t.Agent, Event{Kind: "KILL", Tasks: []TaskOf{taskOf(f, t)}})
			t.State = "TASK_KILLED"
			t.remember(t.State, s.at)
			s.Ended[t.State]++
			s.taskChanged(f, t, &Status{Task: t.Task, Agent: t.Agent, State: t.State, Reason: "REASON_FRAMEWORK_REMOVED", Message: "Framework " + f.ID + " removed", At: s.at})
		}
		for _, h := range t.Holds {
			delete(s.Users, HoldKey(name, h.Name))
			delete(s.Unused, HoldKey(name, h.Name))
		}
		s.complete(f, t)
	}
	s.dropExecutors(f, "")
	for key := range s.Unused { // holds that no task has any more
		if framework, _, _ := bytes.Cut([]byte(key), []byte("/")); string(framework) == name {
			delete(s.Unused, key)
		}
	}
	if f.IsConnected {
		s.publish(Event{Kind: EventEnd, Stream: f.Stream})
	}
	delete(s.Frameworks, id)
	delete(s.IDs, name)
	s.changed(Change{Kind: FrameworkRemoved, Framework: *f})
	if s.Removed = append(s.Removed, Removed{id, s.at, f.Subscription}); len(s.Removed) > maxRemoved {
		s.Removed = append([]Removed(nil), s.Removed[len(s.Removed)-maxRemoved:]...)
	}
}

// complete moves a terminal task to the completed ones, which nobody waits for.
func (s *State) complete(f *Framework, t *Task) {
	delete(f.Tasks, t.Task)
	done := Completed{Framework: f.ID, Task: t.Task, Agent: t.Agent, State: t.State, Call: t.Call, At: s.at, Executor: t.OwnExecutor(), Role: t.Role, Info: brief(t.Info), Moments: t.Moments}
	if s.Completed = append(s.Completed, done); len(s.Completed) > maxCompleted {
		s.Completed = s.Completed[len(s.Completed)-maxCompleted:] // the next append but some moves them, and frees what is before
	}
	s.checkDrained(t.Agent)
}

// removeAgent ends an agent's tasks. Its holds went with it.
func (s *State) removeAgent(id string) {
	a := s.Agents[id]
	delete(s.Agents, id)
	if a != nil {
		defer s.changed(Change{Kind: AgentRemoved, Agent: *a})
		s.keep(a)
	}
	if a != nil && a.IsConnected {
		s.publish(Event{Kind: EventEnd, Stream: a.Stream, Message: "the agent was removed"})
	}
	for _, framework := range s.FrameworkIDs() {
		f := s.Frameworks[framework]
		for _, name := range f.tasksOn(id) {
			if t := f.Tasks[name]; !IsTerminal(t.State) {
				s.add(f, t, Status{Task: name, Agent: id, State: s.lost(f, goneState[s.isGone]), Reason: "REASON_AGENT_REMOVED", Message: "Agent " + id + " was removed", UUID: s.uuid(f, name), At: s.at})
			}
			if t := f.Tasks[name]; t != nil {
				for _, h := range t.Holds {
					delete(s.Users, HoldKey(f.Name, h.Name))
					delete(s.Unused, HoldKey(f.Name, h.Name))
				}
			}
		}
		s.dropExecutors(f, id)
		if a != nil {
			s.toFramework(f, Event{Kind: "FAILURE", Agent: id})
		}
	}
}

// goneState is the state of the tasks of a removed agent. It depends on whether an operator said that the agent does not return.
var goneState = map[bool]string{false: "TASK_GONE", true: "TASK_GONE_BY_OPERATOR"}

// lost returns a state, or TASK_LOST for a framework that does not know that state.
func (s *State) lost(f *Framework, state string) string {
	if f.Has("PARTITION_AWARE") {
		return state
	}
	return "TASK_LOST"
}

// add adds a status to a task, which its framework is to acknowledge.
func (s *State) add(f *Framework, t *Task, status Status) {
	t.State, t.Last, t.Taken = status.State, &status, t.Taken+1
	t.remember(status.State, status.At)
	s.taskChanged(f, t, &status)
	if t.Unacked = append(t.Unacked, status); len(t.Unacked) == 1 {
		s.update(f, status)
	}
	if IsTerminal(t.State) {
		s.Ended[t.State]++
		s.leaveHolds(f, t.Holds)
		s.endDefault(f, t)
	}
}

// leaveHold removes a user from a hold. A hold without users is to be finished by a separate message, because it is not known in advance which user
// is the last.
func (s *State) leaveHold(key string) {
	users, is := s.Users[key]
	if !is {
		return
	}
	if users--; users > 0 {
		s.Users[key] = users
		return
	}
	delete(s.Users, key)
	s.Unused[key] = s.number
}

func taskOf(f *Framework, t *Task) TaskOf {
	one := TaskOf{Framework: f.ID, User: t.User, Task: t.Task, Group: t.Group, State: t.State, Info: t.Info, Number: t.Number, GraceMS: t.GraceMS, IsKilling: t.IsKilling, Capabilities: f.Capabilities}
	if t.RunBy != 0 { // its executor may have ended: the agent knows
		one.Executor = executorOf(f, &Executor{ID: t.Executor, Agent: t.Agent, Number: t.RunBy, Info: t.ExecutorInfo, User: t.User})
	}
	if t.Group != "" {
		one.ExecutorID = t.Launch.Executor
	}
	return one
}
