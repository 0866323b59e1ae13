// Operators' changes to agents: deactivation, drains, and agents that are gone for good. Outside the proof.

package mesos

import "gateway/internal/mesos/codec"

// States of a drain.
const (
	Draining = "DRAINING" // tasks are killed
	Drained  = "DRAINED"  // no task is left, and all statuses are acknowledged
)

const (
	maxGone      = 1000 // agents
	maxKept      = 1000 // agents
	defaultGrace = 3000 // milliseconds between SIGTERM and SIGKILL, Mesos' default
)

// Drain is the drain of an agent.
type Drain struct {
	State      string `json:"state"`
	Since      int64  `json:"since"`
	Number     int64  `json:"number"`                 // of the message that began it
	MaxGraceMS *int64 `json:"max_grace_ms,omitempty"` // the most that a task gets between SIGTERM and SIGKILL
	MarkGone   bool   `json:"mark_gone,omitempty"`    // the agent is removed for good when it is drained
}

// Gone is an agent that was marked gone: it cannot register again.
type Gone struct {
	ID string `json:"id"`
	At int64  `json:"at"`
}

// Kept is an agent that was removed because it stayed away, while an operator had deactivated it. It is deactivated when it registers again.
type Kept struct {
	ID    string `json:"id"`
	At    int64  `json:"at"`
	Drain *Drain `json:"drain,omitempty"`
}

// IsDeactivated reports whether an operator deactivated an agent, even one that is away.
func (s *State) IsDeactivated(agent string) bool {
	if a := s.Agents[agent]; a != nil {
		return a.IsDeactivated
	}
	for _, one := range s.Kept {
		if one.ID == agent {
			return true
		}
	}
	return false
}

// keep records an operator's changes to an agent that is removed.
func (s *State) keep(a *Agent) {
	if !a.IsDeactivated || s.isGone {
		return
	}
	if s.Kept = append(s.Kept, Kept{a.ID, s.at, a.Drain}); len(s.Kept) > maxKept {
		s.Kept = append([]Kept(nil), s.Kept[len(s.Kept)-maxKept:]...)
	}
}

// takeKept returns the record of an agent, and drops it.
func (s *State) takeKept(agent string) (found Kept, is bool) {
	kept := s.Kept[:0:0]
	for _, one := range s.Kept {
		if one.ID == agent {
			found, is = one, true
		} else {
			kept = append(kept, one)
		}
	}
	s.Kept = kept
	return found, is
}

// comeAgain deactivates an agent that was deactivated before it was removed. If it was being drained, the drain continues.
func (s *State) comeAgain(a *Agent) {
	found, is := s.takeKept(a.ID)
	if !is {
		return
	}
	if a.IsDeactivated = true; found.Drain != nil {
		drain := *found.Drain
		drain.State, a.Drain = Draining, &drain
		s.checkDrained(a.ID)
	}
}

// IsGone reports whether an agent was marked gone, as long as this is recorded.
func (s *State) IsGone(agent string) bool {
	for _, one := range s.Gone {
		if one.ID == agent {
			return true
		}
	}
	return false
}

// operate applies an operator's note, if its last line was answered `ok`.
func (s *State) operate(n *Note, answers []string) {
	if n.Kind == NoteReactivate { // of an agent that is away
		s.takeKept(n.Agent)
		return
	}
	if len(answers) == 0 || answers[len(answers)-1] != "ok" {
		return
	}
	a := s.Agents[n.Agent]
	switch {
	case n.Kind == NoteGone && !s.IsGone(n.Agent):
		if s.Gone = append(s.Gone, Gone{n.Agent, s.at}); len(s.Gone) > maxGone {
			s.Gone = append([]Gone(nil), s.Gone[len(s.Gone)-maxGone:]...)
		}
	case a == nil:
	case n.Kind == NoteDeactivate:
		a.IsDeactivated = true
	case n.Kind == NoteDrain:
		a.IsDeactivated, a.Drain = true, &Drain{State: Draining, Since: s.at, Number: s.number, MaxGraceMS: n.MaxGraceMS, MarkGone: n.MarkGone}
		s.killAll(a)
		s.checkDrained(a.ID)
	}
}

// reactivate ends an operator's changes to an agent when it gets offers again.
func (s *State) reactivate(agent string) {
	s.takeKept(agent)
	if a := s.Agents[agent]; a != nil {
		a.IsDeactivated, a.Drain = false, nil
	}
}

// killAll kills the tasks of an agent that is drained.
func (s *State) killAll(a *Agent) {
	for _, id := range s.FrameworkIDs() {
		f := s.Frameworks[id]
		for _, name := range f.TaskNames() {
			if t := f.Tasks[name]; t.Agent == a.ID && !IsTerminal(t.State) {
				s.kill(f, name, "", graceOf(t, a.Drain.MaxGraceMS))
			}
		}
	}
}

// graceOf returns the time between SIGTERM and SIGKILL of a task: its kill policy's, but no more than a drain allows.
func graceOf(t *Task, most *int64) int64 {
	grace := int64(defaultGrace)
	if info, err := codec.ReadProtobuf("mesos.TaskInfo", t.Info); err == nil && info.Has("kill_policy.grace_period") {
		grace = info.Int("kill_policy.grace_period.nanoseconds") / 1_000_000
	}
	if most != nil && grace > *most {
		return *most
	}
	return grace
}

// checkDrained ends the drain of an agent when no task is left there.
func (s *State) checkDrained(agent string) {
	a := s.Agents[agent]
	if a == nil || a.Drain == nil || a.Drain.State != Draining {
		return
	}
	for _, f := range s.Frameworks {
		for _, t := range f.Tasks {
			if t.Agent == agent {
				return
			}
		}
	}
	drained := *a.Drain // copies of the agent may be in use
	drained.State = Drained
	a.Drain = &drained
}
