// Custom executors: each has resources of its own, from its first task until its end is reported. Outside the proof.

package mesos

import (
	"bytes"
	"sort"
)

// Executor is a custom executor that was launched and whose end is not reported.
type Executor struct {
	ID       string `json:"id"`
	Agent    string `json:"agent"`
	Number   int64  `json:"number"` // the message that launched it
	Info     []byte `json:"info"`   // ExecutorInfo
	User     string `json:"user,omitempty"`
	Holds    []Hold `json:"holds,omitempty"`
	Role     string `json:"role,omitempty"`   // that it has its resources in
	IsEnding bool   `json:"ending,omitempty"` // it is to be shut down
}

// ExecutorOf is an executor as it is sent to an agent.
type ExecutorOf struct {
	Framework     string
	FrameworkInfo []byte
	Executor
}

// ExecutorKey returns the key of an executor among those of its framework.
func ExecutorKey(agent, id string) string { return agent + "/" + id }

func executorOf(f *Framework, e *Executor) *ExecutorOf {
	return &ExecutorOf{Framework: f.ID, FrameworkInfo: f.Info, Executor: *e}
}

// ExecutorKeys returns the keys of a framework's executors, in order.
func (f *Framework) ExecutorKeys() []string {
	keys := make([]string, 0, len(f.Executors))
	for key := range f.Executors {
		keys = append(keys, key)
	}
	sort.Strings(keys)
	return keys
}

// checkExecutor returns, as a status, why a task cannot run on its executor. The status has no message if it can.
func (s *State) checkExecutor(f *Framework, l *Launch) (state, reason, why string) {
	e := f.Executors[ExecutorKey(l.Agent, l.Executor)]
	switch {
	case len(l.ExecutorInfo) == 0:
	case e == nil && !l.StartsExecutor:
		return s.lost(f, "TASK_DROPPED"), "REASON_EXECUTOR_TERMINATED", "Executor terminated before the task was launched"
	case e == nil:
	case e.IsEnding:
		return s.lost(f, "TASK_DROPPED"), "REASON_EXECUTOR_TERMINATED", "Executor is shutting down"
	case !bytes.Equal(e.Info, l.ExecutorInfo):
		return "TASK_ERROR", "REASON_TASK_INVALID", "ExecutorInfo is not compatible with existing ExecutorInfo with same ExecutorID"
	}
	return "", "", ""
}

// useExecutor returns the number of a task's executor, and launches it if it does not exist. If it exists, the resources that the ACCEPT took for
// it are to be finished.
func (s *State) useExecutor(f *Framework, l *Launch) int64 {
	if len(l.ExecutorInfo) == 0 {
		return 0
	}
	key := ExecutorKey(l.Agent, l.Executor)
	if e := f.Executors[key]; e != nil {
		s.leaveHolds(f, l.ExecutorHolds)
		return e.Number
	}
	if f.Executors == nil {
		f.Executors = map[string]*Executor{}
	}
	f.Executors[key] = &Executor{ID: l.Executor, Agent: l.Agent, Number: s.number, Info: l.ExecutorInfo, User: l.User, Holds: l.ExecutorHolds, Role: l.Role}
	return s.number
}

// shutDown asks an agent to shut an executor down.
func (s *State) shutDown(f *Framework, e *Executor) {
	e.IsEnding = true
	s.toAgent(e.Agent, Event{Kind: "SHUTDOWN", Executors: []*ExecutorOf{executorOf(f, e)}})
}

// endExecutor removes an executor whose end its agent reports. Its tasks have ended, or the agent refuses them.
func (s *State) endExecutor(f *Framework, n *Note) {
	key := ExecutorKey(n.Agent, n.Executor)
	e := f.Executors[key]
	if e == nil || e.Number != n.Launch {
		return
	}
	delete(f.Executors, key)
	s.leaveHolds(f, e.Holds)
	s.toFramework(f, Event{Kind: "FAILURE", Agent: n.Agent, Executor: n.Executor, Code: n.Code})
}

// dropExecutors removes the executors of a framework, on one agent or on all. Their holds were removed with the framework or the agent.
func (s *State) dropExecutors(f *Framework, agent string) {
	for _, key := range f.ExecutorKeys() {
		e := f.Executors[key]
		if agent != "" && e.Agent != agent {
			continue
		}
		delete(f.Executors, key)
		for _, h := range e.Holds {
			delete(s.Users, HoldKey(f.Name, h.Name))
			delete(s.Unused, HoldKey(f.Name, h.Name))
		}
	}
}

func (s *State) leaveHolds(f *Framework, holds []Hold) {
	for _, h := range holds {
		s.leaveHold(HoldKey(f.Name, h.Name))
	}
}

// allHolds returns the holds of a task and those of its executor.
func (l *Launch) allHolds() []Hold {
	return append(append([]Hold(nil), l.Holds...), l.ExecutorHolds...)
}

// executorsOn returns the executors on an agent.
func (s *State) executorsOn(agent string) (list []*ExecutorOf) {
	for _, framework := range s.FrameworkIDs() {
		f := s.Frameworks[framework]
		for _, key := range f.ExecutorKeys() {
			if e := f.Executors[key]; e.Agent == agent {
				list = append(list, executorOf(f, e))
			}
		}
	}
	return list
}

// endDefault reports the end of a default executor, which ends with its last task.
func (s *State) endDefault(f *Framework, t *Task) {
	if t.Group == "" || t.RunBy != 0 || s.Agents[t.Agent] == nil {
		return
	}
	for _, other := range f.Tasks {
		if other.Group != "" && other.Agent == t.Agent && other.Executor == t.Executor && !IsTerminal(other.State) {
			return
		}
	}
	s.toFramework(f, Event{Kind: "FAILURE", Agent: t.Agent, Executor: t.Executor})
}
