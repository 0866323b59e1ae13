// What operators see: copies of the rows, and changes to them. Outside the proof.

package mesos

import (
	"sort"

	"gateway/internal/mesos/codec"
)

// Kinds of changes.
const (
	TaskAdded        = "TASK_ADDED"
	TaskUpdated      = "TASK_UPDATED"
	AgentAdded       = "AGENT_ADDED"
	AgentRemoved     = "AGENT_REMOVED"
	FrameworkAdded   = "FRAMEWORK_ADDED"
	FrameworkUpdated = "FRAMEWORK_UPDATED"
	FrameworkRemoved = "FRAMEWORK_REMOVED"
	AllReplaced      = "ALL_REPLACED" // a snapshot was restored
)

// Change is a change of the rows. It has copies.
type Change struct {
	Kind      string
	Framework Framework
	Agent     Agent
	Task      Task
	Status    Status
}

// Moment is a state of a task, and when the task entered it.
type Moment struct {
	State string `json:"state"`
	At    int64  `json:"at"`
}

const maxMoments = 16 // of a task: the first, and the latest ones

// Watch sets the function that is called with each change, with the state's lock held. It must be called before the first message.
func (s *State) Watch(watch func(Change)) { s.watch = watch }

func (s *State) changed(c Change) {
	if s.watch != nil {
		c.Framework.Tasks, c.Framework.Executors = nil, nil // which are not copied
		s.watch(c)
	}
}

// taskChanged reports that a task was added, or has a new status.
func (s *State) taskChanged(f *Framework, t *Task, status *Status) {
	if status == nil {
		s.changed(Change{Kind: TaskAdded, Framework: *f, Task: *t})
		return
	}
	s.changed(Change{Kind: TaskUpdated, Framework: *f, Task: *t, Status: *status})
}

// remember records that a task entered a state.
func (t *Task) remember(state string, at int64) {
	if n := len(t.Moments); n > 0 && t.Moments[n-1].State == state {
		return
	}
	moments := append(append([]Moment(nil), t.Moments...), Moment{state, at}) // copies of the task may be in use
	if len(moments) > maxMoments {
		moments = append(moments[:1], moments[2:]...)
	}
	t.Moments = moments
}

const maxBrief = 1 << 10 // bytes of a description that is kept of a completed task

// brief returns the part of a completed task's TaskInfo that operators see, or less if that is long.
func brief(info []byte) []byte {
	whole, err := codec.ReadProtobuf("mesos.TaskInfo", info)
	if err != nil {
		return nil
	}
	short := codec.New("mesos.TaskInfo").Set("name", whole.Text("name")).Set("task_id", whole.Sub("task_id")).Set("agent_id", whole.Sub("agent_id"))
	for _, one := range whole.List("resources") {
		short.Add("resources", one)
	}
	long := short.Clone().Set("labels", whole.Sub("labels")).Set("discovery", whole.Sub("discovery"))
	for _, one := range []codec.Message{long, short} {
		if text := one.Protobuf(); len(text) <= maxBrief {
			return text
		}
	}
	return nil
}

// OwnExecutor returns the id of the executor that a task names, or nothing for a command.
func (l *Launch) OwnExecutor() string {
	if l.Group == "" && len(l.ExecutorInfo) == 0 {
		return ""
	}
	return l.Executor
}

// Known is a copy of the rows for operators. Frameworks have their tasks in order of their launches.
type Known struct {
	Cluster    string
	Frameworks []KnownFramework
	Agents     []Agent
	Completed  []Completed
	Removed    []Removed
	Ended      map[string]int64
}

// KnownFramework is a framework with its tasks, its custom executors and its offers.
type KnownFramework struct {
	Framework
	Tasks     []Task
	Executors []Executor
	Offers    []OfferOf
}

// Known returns a copy of the rows, and calls a function before any further change, unless it is nil.
func (s *State) Known(during func()) (known Known) {
	s.mu.Lock()
	defer s.mu.Unlock()
	known.Cluster = s.Cluster
	offers := map[string][]OfferOf{}
	for _, o := range s.offersWith(func(o Offer) bool { return s.Agents[o.Agent] != nil }) {
		id := s.IDs[o.Framework]
		offers[id] = append(offers[id], s.offerOf(o))
	}
	for _, id := range s.FrameworkIDs() {
		f := s.Frameworks[id]
		one := KnownFramework{Framework: *f, Offers: offers[id]}
		for _, t := range f.Tasks {
			one.Tasks = append(one.Tasks, *t)
		}
		sort.Slice(one.Tasks, func(i, j int) bool {
			a, b := one.Tasks[i], one.Tasks[j]
			return a.Number < b.Number || a.Number == b.Number && a.Task < b.Task
		})
		for _, key := range f.ExecutorKeys() {
			one.Executors = append(one.Executors, *f.Executors[key])
		}
		one.Framework.Tasks, one.Framework.Executors = nil, nil
		known.Frameworks = append(known.Frameworks, one)
	}
	for _, a := range s.Agents {
		known.Agents = append(known.Agents, *a)
	}
	sort.Slice(known.Agents, func(i, j int) bool { return known.Agents[i].ID < known.Agents[j].ID })
	known.Completed, known.Removed = append(known.Completed, s.Completed...), append(known.Removed, s.Removed...)
	known.Ended = map[string]int64{}
	for state, count := range s.Ended {
		known.Ended[state] = count
	}
	if during != nil {
		during()
	}
	return known
}
