// Package mesos has the state that Mesos knows and the allocator does not: descriptions of frameworks and agents, tasks, and unacknowledged
// statuses. It is derived only from the list's messages, their notes and the allocator's replies, so every gateway derives the same. Outside the
// proof.
package mesos

import "encoding/json"

// Kinds of notes.
const (
	NoteCluster    = "cluster"     // names the cluster, once
	NoteSubscribe  = "subscribe"   // a framework subscribes, for the first time or again
	NoteUpdate     = "update"      // a framework changes its description, while it is subscribed
	NoteLeave      = "leave"       // a framework's stream ended
	NoteAccept     = "accept"      // offers were accepted
	NoteKill       = "kill"        // a task is to be killed
	NoteShutdown   = "shutdown"    // an executor is to be shut down, or all tasks of it are to be killed
	NoteReconcile  = "reconcile"   // a framework asks for the states of tasks
	NoteAck        = "acknowledge" // frameworks have statuses
	NoteMessage    = "message"     // of a framework to an executor
	NoteReport     = "report"      // of an executor to its framework
	NoteAgent      = "agent"       // an agent registers
	NoteAgentLeave = "agent_leave" // an agent's link ended
	NoteStatus     = "status"      // an agent has a status of a task
	NoteEnded      = "ended"       // an executor ended
	NoteDeactivate = "deactivate"  // an operator deactivates an agent
	NoteDrain      = "drain"       // an operator drains an agent
	NoteGone       = "gone"        // an agent is removed for good
	NoteReactivate = "reactivate"  // an agent that is away is not to be deactivated when it comes again
)

// Note is the part of a message that is not event lines.
type Note struct {
	Kind      string `json:"mesos"`
	ID        string `json:"id,omitempty"`
	Framework string `json:"framework,omitempty"`
	Agent     string `json:"agent,omitempty"`
	Task      string `json:"task,omitempty"`
	Executor  string `json:"executor,omitempty"`
	Stream    string `json:"stream,omitempty"`
	Gateway   string `json:"gateway,omitempty"` // that has the stream

	Subscription *Subscription `json:"subscription,omitempty"`
	Info         []byte        `json:"info,omitempty"` // AgentInfo
	IsOurs       bool          `json:"ours,omitempty"` // the gateway ended, not the framework
	Call         string        `json:"call,omitempty"` // the offers of an ACCEPT: one with the same came again
	Launches     []Launch      `json:"launches,omitempty"`
	Refused      []Status      `json:"refused,omitempty"`  // tasks that are not launched
	GraceMS      int64         `json:"grace_ms,omitempty"` // negative where the task's own policy counts
	Launch       int64         `json:"launch,omitempty"`
	Code         int64         `json:"code,omitempty"` // with which an executor ended
	Status       *Status       `json:"status,omitempty"`
	Acks         []Ack         `json:"acks,omitempty"`
	Asked        []Asked       `json:"asked,omitempty"`
	Data         []byte        `json:"data,omitempty"`
	MaxGraceMS   *int64        `json:"max_grace_ms,omitempty"` // of a drain
	MarkGone     bool          `json:"mark_gone,omitempty"`    // of a drain
}

// Subscription is the description of a framework, from its last SUBSCRIBE or update.
type Subscription struct {
	Name         string   `json:"name"` // the allocator's
	Principal    string   `json:"principal"`
	User         string   `json:"user"`
	Info         []byte   `json:"info"` // FrameworkInfo
	Roles        []string `json:"roles"`
	Capabilities []string `json:"capabilities,omitempty"`
	FailoverMS   int64    `json:"failover_ms,omitempty"`
}

// Has reports whether a framework has a capability.
func (s *Subscription) Has(capability string) bool {
	for _, one := range s.Capabilities {
		if one == capability {
			return true
		}
	}
	return false
}

// Launch is a task of an ACCEPT. It exists when all of its lines were answered `ok`.
type Launch struct {
	Task     string `json:"task"`
	Agent    string `json:"agent"`
	Executor string `json:"executor,omitempty"`
	Info     []byte `json:"info"` // TaskInfo
	Group    string `json:"group,omitempty"`
	Role     string `json:"role"`
	User     string `json:"user,omitempty"` // that the framework's principal may run it as
	Holds    []Hold `json:"holds"`

	ExecutorInfo   []byte `json:"executor_info,omitempty"`   // of a custom executor, which runs the task
	ExecutorHolds  []Hold `json:"executor_holds,omitempty"`  // for the executor, where the task is its first one
	StartsExecutor bool   `json:"starts_executor,omitempty"` // what the executor uses was taken, if it uses anything
}

// Hold is one of the allocator's tasks, which has resources for one or more of Mesos' tasks.
type Hold struct {
	Name string `json:"name"`
	Line int    `json:"line"` // of the message, which launched it
}

// Status is a status of a task.
type Status struct {
	Task    string `json:"task"`
	Agent   string `json:"agent,omitempty"`
	State   string `json:"state"`
	Reason  string `json:"reason,omitempty"`
	Message string `json:"message,omitempty"`
	UUID    []byte `json:"uuid,omitempty"` // of one that is repeated until it is acknowledged
	At      int64  `json:"at,omitempty"`
	Raw     []byte `json:"raw,omitempty"` // TaskStatus, of one that an agent sent
}

// Ack is an acknowledgement.
type Ack struct {
	Framework string `json:"framework"`
	Task      string `json:"task"`
	UUID      []byte `json:"uuid"`
}

// Asked is a task in a RECONCILE.
type Asked struct {
	Task  string `json:"task"`
	Agent string `json:"agent,omitempty"`
}

// Encode writes a note.
func (n *Note) Encode() []byte {
	text, _ := json.Marshal(n)
	return text
}

// decode reads a note, unless it is for another part of the registry.
func decode(text []byte) (n Note, is bool) {
	return n, len(text) > 0 && json.Unmarshal(text, &n) == nil && n.Kind != ""
}

// IsTerminal reports whether a task in a state has ended.
func IsTerminal(state string) bool {
	switch state {
	case "TASK_FINISHED", "TASK_FAILED", "TASK_KILLED", "TASK_ERROR", "TASK_LOST", "TASK_DROPPED", "TASK_GONE", "TASK_GONE_BY_OPERATOR":
		return true
	}
	return false
}
