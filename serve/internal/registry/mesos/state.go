// The rows, snapshots, and published events. Outside the proof.

package mesos

import (
	"encoding/json"
	"fmt"
	"sort"
	"strings"
	"sync"
)

const (
	maxCompleted = 1000 // acknowledged terminal tasks
	maxRemoved   = 50   // frameworks
)

// Framework is a framework that subscribed and was not removed.
type Framework struct {
	ID string `json:"id"`
	Subscription
	Stream       string           `json:"stream"` // the last one
	Gateway      string           `json:"gateway"`
	IsConnected  bool             `json:"connected,omitempty"`
	IsOurs       bool             `json:"ours,omitempty"`
	Left         int64            `json:"left,omitempty"` // when the stream ended
	Registered   int64            `json:"registered"`
	Reregistered int64            `json:"reregistered,omitempty"`
	Tasks        map[string]*Task `json:"tasks,omitempty"`

	Executors map[string]*Executor `json:"executors,omitempty"` // custom ones, by ExecutorKey
	Held      []string             `json:"held,omitempty"`      // roles in the allocator, where they are not those of the subscription
}

// Task is a task that runs, or whose last status is not acknowledged.
type Task struct {
	Launch
	Number    int64    `json:"number"` // the message that launched it
	Call      string   `json:"call,omitempty"`
	State     string   `json:"state"`
	Last      *Status  `json:"last,omitempty"`
	Unacked   []Status `json:"unacked,omitempty"` // the framework gets the first one until it acknowledges that
	Taken     int      `json:"taken,omitempty"`   // statuses so far
	Moments   []Moment `json:"moments,omitempty"` // the states that it took
	IsKilling bool     `json:"killing,omitempty"`
	GraceMS   int64    `json:"grace_ms,omitempty"`
	RunBy     int64    `json:"run_by,omitempty"` // the number of its custom executor
}

// Agent is an agent that registered and was not removed.
type Agent struct {
	ID           string `json:"id"`
	Info         []byte `json:"info"`
	Stream       string `json:"stream"`
	Gateway      string `json:"gateway"`
	IsConnected  bool   `json:"connected,omitempty"`
	Left         int64  `json:"left,omitempty"`
	Registered   int64  `json:"registered"`
	Reregistered int64  `json:"reregistered,omitempty"`

	IsDeactivated bool   `json:"deactivated,omitempty"` // by an operator
	Drain         *Drain `json:"drain,omitempty"`
}

// Offer is an offer of a framework of Mesos'.
type Offer struct {
	Agent     string `json:"agent"`
	Framework string `json:"framework"` // the allocator's name
	Offer     uint64 `json:"offer"`
	Resources string `json:"resources"`
	Role      string `json:"role"`
}

// Completed is a terminal task whose framework has acknowledged that, or was removed.
type Completed struct {
	Framework string `json:"framework"`
	Task      string `json:"task"`
	Agent     string `json:"agent"`
	State     string `json:"state"`
	Call      string `json:"call,omitempty"`
	At        int64  `json:"at"`

	Executor string   `json:"executor,omitempty"` // that the task named
	Role     string   `json:"role,omitempty"`
	Info     []byte   `json:"info,omitempty"` // the part of TaskInfo that operators see
	Moments  []Moment `json:"moments,omitempty"`
}

// Removed is a framework that was removed: its id cannot be used again.
type Removed struct {
	ID string `json:"id"`
	At int64  `json:"at"`
	Subscription
}

// rows is the content of a snapshot.
type rows struct {
	Cluster    string                `json:"cluster,omitempty"`
	Epoch      int                   `json:"epoch,omitempty"`
	Frameworks map[string]*Framework `json:"frameworks,omitempty"`
	Agents     map[string]*Agent     `json:"agents,omitempty"`
	Offers     map[uint64]Offer      `json:"offers,omitempty"`
	Users      map[string]int        `json:"users,omitempty"`  // of each hold, by FRAMEWORK/HOLD: tasks that are not terminal
	Unused     map[string]int64      `json:"unused,omitempty"` // holds without users, and the message since which they are to be finished
	Completed  []Completed           `json:"completed,omitempty"`
	Removed    []Removed             `json:"removed,omitempty"`
	Gone       []Gone                `json:"gone,omitempty"`
	Kept       []Kept                `json:"kept,omitempty"`
	Ended      map[string]int64      `json:"ended,omitempty"` // tasks, by their terminal states
}

// State is a State of the registry. Its fields are read within Read.
type State struct {
	rows
	IDs map[string]string // of frameworks, by the allocator's names

	mu      sync.Mutex
	publish func(Event)
	watch   func(Change)
	isGone  bool  // the message that is applied removes an agent for good
	number  int64 // of the message that is applied
	at      int64
}

// New returns an empty state. Publish is called with the events for streams, with the state's lock held.
func New(publish func(Event)) *State {
	s := &State{publish: publish}
	s.clear()
	return s
}

func (s *State) clear() {
	s.rows, s.IDs = rows{}, map[string]string{}
	s.fill()
}

// fill creates the maps that a snapshot leaves out because they are empty.
func (s *State) fill() {
	if s.Frameworks == nil {
		s.Frameworks = map[string]*Framework{}
	}
	if s.Agents == nil {
		s.Agents = map[string]*Agent{}
	}
	if s.Offers == nil {
		s.Offers = map[uint64]Offer{}
	}
	if s.Users == nil {
		s.Users = map[string]int{}
	}
	if s.Unused == nil {
		s.Unused = map[string]int64{}
	}
	if s.Ended == nil {
		s.Ended = map[string]int64{}
	}
	for id, f := range s.Frameworks {
		if f.Tasks == nil {
			f.Tasks = map[string]*Task{}
		}
		s.IDs[f.Name] = id
	}
}

// Name returns the part's name in a snapshot.
func (s *State) Name() string { return "mesos" }

// Read calls a function with the lock held.
func (s *State) Read(read func()) {
	s.mu.Lock()
	defer s.mu.Unlock()
	read()
}

// Snapshot returns all rows, or nothing where there are none. Equal states have equal snapshots.
func (s *State) Snapshot() []byte {
	s.mu.Lock()
	defer s.mu.Unlock()
	text, _ := json.Marshal(s.rows) // maps in order of their keys
	if string(text) == "{}" {
		return nil
	}
	return text
}

// Restore replaces the rows by those of a snapshot; an empty snapshot has none. All streams end, and their callers subscribe again.
func (s *State) Restore(snapshot []byte) error {
	s.mu.Lock()
	defer s.mu.Unlock()
	s.clear()
	if len(snapshot) > 0 {
		if err := json.Unmarshal(snapshot, &s.rows); err != nil {
			return err
		}
		s.fill()
	}
	s.publish(Event{Kind: EventReset})
	s.changed(Change{Kind: AllReplaced})
	return nil
}

// Kinds of events that do not have the name of a Mesos event.
const (
	EventEnd   = "END"   // the stream ends, with an ERROR where there is a message
	EventReset = "RESET" // all streams end
)

// Event is an event for a stream. Its kind is one of Mesos' events, of the link's events, or one of the above.
type Event struct {
	Kind   string
	Stream string

	Framework string
	Agent     string
	Executor  string
	Message   string
	Data      []byte
	Offers    []OfferOf
	Status    *Status
	Tasks     []TaskOf
	Executors []*ExecutorOf
	Code      int64 // with which an executor ended
}

// OfferOf is an offer, with what its framework learns about the agent.
type OfferOf struct {
	ID string
	Offer
	Framework Subscription
	AgentInfo []byte
}

// TaskOf is a task as it is sent to an agent.
type TaskOf struct {
	Framework, User, Task, Group, State string
	Info                                []byte
	Number, GraceMS                     int64
	IsKilling                           bool
	Executor                            *ExecutorOf // a custom one that runs it, or nil
	Capabilities                        []string    // of the framework
	ExecutorID                          string      // of a group's default executor
}

// OfferID returns the id of an offer, which no other offer ever had.
func (s *State) OfferID(number uint64) string {
	return fmt.Sprintf("%s-O%d.%d", s.Cluster, s.Epoch, number)
}

// FindOffer returns the offer with an id, if it exists and is of a framework.
func (s *State) FindOffer(framework, id string) (Offer, bool) {
	var epoch int
	var number uint64
	if n, err := fmt.Sscanf(strings.TrimPrefix(id, s.Cluster), "-O%d.%d", &epoch, &number); n != 2 || err != nil {
		return Offer{}, false
	}
	o, is := s.Offers[number]
	return o, is && s.OfferID(number) == id && s.IDs[o.Framework] == framework
}

// OffersOf returns the offers of a framework, in order.
func (s *State) OffersOf(framework string) []Offer {
	return s.offersWith(func(o Offer) bool { return s.IDs[o.Framework] == framework })
}

// UnlinkedOffers returns the offers on agents that have no link.
func (s *State) UnlinkedOffers() []Offer {
	return s.offersWith(func(o Offer) bool { return s.Agents[o.Agent] == nil })
}

func (s *State) offersWith(is func(Offer) bool) (offers []Offer) {
	for _, o := range s.Offers {
		if is(o) {
			offers = append(offers, o)
		}
	}
	sort.Slice(offers, func(i, j int) bool { return offers[i].Offer < offers[j].Offer })
	return offers
}

// WasRemoved reports whether a framework was removed, as long as this is recorded.
func (s *State) WasRemoved(framework string) bool {
	for _, one := range s.Removed {
		if one.ID == framework {
			return true
		}
	}
	return false
}

// TaskNames returns the names of a framework's tasks, in order.
func (f *Framework) TaskNames() []string {
	names := make([]string, 0, len(f.Tasks))
	for name := range f.Tasks {
		names = append(names, name)
	}
	sort.Strings(names)
	return names
}

// tasksOn returns the names of a framework's tasks on an agent, in order.
func (f *Framework) tasksOn(agent string) (names []string) {
	for name, t := range f.Tasks {
		if t.Agent == agent {
			names = append(names, name)
		}
	}
	sort.Strings(names)
	return names
}

// FrameworkIDs returns the ids of frameworks, in order.
func (s *State) FrameworkIDs() []string {
	ids := make([]string, 0, len(s.Frameworks))
	for id := range s.Frameworks {
		ids = append(ids, id)
	}
	sort.Strings(ids)
	return ids
}

// HoldKey returns the key of a hold in Users and Unused.
func HoldKey(framework, hold string) string { return framework + "/" + hold }
