// Package document reads the answers in which a Mesos master describes its cluster: /state, /slaves, /roles, /weights and /quota, of the versions
// 1.4 to 1.11. Outside the proof.
package document

import (
	"fmt"
	"sort"

	"gateway/internal/mesos/resources"
)

// Cluster is the part of a Mesos cluster that the allocator can represent.
type Cluster struct {
	Version    string
	Agents     []Agent     // in the order in which they registered
	Frameworks []Framework // in the order in which they registered
	Weights    map[string]uint64
	Limits     map[string]map[string]uint64 // of each role: scalars in thousandths, which may be 0
	Offers     int                          // outstanding offers, which end like those of a master that is replaced
	LeftOut    []LeftOut                    // in the order of the documents
}

// Agent is a machine.
type Agent struct {
	ID, Host string
	IsActive bool // it gets offers
	Total    resources.Bundle
	Used     resources.Bundle // by tasks and executors, as the document says it for the agent, without reservations
}

// Framework is a scheduler.
type Framework struct {
	ID, Name string
	Roles    []string // in which it is subscribed, and in which it has tasks, in order
	IsActive bool     // it gets offers in the roles of Subscribed
	// Subscribed has the roles in which it is subscribed and not suppressed.
	Subscribed map[string]bool
	Holdings   []Holding // in the order of agents, roles and names
}

// Holding is what a task or an executor uses.
type Holding struct {
	Name       string // valid for the allocator
	Agent      int    // the index of its agent
	Role       string
	Use        resources.Bundle
	IsExecutor bool
}

// LeftOut is something that the allocator cannot represent, or can represent only in another form.
type LeftOut struct {
	Place  string // such as `state.json: slaves[3].attributes`
	What   string
	Reason string
}

func (l LeftOut) String() string { return l.Place + ": " + l.What + ": " + l.Reason }

// Error is an answer that cannot be read, with the place of the error.
type Error struct{ Place, Problem string }

func (e *Error) Error() string { return e.Place + ": " + e.Problem }

// Answer is the body of an answer, and the name under which errors mention it. Without a body, the answer was not given.
type Answer struct {
	Name string
	Body []byte
}

// Answers are the answers of a master. All but that of /state may be missing.
type Answers struct{ State, Slaves, Roles, Weights, Quota Answer }

// Read reads the answers. Its errors are of the type Error.
func Read(answers Answers) (*Cluster, error) {
	r := &reader{cluster: &Cluster{Weights: map[string]uint64{}, Limits: map[string]map[string]uint64{}}, names: map[string]string{}, unknown: map[string]int{}, agentOf: map[string]int{}}
	state := r.parse(answers.State)
	r.state(state, r.parse(answers.Slaves))
	r.weights(r.parse(answers.Roles), r.parse(answers.Weights))
	r.quota(r.parse(answers.Roles), r.parse(answers.Quota))
	r.countUnknown()
	if r.err != nil {
		return nil, r.err
	}
	return r.cluster, nil
}

// reader reads answers. It keeps the first error, after which values are empty.
type reader struct {
	cluster *Cluster
	err     error
	names   map[string]string // of frameworks, agents, and tasks of a framework: where each id is
	unknown map[string]int    // kinds and names of unknown fields: the place in LeftOut

	onAgents []*agent
	agentOf  map[string]int // the index of the agent with an id
}

func (r *reader) fail(v value, format string, arguments ...any) {
	if r.err == nil {
		r.err = &Error{v.place, fmt.Sprintf(format, arguments...)}
	}
}

func (r *reader) leaveOut(v value, what, reason string) {
	r.cluster.LeftOut = append(r.cluster.LeftOut, LeftOut{v.place, what, reason})
}

// name returns the allocator's name for an id, which must be unique in its scope.
func (r *reader) name(v value, scope, kind, id string) string {
	name := id
	if !resources.IsName(id) {
		name = resources.Digest(id)
		r.leaveOut(v, fmt.Sprintf("the id %q", id), "a name has 1 to 64 letters, digits, and _ - .: the "+kind+" is named "+name)
	}
	if other, isKnown := r.names[scope+"\x00"+name]; isKnown {
		r.fail(v, "the id %q is also at %s", id, other)
	}
	r.names[scope+"\x00"+name] = v.place
	return name
}

// role reports whether the allocator can have a role. If not, it leaves out everything in the role.
func (r *reader) role(v value, role, what string) bool {
	if resources.IsRole(role) {
		return true
	}
	r.leaveOut(v, what, fmt.Sprintf("the role %q is not 1 to 8 parts of visible characters without ( ) : ; with at most 64 bytes", role))
	return false
}

// amount reads an amount in thousandths, and reports it if it had to be rounded and isSaid.
func (r *reader) amount(v value, isSaid bool) uint64 {
	number := v.number()
	if r.err != nil {
		return 0
	}
	rounded, err := resources.Thousandths(number)
	if err != nil {
		r.fail(v, "%v", err)
	}
	if isSaid && !isWhole(number*1000) {
		r.leaveOut(v, fmt.Sprintf("the amount %v", number), "amounts have at most three decimals: it is rounded to "+resources.AmountText(rounded))
	}
	return rounded
}

// isWhole reports whether a number is whole, up to the error of adding decimal fractions in binary.
func isWhole(number float64) bool {
	rest := number - float64(int64(number+0.5))
	return rest < 1e-6+number*1e-12 && -rest < 1e-6+number*1e-12
}

// countUnknown says for each unknown field how often it occurs.
func (r *reader) countUnknown() {
	for _, index := range r.unknown {
		if times := r.cluster.LeftOut[index].Reason; times != "1" {
			r.cluster.LeftOut[index].Reason = "unknown, here and at " + times + " places in all"
		} else {
			r.cluster.LeftOut[index].Reason = "unknown"
		}
	}
}

func sortedKeys[V any](m map[string]V) []string {
	keys := make([]string, 0, len(m))
	for key := range m {
		keys = append(keys, key)
	}
	sort.Strings(keys)
	return keys
}
