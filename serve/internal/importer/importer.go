// Package importer turns a Mesos cluster into event lines that set up the same agents, reservations, weights, limits, frameworks and holdings
// in an empty allocator. Outside the proof.
//
// Holdings come to be by offers, and the allocator decides what it offers. These lines leave it no choice:
//
//   - All clients are suppressed, and an agent has its turn to be filled while it is the only active one. No limit is set yet.
//   - A client is revived, and a cycle follows. This client alone can be offered something, on this agent alone: it is offered everything that
//     is free there and that its role may have. So the cycle makes one offer, the numbers of offers are 1, 2, 3 .., and the offer has all that
//     the client's tasks use.
//   - The client is suppressed, and accepts the offer with exactly its tasks and without a filter. What remains is free.
//
// An agent that would offer less than the smallest offer has a little more until it is filled: set_agent takes it away again. Weights and
// limits are set, agents activated, and clients revived in the end. A cycle that somebody else sends in between takes the place of the one
// that follows, or changes nothing.
package importer

import (
	"bytes"
	"encoding/json"
	"fmt"
	"sort"

	"gateway/internal/mesos/document"
	"gateway/internal/mesos/resources"
)

// The capacities of the allocator.
const (
	maxAgents     = 4096
	maxFrameworks = 1024
	maxRoles      = 8 // of a framework
	maxClients    = 4096
	maxRows       = 4096 // of weights, and of limits
	maxScalars    = 32
	maxTasks      = 16 // of an accept
	maxLine       = 65_536
	// If the tasks of an accept have a longer text than this, the accept has fewer tasks.
	maxTexts = 48 << 10
)

// The smallest offer has this much of cpus or of mem, in thousandths.
const leastCPUs, leastMem = 10, 32_000

// Names says how agents and frameworks are named.
type Names int

const (
	// ByID names agents and frameworks by their ids.
	ByID Names = iota
	// ByName names them by their host names and names, if these are valid and unique.
	ByName
)

// Lines returns the event lines, in order, and what they leave out in addition to what the cluster already leaves out.
func Lines(cluster *document.Cluster, names Names) ([]byte, []document.LeftOut) {
	w := &writer{cluster: cluster, isAgent: make([]bool, len(cluster.Agents))}
	w.encoder = json.NewEncoder(&w.lines)
	w.encoder.SetEscapeHTML(false)
	w.nameAll(names)
	w.frameworks()
	w.agents()
	w.rules()
	w.start()
	return w.lines.Bytes(), w.leftOut
}

type writer struct {
	cluster *document.Cluster
	lines   bytes.Buffer
	encoder *json.Encoder
	leftOut []document.LeftOut

	agentNames, frameworkNames []string
	isAgent                    []bool     // it is written
	roles                      [][]string // of each framework, in which it is registered
	offers                     int
}

type event struct {
	Event     string   `json:"event"`
	Agent     string   `json:"agent,omitempty"`
	Total     *string  `json:"total,omitempty"`
	Framework string   `json:"framework,omitempty"`
	Roles     []string `json:"roles,omitempty"`
	Role      string   `json:"role,omitempty"`
	Offer     int      `json:"offer,omitempty"`
	Tasks     []task   `json:"tasks,omitempty"`
	Weight    string   `json:"weight,omitempty"`
	Limit     string   `json:"limit,omitempty"`
	At        *int     `json:"at,omitempty"`
	RefuseMS  *int     `json:"refuse_ms,omitempty"`
}

type task struct {
	Task string `json:"task"`
	Use  string `json:"use"`
}

var zero = 0

func (w *writer) write(e event) {
	if err := w.encoder.Encode(e); err != nil {
		panic(err) // an event has only texts and numbers
	}
}

func (w *writer) leaveOut(what, reason string) {
	w.leftOut = append(w.leftOut, document.LeftOut{Place: "the allocator", What: what, Reason: reason})
}

// nameAll chooses the names of agents and frameworks.
func (w *writer) nameAll(names Names) {
	var ids, labels []string
	for _, a := range w.cluster.Agents {
		ids, labels = append(ids, a.ID), append(labels, a.Host)
	}
	w.agentNames = choose(names, ids, labels)
	ids, labels = nil, nil
	for _, f := range w.cluster.Frameworks {
		ids, labels = append(ids, f.ID), append(labels, f.Name)
	}
	w.frameworkNames = choose(names, ids, labels)
}

func choose(names Names, ids, labels []string) []string {
	if names == ByID {
		return ids
	}
	uses := map[string]int{}
	for k := range ids {
		uses[ids[k]]++
		if labels[k] != ids[k] {
			uses[labels[k]]++
		}
	}
	chosen := append([]string(nil), ids...)
	for k, label := range labels {
		if uses[label] == 1 && resources.IsName(label) {
			chosen[k] = label
		}
	}
	return chosen
}

// frameworks registers all frameworks, and suppresses their clients.
func (w *writer) frameworks() {
	clients := 0
	for k, f := range w.cluster.Frameworks {
		name, roles := w.frameworkNames[k], rolesOf(f)
		w.roles = append(w.roles, nil)
		if len(roles) > maxRoles {
			w.leaveOut(fmt.Sprintf("%d roles of the framework %s", len(roles)-maxRoles, name), fmt.Sprintf("a framework has at most %d roles", maxRoles))
			roles = roles[:maxRoles]
		}
		switch {
		case len(roles) == 0:
			w.leaveOut("the framework "+name, "it has no role that the allocator takes")
			continue
		case k >= maxFrameworks:
			w.leaveOut("the framework "+name, fmt.Sprintf("there is room for %d frameworks", maxFrameworks))
			continue
		case clients+len(roles) > maxClients:
			w.leaveOut("the framework "+name, fmt.Sprintf("there is room for %d clients, which are frameworks in each of their roles", maxClients))
			continue
		}
		clients += len(roles)
		w.roles[k] = roles
		w.write(event{Event: "add_framework", Framework: name, Roles: roles})
		for _, role := range roles {
			w.write(event{Event: "suppress", Framework: name, Role: role})
		}
	}
}

// rolesOf returns the roles of a framework. If there are too many, those in which it holds something come first.
func rolesOf(f document.Framework) []string {
	holds := map[string]bool{}
	for _, h := range f.Holdings {
		holds[h.Role] = true
	}
	roles := append([]string(nil), f.Roles...)
	if len(roles) > maxRoles {
		sort.SliceStable(roles, func(i, j int) bool { return holds[roles[i]] && !holds[roles[j]] })
	}
	return roles
}

// group is what a client holds on an agent.
type group struct {
	framework int
	role      string
	holdings  []document.Holding
}

// agents registers each agent, and fills it.
func (w *writer) agents() {
	onAgent := w.groups()
	scalars := map[string]bool{"cpus": true}
	for k, a := range w.cluster.Agents {
		name, total := w.agentNames[k], a.Total.Text()
		more := newScalars(scalars, a.Total)
		switch {
		case len(scalars)+len(more) > maxScalars:
			w.leaveOut(fmt.Sprintf("the agent %s with %d tasks", name, count(onAgent[k])), fmt.Sprintf("there is room for %d names of scalars", maxScalars))
			continue
		case k >= maxAgents:
			w.leaveOut(fmt.Sprintf("the agent %s with %d tasks", name, count(onAgent[k])), fmt.Sprintf("there is room for %d agents", maxAgents))
			continue
		case len(total) > maxLine-256:
			w.leaveOut(fmt.Sprintf("the agent %s with %d tasks", name, count(onAgent[k])), fmt.Sprintf("its resources need more than the %d bytes of a line", maxLine))
			continue
		}
		w.isAgent[k] = true
		for _, name := range more {
			scalars[name] = true
		}
		isPadded := needsMore(a.Total, onAgent[k])
		padded := a.Total.Copy()
		if isPadded {
			padded.Add(resources.Bundle{{Name: "cpus", Role: "*"}: {Scalar: leastCPUs}})
		}
		text := padded.Text()
		w.write(event{Event: "add_agent", Agent: name, Total: &text})
		for _, g := range onAgent[k] {
			w.fill(g)
		}
		if isPadded {
			w.write(event{Event: "set_agent", Agent: name, Total: &total})
		}
		w.write(event{Event: "deactivate_agent", Agent: name})
	}
}

// newScalars returns the names of scalars that are not known yet.
func newScalars(known map[string]bool, total resources.Bundle) (names []string) {
	for _, key := range total.Keys() { // in the order of names
		last := len(names) - 1
		if total[key].Scalar > 0 && !known[key.Name] && (last < 0 || names[last] != key.Name) {
			names = append(names, key.Name)
		}
	}
	return names
}

func count(groups []group) (tasks int) {
	for _, g := range groups {
		tasks += len(g.holdings)
	}
	return tasks
}

// groups returns for each agent what each client holds there, in groups that fit into one accept.
func (w *writer) groups() [][]group {
	onAgent := make([][]group, len(w.cluster.Agents))
	for k, f := range w.cluster.Frameworks {
		registered := map[string]bool{}
		for _, role := range w.roles[k] {
			registered[role] = true
		}
		texts, missing := 0, 0
		for _, h := range f.Holdings {
			size := len(h.Use.Text()) + len(h.Name) + 32
			switch {
			case !registered[h.Role]:
				missing++
				continue
			case size > maxLine-512:
				w.leaveOut(fmt.Sprintf("the task %s of the framework %s", h.Name, w.frameworkNames[k]), fmt.Sprintf("its resources need more than the %d bytes of a line", maxLine))
				continue
			}
			groups := onAgent[h.Agent]
			last := len(groups) - 1
			if last < 0 || groups[last].framework != k || groups[last].role != h.Role || len(groups[last].holdings) == maxTasks || texts+size > maxTexts {
				groups, texts = append(groups, group{framework: k, role: h.Role}), 0
				last++
			}
			texts += size
			groups[last].holdings = append(groups[last].holdings, h)
			onAgent[h.Agent] = groups
		}
		if missing > 0 {
			w.leaveOut(fmt.Sprintf("%d tasks of the framework %s", missing, w.frameworkNames[k]), "the framework, or the role, is left out")
		}
	}
	return onAgent
}

// needsMore reports whether a client would be offered less than the smallest offer, if the groups are filled in order.
func needsMore(total resources.Bundle, groups []group) bool {
	free := total.Copy()
	for _, g := range groups {
		var cpus, mem uint64
		for key, v := range free {
			if key.Role != "*" && !resources.IsBelow(g.role, key.Role) {
				continue
			}
			switch key.Name {
			case "cpus":
				cpus += v.Scalar
			case "mem":
				mem += v.Scalar
			}
		}
		if cpus < leastCPUs && mem < leastMem {
			return true
		}
		for _, h := range g.holdings {
			free.Take(h.Use.Copy())
		}
	}
	return false
}

// fill makes a client hold what is in the group.
func (w *writer) fill(g group) {
	name := w.frameworkNames[g.framework]
	tasks := make([]task, len(g.holdings))
	for k, h := range g.holdings {
		tasks[k] = task{h.Name, h.Use.Text()}
	}
	w.offers++
	w.write(event{Event: "revive", Framework: name, Role: g.role})
	w.write(event{Event: "cycle", At: &zero})
	w.write(event{Event: "suppress", Framework: name, Role: g.role})
	w.write(event{Event: "accept", Framework: name, Offer: w.offers, Tasks: tasks, At: &zero, RefuseMS: &zero})
}

// rules sets weights and limits.
func (w *writer) rules() {
	for k, role := range sortedRoles(w.cluster.Weights) {
		if k == maxRows {
			w.leaveOut(fmt.Sprintf("%d weights", len(w.cluster.Weights)-maxRows), fmt.Sprintf("there is room for %d weights", maxRows))
			break
		}
		w.write(event{Event: "set_weight", Role: role, Weight: resources.AmountText(w.cluster.Weights[role])})
	}
	for k, role := range sortedRoles(w.cluster.Limits) {
		if k == maxRows {
			w.leaveOut(fmt.Sprintf("%d limits", len(w.cluster.Limits)-maxRows), fmt.Sprintf("there is room for %d limits", maxRows))
			break
		}
		limit := w.cluster.Limits[role]
		text := ""
		for k, name := range sortedRoles(limit) {
			if k == maxScalars {
				w.leaveOut(fmt.Sprintf("a part of the limit of the role %s", role), fmt.Sprintf("a limit has at most %d names", maxScalars))
				break
			}
			text += ";" + name + ":" + resources.AmountText(limit[name])
		}
		w.write(event{Event: "set_limit", Role: role, Limit: text[1:]})
	}
}

func sortedRoles[V any](m map[string]V) []string {
	keys := make([]string, 0, len(m))
	for key := range m {
		keys = append(keys, key)
	}
	sort.Strings(keys)
	return keys
}

// start activates agents and revives clients.
func (w *writer) start() {
	for k, a := range w.cluster.Agents {
		if w.isAgent[k] && a.IsActive {
			w.write(event{Event: "activate_agent", Agent: w.agentNames[k]})
		}
	}
	for k, f := range w.cluster.Frameworks {
		for _, role := range w.roles[k] {
			if f.IsActive && f.Subscribed[role] {
				w.write(event{Event: "revive", Framework: w.frameworkNames[k], Role: role})
			}
		}
	}
}
