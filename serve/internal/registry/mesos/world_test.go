// A small allocator, and gateways that append random messages. Outside the proof.

package mesos

import (
	"encoding/json"
	"fmt"
	"math/rand"
	"sort"
	"strings"

	"gateway/internal/registry"
)

// world answers lines as the allocator does, as far as Mesos' side is concerned.
type world struct {
	*rand.Rand
	number     int64
	offers     map[uint64]Offer
	next       uint64
	frameworks map[string]bool
	agents     map[string]bool   // and whether each is active
	tasks      map[string]string // by FRAMEWORK/TASK, and the agent of each
	roleModel
}

func newWorld(seed int64) *world {
	return &world{Rand: rand.New(rand.NewSource(seed)), offers: map[uint64]Offer{}, frameworks: map[string]bool{}, agents: map[string]bool{}, tasks: map[string]string{}, roleModel: newRoleModel()}
}

func line(event string, fields ...interface{}) string {
	object := map[string]interface{}{"event": event}
	for k := 0; k < len(fields); k += 2 {
		object[fields[k].(string)] = fields[k+1]
	}
	text, _ := json.Marshal(object)
	return string(text)
}

const (
	isOK    = `{"ok":true}`
	refused = `{"name":"Refused","refused":7}`
)

func (w *world) answer(text string) string {
	var l struct {
		Event, Agent, Framework, Task string
		Offer                         uint64
		Tasks                         []struct{ Task string }
		Roles                         []string
	}
	json.Unmarshal([]byte(text), &l)
	o, isOffer := w.offers[l.Offer]
	_, isAgent := w.agents[l.Agent]
	dropOffers := func(is func(Offer) bool) {
		for number, o := range w.offers {
			if is(o) {
				delete(w.offers, number)
			}
		}
	}
	dropTasks := func(is func(key, agent string) bool) {
		for key, agent := range w.tasks {
			if is(key, agent) {
				delete(w.tasks, key)
				delete(w.taskRole, key)
			}
		}
	}
	switch l.Event {
	case "cycle":
		made := []Offer{}
		for _, framework := range sortedKeys(w.frameworks) {
			for _, agent := range sortedKeys(w.agents) {
				if w.agents[agent] && w.Intn(3) == 0 {
					w.next++
					one := Offer{agent, framework, w.next, "cpus:1", w.roleOf(framework)}
					w.offers[w.next], made = one, append(made, one)
				}
			}
		}
		text, _ := json.Marshal(map[string]interface{}{"offers": made})
		return string(text)
	case "accept":
		for _, t := range l.Tasks {
			if w.tasks[l.Framework+"/"+t.Task] != "" {
				return refused
			}
		}
		if !isOffer || o.Framework != l.Framework {
			return refused
		}
		for _, t := range l.Tasks {
			w.tasks[l.Framework+"/"+t.Task], w.taskRole[l.Framework+"/"+t.Task] = o.Agent, o.Role
		}
		delete(w.offers, l.Offer)
	case "decline", "rescind":
		if !isOffer {
			return refused
		}
		delete(w.offers, l.Offer)
	case "finish":
		if w.tasks[l.Framework+"/"+l.Task] == "" {
			return refused
		}
		delete(w.tasks, l.Framework+"/"+l.Task)
		delete(w.taskRole, l.Framework+"/"+l.Task)
	case "add_framework":
		if w.frameworks[l.Framework] {
			return refused
		}
		w.frameworks[l.Framework] = true
		w.roles[l.Framework] = setOf(l.Roles)
	case "set_framework":
		return w.setFramework(l.Framework, l.Roles)
	case "remove_framework":
		if !w.frameworks[l.Framework] {
			return refused
		}
		delete(w.frameworks, l.Framework)
		delete(w.roles, l.Framework)
		dropOffers(func(o Offer) bool { return o.Framework == l.Framework })
		dropTasks(func(key, _ string) bool { return strings.HasPrefix(key, l.Framework+"/") })
	case "add_agent":
		if isAgent {
			return refused
		}
		w.agents[l.Agent] = true
	case "activate_agent", "deactivate_agent", "remove_agent":
		if !isAgent {
			return refused
		}
		if w.agents[l.Agent] = l.Event == "activate_agent"; l.Event != "activate_agent" {
			dropOffers(func(o Offer) bool { return o.Agent == l.Agent })
		}
		if l.Event == "remove_agent" {
			delete(w.agents, l.Agent)
			dropTasks(func(_, agent string) bool { return agent == l.Agent })
		}
	}
	return isOK
}

func sortedKeys(m map[string]bool) (keys []string) {
	for key := range m {
		keys = append(keys, key)
	}
	sort.Strings(keys)
	return keys
}

func (w *world) message(n *Note, lines ...string) *registry.Message {
	w.number++
	m := &registry.Message{Number: w.number, Revision: w.number, Last: true, At: w.number * 10}
	for _, text := range lines {
		m.Lines, m.Replies = append(m.Lines, []byte(text)), append(m.Replies, []byte(w.answer(text)+"\n"))
	}
	if n != nil {
		m.Note = n.Encode()
		w.expect(n)
	}
	return m
}

// random makes a message as a gateway would that saw an earlier state.
func (w *world) random(seen *State) *registry.Message {
	framework, agent, stream := fmt.Sprintf("f%d", w.Intn(3)), fmt.Sprintf("a%d", w.Intn(3)), fmt.Sprintf("s%d", w.Int63())
	f := seen.Frameworks[framework]
	switch w.Intn(16) {
	case 0:
		sub := &Subscription{Name: "x." + framework, Roles: w.someRoles(), Info: []byte(framework)}
		if w.Intn(2) == 0 {
			sub.Capabilities = []string{"PARTITION_AWARE"}
		}
		if w.Intn(2) == 0 {
			sub.Capabilities = append(sub.Capabilities, "TASK_KILLING_STATE")
		}
		n := &Note{Kind: NoteSubscribe, Framework: framework, Stream: stream, Gateway: "g", Subscription: sub}
		if !w.frameworks[sub.Name] { // which the guard ensures
			return w.message(n, line("add_framework", "framework", sub.Name, "roles", sub.Roles))
		}
		return w.message(n, append(w.changeRoles(seen, f, sub), line("revive", "framework", sub.Name, "role", sub.Roles[0]))...)
	case 1:
		return w.message(&Note{Kind: NoteAgent, Agent: agent, Stream: stream, Gateway: "g", Info: []byte(agent)}, line("add_agent", "agent", agent), line("activate_agent", "agent", agent))
	case 2, 3:
		return w.message(nil, line("cycle"))
	case 4:
		if f != nil && w.Intn(3) == 0 {
			return w.message(&Note{Kind: NoteLeave, Framework: framework, Stream: f.Stream}, line("suppress", "framework", f.Name, "role", "web"))
		}
		if a := seen.Agents[agent]; a != nil && w.Intn(2) == 0 && w.agents[agent] {
			return w.message(&Note{Kind: NoteAgentLeave, Agent: agent, Stream: a.Stream}, line("deactivate_agent", "agent", agent))
		}
	case 5:
		if w.Intn(8) == 0 {
			return w.message(nil, line([]string{"remove_framework", "rescind"}[w.Intn(2)], "framework", "x."+framework, "offer", w.Intn(int(w.next)+1)))
		}
		if w.Intn(8) == 0 {
			return w.message(nil, line("remove_agent", "agent", agent))
		}
	case 6, 7, 8:
		if f != nil {
			return w.accept(seen, f)
		}
	case 9, 10:
		if f != nil && len(f.Tasks) > 0 {
			return w.status(f)
		}
	case 11:
		if f != nil && len(f.Tasks) > 0 {
			n := &Note{Kind: NoteAck}
			for _, name := range f.TaskNames() {
				if t := f.Tasks[name]; len(t.Unacked) > 0 && w.Intn(3) > 0 {
					n.Acks = append(n.Acks, Ack{framework, name, t.Unacked[0].UUID})
				}
			}
			return w.message(n)
		}
	case 12:
		for key := range seen.Unused {
			of, hold, _ := strings.Cut(key, "/")
			return w.message(nil, line("finish", "framework", of, "task", hold))
		}
	case 13:
		if f != nil && len(f.Executors) > 0 && w.Intn(2) == 0 {
			keys := f.ExecutorKeys()
			e := f.Executors[keys[w.Intn(len(keys))]]
			return w.message(&Note{Kind: NoteEnded, Framework: framework, Agent: e.Agent, Executor: e.ID, Launch: e.Number})
		}
		kind := []string{NoteKill, NoteKill, NoteReconcile, NoteShutdown}[w.Intn(4)]
		if kind == NoteKill && w.Intn(2) == 0 {
			agent = ""
		}
		return w.message(&Note{Kind: kind, Framework: framework, Task: fmt.Sprintf("t%d", w.Intn(9)), Agent: agent, Executor: "e1"})
	case 14:
		return w.operate(agent)
	case 15:
		return w.updateRoles(seen, f)
	}
	return w.message(nil)
}

// accept launches up to three tasks on up to two offers of an agent. Some share a hold.
func (w *world) accept(seen *State, f *Framework) *registry.Message {
	offers := seen.OffersOf(f.ID)
	if len(offers) == 0 {
		return w.message(nil)
	}
	var chosen []Offer
	for _, o := range offers {
		if o.Agent == offers[0].Agent && o.Role == offers[0].Role && len(chosen) < 2 {
			chosen = append(chosen, o)
		}
	}
	n, isAccounted := &Note{Kind: NoteAccept, Framework: f.ID}, map[string]bool{}
	used := make([]map[string]bool, len(chosen))
	for k := range used {
		used[k] = map[string]bool{}
	}
	for k := w.Intn(4); k > 0; k-- {
		l := Launch{Task: fmt.Sprintf("t%d", w.Intn(9)), Agent: chosen[0].Agent, Executor: fmt.Sprintf("e%d", w.Intn(2)), Info: []byte("i"), Role: chosen[0].Role}
		for at := range chosen {
			if at == 0 || w.Intn(2) == 0 {
				name := fmt.Sprintf("%s.%d", l.Task, chosen[at].Offer)
				if w.Intn(3) == 0 {
					name = fmt.Sprintf("rest.%d", chosen[at].Offer)
				}
				used[at][name] = true
				l.Holds = append(l.Holds, Hold{name, at})
			}
		}
		if e := f.Executors[ExecutorKey(l.Agent, l.Executor)]; w.Intn(2) == 0 { // a custom executor, of one or another description
			l.ExecutorInfo = []byte(fmt.Sprintf("info%d", w.Intn(8)/7))
			if l.StartsExecutor = e == nil; l.StartsExecutor && (w.Intn(3) > 0 || isAccounted[l.Executor]) {
				name := fmt.Sprintf("executor.%s.%d", l.Executor, chosen[0].Offer)
				used[0][name], isAccounted[l.Executor] = true, true
				l.ExecutorHolds = []Hold{{name, 0}}
			}
		}
		n.Launches = append(n.Launches, l)
	}
	var lines []string
	for at, o := range chosen {
		var tasks []map[string]string
		for _, name := range sortedKeys(used[at]) {
			tasks = append(tasks, map[string]string{"task": name})
		}
		if len(tasks) == 0 {
			lines = append(lines, line("decline", "framework", f.Name, "offer", o.Offer))
			continue
		}
		lines = append(lines, line("accept", "framework", f.Name, "offer", o.Offer, "tasks", tasks))
	}
	return w.message(n, lines...)
}

// status reports a state of a task, and finishes holds that no other task has, as the gateway sees it.
func (w *world) status(f *Framework) *registry.Message {
	names := f.TaskNames()
	t := f.Tasks[names[w.Intn(len(names))]]
	uuid := []byte(fmt.Sprint(w.Int63()))
	if t.Last != nil && w.Intn(5) == 0 {
		uuid = t.Last.UUID
	}
	state := []string{"TASK_STARTING", "TASK_RUNNING", "TASK_RUNNING", "TASK_KILLING", "TASK_FINISHED", "TASK_FAILED"}[w.Intn(6)]
	n := &Note{Kind: NoteStatus, Framework: f.ID, Task: t.Task, Agent: t.Agent, Launch: t.Number, Status: &Status{State: state, UUID: uuid, Raw: []byte("raw")}}
	var lines []string
	if IsTerminal(state) && !IsTerminal(t.State) && string(uuid) != "" && (t.Last == nil || string(t.Last.UUID) != string(uuid)) {
		for _, h := range t.Holds {
			if !strings.HasPrefix(h.Name, "rest.") && w.Intn(4) > 0 {
				lines = append(lines, line("finish", "framework", f.Name, "task", h.Name))
			}
		}
	}
	return w.message(n, lines...)
}
