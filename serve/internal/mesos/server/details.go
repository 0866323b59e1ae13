// What the page shows of Mesos' frameworks, agents and tasks, and the call that kills a task. Outside the proof.

package server

import (
	"context"
	"encoding/json"
	"fmt"
	"net/http"
	"sort"
	"strconv"
	"strings"

	"gateway/internal/api"
	"gateway/internal/mesos/codec"
	"gateway/internal/registry/mesos"
)

// named has the names of tasks, agents and frameworks that were decoded before.
type named map[string]string

// of returns the name under a key. It is decoded if it was not known before. Kept collects the names to be kept for the next time.
func (n named) of(kept named, key string, decode func() string) string {
	name, is := n[key]
	if !is {
		name = decode()
	}
	kept[key] = name
	return name
}

// text returns a function that decodes a field of a message.
func text(message, field string, info []byte) func() string {
	return func() string {
		m, err := codec.ReadProtobuf(message, info)
		if err != nil {
			return ""
		}
		return m.Text(field)
	}
}

// address returns the host of an agent and, where it answers operators, its port.
func address(info []byte) string {
	m, err := codec.ReadProtobuf("mesos.AgentInfo", info)
	if err != nil {
		return ""
	}
	if !m.Has("port") {
		return m.Text("hostname") + " 0"
	}
	return fmt.Sprintf("%s %d", m.Text("hostname"), m.Int("port"))
}

// addressOf returns the parts of an address.
func addressOf(address string) (host string, port int64) {
	host, number, _ := strings.Cut(address, " ")
	port, _ = strconv.ParseInt(number, 10, 64)
	return host, port
}

// Details returns rows about agents, frameworks and tasks, each in order.
func (s *Server) Details(context.Context) (details []api.Detail, err error) {
	s.namesLock.Lock()
	defer s.namesLock.Unlock()
	kept := named{}
	s.state.Read(func() {
		for _, id := range sortedAgents(s.state.Agents) {
			a := s.state.Agents[id]
			one := api.Detail{Row: "mesos_agent", Agent: id, Connected: a.IsConnected}
			one.Host, one.Port = addressOf(s.names.of(kept, fmt.Sprintf("agent %s %d", id, a.Reregistered), func() string { return address(a.Info) }))
			if !a.IsConnected {
				one.Since = a.Left
			}
			details = append(details, one)
		}
		for _, id := range s.state.FrameworkIDs() {
			f := s.state.Frameworks[id]
			one := api.Detail{Row: "mesos_framework", Framework: f.Name, ID: id, Principal: f.Principal, Connected: f.IsConnected,
				Name: s.names.of(kept, fmt.Sprintf("framework %s %d", id, f.Reregistered), text("mesos.FrameworkInfo", "name", f.Info))}
			if !f.IsConnected {
				one.Since = f.Left
			}
			details = append(details, one)
			for _, task := range f.TaskNames() {
				details = append(details, s.detailOf(kept, f, f.Tasks[task]))
			}
		}
	})
	s.names = kept
	return details, nil
}

func (s *Server) detailOf(kept named, f *mesos.Framework, t *mesos.Task) api.Detail {
	one := api.Detail{Row: "mesos_task", Framework: f.Name, ID: f.ID, Task: t.Task, Agent: t.Agent, State: t.State, Killing: t.IsKilling && !mesos.IsTerminal(t.State),
		Name: s.names.of(kept, fmt.Sprintf("task %s %s %d", f.ID, t.Task, t.Number), text("mesos.TaskInfo", "name", t.Info))}
	if one.Executor = t.Executor; one.Executor == "" || len(t.ExecutorInfo) == 0 { // a command has a sandbox of its own, also in a group
		one.Executor = t.Task
	}
	if t.Last != nil {
		one.Since, one.Reason = t.Last.At, t.Last.Reason
	}
	for _, h := range t.Holds {
		one.Holds = append(one.Holds, h.Name)
	}
	return one
}

func sortedAgents(agents map[string]*mesos.Agent) []string {
	ids := make([]string, 0, len(agents))
	for id := range agents {
		ids = append(ids, id)
	}
	sort.Strings(ids)
	return ids
}

// killTask answers POST /drf/v1/kill-task with {"framework":ID,"task":ID}: the task is killed as by its framework's KILL. The framework's principal
// and operators may do this.
func (s *Server) killTask(c *api.Call) error {
	body, release, err := c.Body()
	if err != nil {
		return err
	}
	defer release()
	var asked struct {
		Framework string `json:"framework"`
		Task      string `json:"task"`
	}
	if err := json.Unmarshal(body, &asked); err != nil || asked.Framework == "" || asked.Task == "" {
		return api.Refuse(http.StatusBadRequest, `expected {"framework":ID,"task":ID}`)
	}
	if err := s.allocator.WaitReady(c.R.Context()); err != nil {
		return err
	}
	principal, state := s.stateOf(asked.Framework, asked.Task)
	if state == "" && s.catchUp(c.R.Context()) == nil { // it may have been launched at another gateway
		principal, state = s.stateOf(asked.Framework, asked.Task)
	}
	switch {
	case !c.By().Has("operate", "") && (principal == "" || principal != c.By().Name):
		return api.Refuse(http.StatusForbidden, "the token %q does not have the right operate, and is not the principal of the framework", c.By().Name)
	case state == "":
		return api.Refuse(http.StatusNotFound, "the framework %q has no task %q", asked.Framework, asked.Task)
	case mesos.IsTerminal(state):
		return api.Refuse(http.StatusConflict, "the task %q has ended: %s", asked.Task, state)
	}
	if err := s.note(c.R.Context(), &mesos.Note{Kind: mesos.NoteKill, Framework: asked.Framework, Task: asked.Task, GraceMS: defaultGrace}); err != nil {
		return err
	}
	c.W.WriteHeader(http.StatusAccepted)
	return nil
}

// stateOf returns the principal of a framework and the state of its task, each empty if it is not known.
func (s *Server) stateOf(framework, task string) (principal, state string) {
	s.state.Read(func() {
		f := s.state.Frameworks[framework]
		if f == nil {
			return
		}
		principal = f.Principal
		if t := f.Tasks[task]; t != nil {
			state = t.State
		}
	})
	return principal, state
}
