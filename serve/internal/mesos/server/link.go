// The link of agents: they register by a call that is answered with a stream, and send statuses by other calls. Outside the proof.

package server

import (
	"context"
	"crypto/sha256"
	"encoding/hex"
	"errors"
	"fmt"
	"log"
	"net/http"
	"strconv"
	"strings"
	"time"

	"gateway/internal/api"
	"gateway/internal/mesos/codec"
	"gateway/internal/mesos/resources"
	"gateway/internal/oplog"
	"gateway/internal/registry/mesos"
)

const maxUnacked = 64 // statuses of a task that a gateway takes before its framework acknowledges one

func (s *Server) link(c *api.Call) error {
	call, err := read(c, "durzhanok.link.Call")
	if err != nil {
		return err
	}
	id := call.Text("agent_id.value")
	if !resources.IsName(id) || !c.By().Has("agent", id) {
		return api.Refuse(http.StatusForbidden, "the token %q needs the right agent:%s", c.By().Name, id)
	}
	if err := s.allocator.WaitReady(c.R.Context()); err != nil {
		return err
	}
	switch call.Enum("type") {
	case "REGISTER":
		return s.register(c, id, call)
	case "UPDATE":
		err = s.update(c.R.Context(), id, call)
	case "MESSAGE":
		err = s.note(c.R.Context(), &mesos.Note{Kind: mesos.NoteReport, Framework: call.Text("message.framework_id.value"), Agent: id,
			Executor: call.Text("message.executor_id.value"), Data: call.Bytes("message.data")})
	case "EXECUTOR_ENDED":
		err = s.note(c.R.Context(), &mesos.Note{Kind: mesos.NoteEnded, Framework: call.Text("ended.framework_id.value"), Agent: id,
			Executor: call.Text("ended.executor_id.value"), Launch: call.Int("ended.launch"), Code: call.Int("ended.status")})
	default:
		err = api.Refuse(http.StatusBadRequest, "the type %s: expected REGISTER, UPDATE, MESSAGE or EXECUTOR_ENDED", call.Enum("type"))
	}
	if err == nil {
		c.W.WriteHeader(http.StatusAccepted)
	}
	return err
}

// register answers with a stream.
func (s *Server) register(c *api.Call, id string, call codec.Message) error {
	form, err := codec.Accepts(c.R.Header.Get("Accept"), c.R.Header.Get("Message-Accept"))
	if err != nil {
		return api.Refuse(http.StatusNotAcceptable, "%v", err)
	}
	info := call.Sub("agent_info")
	total, err := resources.FromMessages(info.List("resources"))
	if err != nil || info.IsAbsent() {
		return api.Refuse(http.StatusBadRequest, "agent_info: expected an AgentInfo with resources (%v)", err)
	}
	release, err := c.Stream()
	if err != nil {
		return err
	}
	defer release()
	if err := c.EndWhenSilent(s.config.Silence); err != nil {
		return err
	}
	info.Set("id.value", id)
	one := s.streams.add(uuid())
	defer s.streams.remove(one)
	n := &mesos.Note{Kind: mesos.NoteAgent, Agent: id, Stream: one.id, Gateway: s.session, Info: info.Protobuf()}
	answers, err := s.putGuarded(c.R.Context(), guardOf("agent", id), func() (*message, error) {
		return s.registerMessage(n, total)
	})
	if errors.Is(err, errGone) {
		return refuseGone(c, form)
	}
	if err != nil {
		return err
	}
	if one.isRefused() {
		return api.Refuse(http.StatusConflict, "the allocator did not take the agent '%s': %s", id, strings.Join(answers, ", "))
	}
	setHeaders(c, form, "")
	s.writeLink(c, form, one)
	if one.isOver() {
		return nil
	}
	ctx, cancel := context.WithTimeout(context.Background(), 2*time.Second)
	defer cancel()
	if err := s.leaveAgent(ctx, id, one.id); err != nil {
		log.Printf("mesos: the end of the link of agent %s: %v", id, err)
	}
	return nil
}

// registerMessage builds the message of a registration. An agent that registers again with the same resources keeps its reservations, and stays
// deactivated if an operator had deactivated it.
func (s *Server) registerMessage(n *mesos.Note, total resources.Bundle) (m *message, err error) {
	last := "activate_agent"
	m = &message{note: n}
	s.state.Read(func() {
		if s.state.IsGone(n.Agent) {
			err = errGone
		}
		m.add("add_agent", "agent", n.Agent, "total", total.Text())
		a := s.state.Agents[n.Agent]
		if a == nil || totalOf(a.Info).Text() != total.Text() {
			m.add("set_agent", "agent", n.Agent, "total", total.Text()) // it changes nothing but for an agent that was there
		}
		if s.state.IsDeactivated(n.Agent) {
			last = "deactivate_agent"
		}
	})
	m.add(last, "agent", n.Agent)
	return m, err
}

// totalOf returns the resources of an AgentInfo that was accepted before.
func totalOf(info []byte) resources.Bundle {
	total, _ := resources.FromMessages(codec.MustReadProtobuf("mesos.AgentInfo", info).List("resources"))
	return total
}

// writeLink writes the events for an agent, until its link ends.
func (s *Server) writeLink(c *api.Call, form codec.Form, one *stream) {
	beat, lost := time.NewTicker(heartbeatSeconds*time.Second/3), s.log.Clock.Lost()
	defer beat.Stop()
	for {
		var text []byte
		select {
		case <-one.wake:
			for _, e := range one.take() {
				text = append(text, form.Record(renderLink(e))...)
			}
		case <-one.over:
			reason := one.reason
			c.Send(form.Record(codec.New("durzhanok.link.Event").Set("type", "ERROR").Set("error", reason)))
			return
		case <-beat.C:
			text = form.Record(codec.New("durzhanok.link.Event").Set("type", "HEARTBEAT"))
		case <-c.Replaced():
			return
		case <-lost:
			return
		case <-c.R.Context().Done():
			return
		}
		if len(text) > 0 && !c.Send(text) {
			return
		}
	}
}

// leaveAgent ends an agent's link in the registry: its offers end, and it gets no more offers.
func (s *Server) leaveAgent(ctx context.Context, id, stream string) error {
	_, err := s.putGuarded(ctx, guardOf("agent", id), func() (m *message, err error) {
		s.state.Read(func() {
			if a := s.state.Agents[id]; a != nil && a.IsConnected && a.Stream == stream {
				m = &message{key: "leave/" + stream, isInternal: true, note: &mesos.Note{Kind: mesos.NoteAgentLeave, Agent: id, Stream: stream}}
				m.add("deactivate_agent", "agent", id)
			}
		})
		return m, nil
	})
	if isSettled(err) {
		return nil
	}
	return err
}

// update appends a status. From its answer on, the service repeats the status, and the agent need not. Resources that only the task holds are
// finished in the same message; resources that are shared, or not known here, in another one.
func (s *Server) update(ctx context.Context, agent string, call codec.Message) error {
	status := call.Sub("status")
	task, state := status.Text("task_id.value"), status.Enum("state")
	if len(status.Bytes("uuid")) != 16 || task == "" || !call.Has("framework_id") || !strings.HasPrefix(state, "TASK_") {
		return api.Refuse(http.StatusBadRequest, "UPDATE: expected a framework_id, and a status with a task_id, a state, and a uuid of 16 bytes")
	}
	if !status.Has("source") {
		status.Set("source", "SOURCE_AGENT")
	}
	status.Set("agent_id.value", agent)
	m := &message{key: statusKey(agent, call), note: &mesos.Note{Kind: mesos.NoteStatus, Framework: call.Text("framework_id.value"), Task: task, Agent: agent, Launch: call.Int("launch"),
		Status: &mesos.Status{State: state, UUID: status.Bytes("uuid"), Raw: status.Protobuf()}}}
	isFull := false
	s.state.Read(func() {
		f := s.state.Frameworks[m.note.Framework]
		if f == nil || f.Tasks[task] == nil {
			return
		}
		t := f.Tasks[task]
		if isFull = len(t.Unacked) >= maxUnacked && !mesos.IsTerminal(state); isFull || !mesos.IsTerminal(state) {
			return
		}
		if t.Number != m.note.Launch || t.Agent != agent || mesos.IsTerminal(t.State) {
			return
		}
		for _, h := range t.Holds {
			if s.state.Users[mesos.HoldKey(f.Name, h.Name)] == 1 && !strings.HasPrefix(h.Name, "x.rest.") && t.Group == "" {
				m.add("finish", "framework", f.Name, "task", h.Name)
			}
		}
	})
	if isFull { // the agent keeps it, and sends it again
		return api.Refuse(http.StatusTooManyRequests, "the task %q has %d statuses that its framework did not acknowledge", task, maxUnacked)
	}
	_, err := s.put(ctx, m)
	if conflict := (*oplog.ConflictError)(nil); errors.As(err, &conflict) { // the list has it, with other lines
		return nil
	}
	return err
}

// statusKey returns the key of a status. An agent sends a status again if it gets no answer, perhaps to another gateway. If both gateways append it,
// the later copy must not count, because the agent may have sent further statuses in between.
func statusKey(agent string, call codec.Message) string {
	sum := sha256.New()
	for _, one := range []string{agent, call.Text("framework_id.value"), call.Text("status.task_id.value"), strconv.FormatInt(call.Int("launch"), 10), string(call.Bytes("status.uuid"))} {
		fmt.Fprintf(sum, "%d %s", len(one), one)
	}
	return "status/" + hex.EncodeToString(sum.Sum(nil)[:20])
}
