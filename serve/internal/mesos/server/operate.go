// Access to the list for operators' calls, which another package answers. Outside the proof.

package server

import (
	"context"
	"errors"
	"fmt"

	"gateway/internal/api"
	"gateway/internal/mesos/codec"
	"gateway/internal/oplog"
	"gateway/internal/registry/mesos"
)

// Version is the version of Mesos whose API this is.
const Version = mesosVersion

// Heartbeat is the time between heartbeats, in seconds.
const Heartbeat = heartbeatSeconds

// Line is an event for the allocator.
type Line = map[string]interface{}

// Append appends the event lines of an operator's call, and returns the answers to them.
func (s *Server) Append(ctx context.Context, lines []Line) ([]string, error) {
	return s.put(ctx, &message{lines: lines})
}

// AppendFor appends an operator's change to an agent. If another message came in between, the change is built again.
func (s *Server) AppendFor(ctx context.Context, agent string, build func() (*mesos.Note, []Line, error)) ([]string, error) {
	return s.putGuarded(ctx, guardOf("agent", agent), func() (*message, error) {
		note, lines, err := build()
		return &message{note: note, lines: lines}, err
	})
}

// Teardown removes a framework.
func (s *Server) Teardown(ctx context.Context, id string) error {
	return s.remove(ctx, id, "teardown", func(*mesos.Framework) (bool, error) { return true, nil })
}

// CatchUp waits until this gateway has applied everything that any gateway answered before. A message that this needs is recorded as the
// gateway's own, and not as a caller's.
func (s *Server) CatchUp(ctx context.Context) error {
	return s.catchUp(oplog.WithSender(ctx, oplog.Sender{}))
}

// Ready returns why this gateway does not take calls, or nil.
func (s *Server) Ready() error { return s.ready() }

// MasterInfo describes this gateway as a master.
func (s *Server) MasterInfo() codec.Message { return s.masterInfo() }

// ReadCall reads the message of a call.
func ReadCall(c *api.Call, name string) (codec.Message, error) { return read(c, name) }

// RenderOffer writes an offer to a framework.
func RenderOffer(framework string, o mesos.OfferOf) codec.Message { return renderOffer(framework, o) }

// RenderStatus writes a status of a task.
func RenderStatus(status mesos.Status) codec.Message { return renderStatus(status) }

// removeDrained removes a drained agent for good, if the operator asked for that.
func (s *Server) removeDrained(ctx context.Context, id string, drain int64) error {
	_, err := s.putGuarded(ctx, guardOf("agent", id), func() (m *message, err error) {
		s.state.Read(func() {
			if a := s.state.Agents[id]; a != nil && a.Drain != nil && a.Drain.State == mesos.Drained && a.Drain.Number == drain {
				m = &message{key: fmt.Sprintf("drained/%s/%d", id, drain), isInternal: true, note: &mesos.Note{Kind: mesos.NoteGone, Agent: id}}
				m.add("remove_agent", "agent", id)
			}
		})
		return m, nil
	})
	return err
}

// errGone reports that an agent was marked gone.
var errGone = errors.New("the agent was marked gone")

// refuseGone answers an agent that was marked gone: it has to end its tasks, and gets no new ones.
func refuseGone(c *api.Call, form codec.Form) error {
	setHeaders(c, form, "")
	text := form.Record(renderLink(mesos.Event{Kind: "REGISTERED"}))
	c.Send(append(text, form.Record(codec.New("durzhanok.link.Event").Set("type", "ERROR").Set("error", "the agent was marked gone: it needs a new work folder, and so a new id"))...))
	return nil
}
