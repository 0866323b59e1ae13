// Operators' changes to agents: deactivate, reactivate, drain, and mark as gone. Outside the proof.

package operator

import (
	"context"
	"net/http"

	"gateway/internal/api"
	"gateway/internal/mesos/codec"
	"gateway/internal/mesos/server"
	"gateway/internal/registry/mesos"
)

// agentCall appends a line about an agent, with a note. Build gets the agent's current state.
func (o *Operator) agentCall(ctx context.Context, c *api.Call, id, event string, build func(mesos.Agent) (*mesos.Note, error)) error {
	line := server.Line{"event": event, "agent": id}
	if err := mayAppend(c, line); err != nil {
		return err
	}
	if err := o.server.CatchUp(ctx); err != nil { // before it is said that an agent does not exist
		return err
	}
	answers, err := o.server.AppendFor(ctx, id, func() (note *mesos.Note, lines []server.Line, err error) {
		found := mesos.Agent{}
		o.state.Read(func() {
			if a := o.state.Agents[id]; a != nil {
				found = *a
			}
		})
		note, err = build(found)
		return note, []server.Line{line}, err
	})
	if err != nil {
		return err
	}
	if len(answers) > 0 && answers[0] != "ok" {
		return refusalOf(answers[0], line)
	}
	return nil
}

// exists returns an error for an agent that does not exist.
func exists(a mesos.Agent) error {
	if a.ID == "" {
		return api.Refuse(http.StatusBadRequest, "Unknown agent")
	}
	return nil
}

func (o *Operator) deactivateAgent(ctx context.Context, c *api.Call, call codec.Message) error {
	id := call.Text("deactivate_agent.agent_id.value")
	return o.agentCall(ctx, c, id, "deactivate_agent", func(a mesos.Agent) (*mesos.Note, error) {
		return &mesos.Note{Kind: mesos.NoteDeactivate, Agent: id}, exists(a)
	})
}

// reactivateAgent ends a deactivation or a drain, even of an agent that was removed because it stayed away.
func (o *Operator) reactivateAgent(ctx context.Context, c *api.Call, call codec.Message) error {
	id := call.Text("reactivate_agent.agent_id.value")
	isAway := false
	if err := mayAppend(c, server.Line{"event": "activate_agent", "agent": id}); err != nil {
		return err
	}
	if err := o.server.CatchUp(ctx); err != nil {
		return err
	}
	if o.state.Read(func() { isAway = o.state.Agents[id] == nil && o.state.IsDeactivated(id) }); isAway {
		_, err := o.server.AppendFor(ctx, id, func() (*mesos.Note, []server.Line, error) {
			return &mesos.Note{Kind: mesos.NoteReactivate, Agent: id}, nil, nil
		})
		return err
	}
	return o.agentCall(ctx, c, id, "activate_agent", func(a mesos.Agent) (*mesos.Note, error) {
		switch {
		case a.ID != "" && !a.IsDeactivated:
			return nil, api.Refuse(http.StatusBadRequest, "Agent is not deactivated")
		case a.ID != "" && !a.IsConnected:
			return nil, api.Refuse(http.StatusConflict, "Agent is not connected: reactivate it when it has come again")
		}
		return nil, exists(a)
	})
}

// drainAgent kills the tasks of an agent. The progress of the drain is in the registry, so any gateway can continue it.
func (o *Operator) drainAgent(ctx context.Context, c *api.Call, call codec.Message) error {
	id := call.Text("drain_agent.agent_id.value")
	note := &mesos.Note{Kind: mesos.NoteDrain, Agent: id, MarkGone: call.Bool("drain_agent.mark_gone")}
	if call.Has("drain_agent.max_grace_period") {
		ms := call.Int("drain_agent.max_grace_period.nanoseconds") / 1_000_000
		if note.MaxGraceMS = &ms; ms < 0 {
			return invalid("'max_grace_period' is negative")
		}
	}
	if note.MarkGone {
		if err := mayAppend(c, server.Line{"event": "remove_agent", "agent": id}); err != nil {
			return err
		}
	}
	return o.agentCall(ctx, c, id, "deactivate_agent", func(a mesos.Agent) (*mesos.Note, error) { return note, exists(a) })
}

// markAgentGone removes an agent for good. Its tasks are lost, and the agent ends them if it connects again.
func (o *Operator) markAgentGone(ctx context.Context, c *api.Call, call codec.Message) error {
	id, isGone := call.Text("mark_agent_gone.agent_id.value"), false
	err := o.agentCall(ctx, c, id, "remove_agent", func(a mesos.Agent) (*mesos.Note, error) {
		o.state.Read(func() { isGone = o.state.IsGone(id) })
		if a.ID == "" {
			return nil, api.Refuse(http.StatusNotFound, "Agent '%s' is not known", id)
		}
		return &mesos.Note{Kind: mesos.NoteGone, Agent: id}, nil
	})
	if isGone { // already, as by Mesos
		return nil
	}
	return err
}
