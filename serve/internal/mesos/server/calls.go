// The calls that become notes, or only few lines. Outside the proof.

package server

import (
	"context"
	"log"
	"net/http"
	"time"

	"gateway/internal/api"
	"gateway/internal/mesos/codec"
	"gateway/internal/registry/mesos"
)

const defaultGrace = 3000 // milliseconds between SIGTERM and SIGKILL, Mesos' default

func (s *Server) note(ctx context.Context, n *mesos.Note) error {
	_, err := s.put(ctx, &message{note: n})
	return err
}

func (s *Server) kill(ctx context.Context, f *framework, call codec.Message) error {
	n := &mesos.Note{Kind: mesos.NoteKill, Framework: f.id, Task: call.Text("kill.task_id.value"), Agent: call.Text("kill.agent_id.value")}
	policy, isRunBy := call.Sub("kill.kill_policy"), false
	if !policy.Has("grace_period") { // then the task's own
		s.state.Read(func() {
			if known := s.state.Frameworks[f.id]; known != nil && known.Tasks[n.Task] != nil {
				t := known.Tasks[n.Task]
				policy, isRunBy = codec.MustReadProtobuf("mesos.TaskInfo", t.Info).Sub("kill_policy"), t.RunBy != 0
			}
		})
	}
	if n.GraceMS = graceOf(policy); isRunBy { // a custom executor has the task's policy, or its own
		n.GraceMS = -1
	}
	return s.noteFor(ctx, f, n)
}

// graceOf returns the time between SIGTERM and SIGKILL in milliseconds. A negative time means 0.
func graceOf(policy codec.Message) int64 {
	if !policy.Has("grace_period") {
		return defaultGrace
	}
	if ms := policy.Int("grace_period.nanoseconds") / 1_000_000; ms > 0 {
		return ms
	}
	return 0
}

func (s *Server) shutdown(ctx context.Context, f *framework, call codec.Message) error {
	return s.noteFor(ctx, f, &mesos.Note{Kind: mesos.NoteShutdown, Framework: f.id, Agent: call.Text("shutdown.agent_id.value"), Executor: call.Text("shutdown.executor_id.value"), GraceMS: defaultGrace})
}

// message passes a message on. As in Mesos, delivery is not guaranteed.
func (s *Server) message(ctx context.Context, f *framework, call codec.Message) error {
	return s.noteFor(ctx, f, &mesos.Note{Kind: mesos.NoteMessage, Framework: f.id, Agent: call.Text("message.agent_id.value"), Executor: call.Text("message.executor_id.value"), Data: call.Bytes("message.data")})
}

func (s *Server) reconcile(ctx context.Context, f *framework, call codec.Message) error {
	n := &mesos.Note{Kind: mesos.NoteReconcile, Framework: f.id}
	for _, one := range call.List("reconcile.tasks") {
		n.Asked = append(n.Asked, mesos.Asked{Task: one.Text("task_id.value"), Agent: one.Text("agent_id.value")})
	}
	return s.noteFor(ctx, f, n)
}

// acknowledge answers before the acknowledgement is in the list: a status whose acknowledgement is lost is sent again.
func (s *Server) acknowledge(ctx context.Context, f *framework, call codec.Message) error {
	select {
	case s.acks <- mesos.Ack{Framework: f.id, Task: call.Text("acknowledge.task_id.value"), UUID: call.Bytes("acknowledge.uuid")}:
		return nil
	case <-ctx.Done():
		return api.Refuse(http.StatusServiceUnavailable, "the list does not answer")
	}
}

// runAcks appends acknowledgements that came together in one message, until the context ends.
func (s *Server) runAcks(ctx context.Context) {
	for {
		n := &mesos.Note{Kind: mesos.NoteAck}
		select {
		case one := <-s.acks:
			n.Acks = append(n.Acks, one)
		case <-ctx.Done():
			return
		}
		select {
		case <-time.After(5 * time.Millisecond):
		case <-ctx.Done():
		}
		for len(s.acks) > 0 && len(n.Acks) < 1000 {
			n.Acks = append(n.Acks, <-s.acks)
		}
		if err := s.note(ctx, n); err != nil && ctx.Err() == nil {
			log.Printf("mesos: %d acknowledgements were not appended: %v", len(n.Acks), err)
		}
	}
}

func (s *Server) revive(ctx context.Context, f *framework, call codec.Message) error {
	return s.ofRoles(ctx, f, "revive", call.Texts("revive.roles"))
}

func (s *Server) suppress(ctx context.Context, f *framework, call codec.Message) error {
	return s.ofRoles(ctx, f, "suppress", call.Texts("suppress.roles"))
}

// ofRoles appends an event for some roles of a framework, or for all of them.
func (s *Server) ofRoles(ctx context.Context, f *framework, event string, roles []string) error {
	if len(roles) == 0 {
		roles = f.Roles
	}
	m := &message{}
	for _, role := range roles {
		if !contains(f.Roles, role) {
			return api.Refuse(http.StatusBadRequest, "%s: the role '%s' is not one of the subscribed roles; nothing of this call was done", event, role)
		}
		m.add(event, "framework", f.Name, "role", role)
	}
	_, err := s.putFor(ctx, f, m)
	return err
}

func (s *Server) teardown(ctx context.Context, f *framework, _ codec.Message) error {
	return s.remove(ctx, f.id, "teardown", func(known *mesos.Framework) (bool, error) {
		err := f.check(known)
		return err == nil, err
	})
}

// remove removes a framework, if it exists and is due to be removed.
func (s *Server) remove(ctx context.Context, id, why string, isDue func(*mesos.Framework) (bool, error)) error {
	_, err := s.putGuarded(ctx, guardOf("framework", id), func() (m *message, err error) {
		s.state.Read(func() {
			f, is := s.state.Frameworks[id], false
			if f == nil {
				return
			}
			if is, err = isDue(f); !is {
				return
			}
			m = &message{key: why + "/" + f.Stream, isInternal: true}
			m.add("remove_framework", "framework", f.Name)
		})
		return m, err
	})
	if isSettled(err) {
		return nil
	}
	return err
}
