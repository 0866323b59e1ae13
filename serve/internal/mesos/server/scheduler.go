// The scheduler API: identifies the caller and the call. Outside the proof.

package server

import (
	"context"
	"errors"
	"net/http"
	"time"

	"gateway/internal/api"
	"gateway/internal/auth"
	"gateway/internal/mesos/codec"
	"gateway/internal/registry/mesos"
)

const streamHeader = "Mesos-Stream-Id"

// invalid is the error of a call that Mesos' validation refuses.
func invalid(format string, values ...interface{}) error {
	return api.Refuse(http.StatusBadRequest, "Failed to validate scheduler::Call: "+format, values...)
}

// read reads the message of a call.
func read(c *api.Call, name string) (codec.Message, error) {
	body, release, err := c.Body()
	if err != nil {
		return codec.Message{}, err
	}
	defer release()
	m, err := codec.Read(name, c.R.Header.Get("Content-Type"), body)
	if errors.Is(err, codec.ErrMediaType) {
		return m, api.Refuse(http.StatusUnsupportedMediaType, "%v", err)
	}
	if err != nil {
		return m, api.Refuse(http.StatusBadRequest, "%v", err)
	}
	return m, nil
}

// handler answers a call of a subscribed framework. The framework is a copy of what was known.
type handler func(s *Server, ctx context.Context, f *framework, call codec.Message) error

var handlers = map[string]handler{
	"TEARDOWN": (*Server).teardown, "ACCEPT": (*Server).accept, "DECLINE": (*Server).decline, "REVIVE": (*Server).revive, "SUPPRESS": (*Server).suppress,
	"KILL": (*Server).kill, "SHUTDOWN": (*Server).shutdown, "ACKNOWLEDGE": (*Server).acknowledge, "RECONCILE": (*Server).reconcile, "MESSAGE": (*Server).message,
	"UPDATE_FRAMEWORK": (*Server).updateFramework,
	"REQUEST":          func(*Server, context.Context, *framework, codec.Message) error { return nil }, // Mesos' own allocator ignores it too
}

// bodies are the fields that calls need.
var bodies = map[string]string{"SUBSCRIBE": "subscribe", "ACCEPT": "accept", "DECLINE": "decline", "KILL": "kill", "SHUTDOWN": "shutdown", "ACKNOWLEDGE": "acknowledge",
	"RECONCILE": "reconcile", "MESSAGE": "message", "REQUEST": "request", "ACCEPT_INVERSE_OFFERS": "accept_inverse_offers", "DECLINE_INVERSE_OFFERS": "decline_inverse_offers"}

// validate returns the kind of a call, after the checks that Mesos makes before it looks for the framework.
func validate(call codec.Message, principal string) (kind string, err error) {
	kind, is := call.Name("type")
	body := bodies[kind]
	switch {
	case !is:
		return "", invalid("Expecting 'type' to be present")
	case kind != "SUBSCRIBE" && call.Text("framework_id.value") == "":
		return "", invalid("Expecting 'framework_id' to be present")
	case body != "" && !call.Has(body):
		return "", invalid("Expecting '%s' to be present", body)
	case kind == "ACKNOWLEDGE" && len(call.Bytes("acknowledge.uuid")) != 16:
		return "", invalid("Not a valid UUID")
	case kind != "SUBSCRIBE":
		return kind, nil
	}
	info := call.Sub("subscribe.framework_info")
	switch set := info.Text("principal"); {
	case call.Text("framework_id.value") != info.Text("id.value"):
		return "", invalid("'framework_id' differs from 'subscribe.framework_info.id'")
	case info.Has("principal") && set != principal:
		return "", invalid("Authenticated principal '%s' does not match principal '%s' set in `FrameworkInfo`", principal, set)
	}
	return kind, nil
}

// framework is a framework that calls.
type framework struct {
	id, stream string
	mesos.Subscription
	by *auth.Caller
}

// scheduler answers POST /api/v1/scheduler.
func (s *Server) scheduler(c *api.Call) error {
	call, err := read(c, "mesos.scheduler.Call")
	if err != nil {
		return err
	}
	kind, err := validate(call, c.By().Name)
	if err != nil {
		return err
	}
	if err := s.allocator.WaitReady(c.R.Context()); err != nil {
		return err
	}
	if kind == "SUBSCRIBE" {
		return s.subscribe(c, call)
	}
	answer := handlers[kind]
	if answer == nil {
		return api.Refuse(http.StatusNotImplemented, "the call type %s is not supported", kind)
	}
	f, err := s.caller(c, call)
	if err != nil && s.catchUp(c.R.Context()) == nil { // it may have subscribed at another gateway
		f, err = s.caller(c, call)
	}
	if err != nil {
		return err
	}
	ctx, cancel := context.WithTimeout(c.R.Context(), patience+5*time.Second)
	defer cancel()
	if err := answer(s, ctx, f, call); err != nil {
		return err
	}
	if kind == "UPDATE_FRAMEWORK" {
		c.W.WriteHeader(http.StatusOK)
		return nil
	}
	c.W.WriteHeader(http.StatusAccepted)
	return nil
}

// caller finds the framework of a call.
func (s *Server) caller(c *api.Call, call codec.Message) (*framework, error) {
	id, stream := call.Text("framework_id.value"), c.R.Header.Get(streamHeader)
	found := mesos.Framework{}
	s.state.Read(func() {
		if f := s.state.Frameworks[id]; f != nil {
			found = *f
		}
	})
	f := &framework{id, stream, found.Subscription, c.By()}
	return f, f.check(&found)
}

// check returns why a framework's call cannot have an effect now, given what is known of the framework. The texts are Mesos'.
func (f *framework) check(known *mesos.Framework) error {
	switch {
	case known == nil || known.ID == "":
		return api.Refuse(http.StatusBadRequest, "Framework cannot be found")
	case known.Principal != f.by.Name:
		return api.Refuse(http.StatusBadRequest, "Authenticated principal '%s' does not match the principal that subscribed the framework", f.by.Name)
	case !known.IsConnected:
		return api.Refuse(http.StatusForbidden, "Framework is not subscribed")
	case f.stream == "":
		return api.Refuse(http.StatusBadRequest, "All non-subscribe calls should include the '%s' header", streamHeader)
	case f.stream != known.Stream:
		return api.Refuse(http.StatusBadRequest, "The stream ID '%s' included in this request didn't match the stream ID currently associated with framework ID '%s'", f.stream, f.id)
	}
	return nil
}

// putFor appends the message of a framework's call. If the framework's stream ends before that, the call is refused: one that was sent before a
// failover has no effect after it, even if its gateway could not append it for a while.
func (s *Server) putFor(ctx context.Context, f *framework, m *message) ([]string, error) {
	return s.putWhile(ctx, guardOf("framework", f.id), func() (_ *message, err error) {
		s.state.Read(func() { err = f.check(s.state.Frameworks[f.id]) })
		return m, err
	})
}

// noteFor appends the note of a framework's call.
func (s *Server) noteFor(ctx context.Context, f *framework, n *mesos.Note) error {
	_, err := s.putFor(ctx, f, &message{note: n})
	return err
}
