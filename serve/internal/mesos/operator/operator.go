// Package operator answers operators' requests to a Mesos master: the operator API (`POST /api/v1`) and the classic endpoints such as `/state`.
// Reads are rendered from the registry and from the allocator's rows; writes become event lines, like those of our own API. Outside the proof.
package operator

import (
	"context"
	"encoding/json"
	"net/http"
	"time"

	"gateway/internal/allocator"
	"gateway/internal/api"
	"gateway/internal/mesos/codec"
	"gateway/internal/mesos/server"
	"gateway/internal/registry/mesos"
)

// patience is how long an answer may take.
const patience = 25 * time.Second

// Config has the answer to GET_FLAGS.
type Config struct {
	Flags map[string]string // Mesos' names of flags
}

// Operator answers calls.
type Operator struct {
	config    Config
	server    *server.Server
	state     *mesos.State
	questions *allocator.Questions
	watchers  *watchers
	started   time.Time
}

// New returns an operator's side of a server. It must be called before the first message, because it watches the state.
func New(config Config, server *server.Server, state *mesos.State, questions *allocator.Questions) *Operator {
	o := &Operator{config: config, server: server, state: state, questions: questions, watchers: newWatchers(), started: time.Now()}
	state.Watch(o.watchers.publish)
	return o
}

// Mounts returns the calls by their paths.
func (o *Operator) Mounts() map[string]func(*api.Call) error {
	mounts := map[string]func(*api.Call) error{"/api/v1": o.call, "/health": o.health, "/version": o.version, "/redirect": redirect, "/flags": o.flags,
		"/weights": o.weights, "/quota": o.quota, "/reserve": o.reserve, "/unreserve": o.unreserve, "/teardown": o.teardown, "/metrics/snapshot": o.snapshot}
	for path, render := range classic {
		mounts[path] = o.classic(render)
	}
	return mounts
}

// mayRead returns an error unless a caller may read.
func mayRead(c *api.Call) error {
	if c.By().Has("read", "") {
		return nil
	}
	return api.Refuse(http.StatusForbidden, "the token %q does not have the right read", c.By().Name)
}

// view returns the state as operators see it, after everything that any gateway answered before.
func (o *Operator) view(ctx context.Context) (*view, error) {
	ctx, cancel := context.WithTimeout(ctx, patience)
	defer cancel()
	if err := o.server.CatchUp(ctx); err != nil {
		return nil, err
	}
	rows, err := o.rows(ctx)
	if err != nil {
		return nil, err
	}
	return &view{o.state.Known(nil), rows}, nil
}

// rows asks the allocator.
func (o *Operator) rows(ctx context.Context) (*rows, error) {
	answer, err := o.questions.Ask(ctx, "state", "")
	if err != nil {
		return nil, err
	}
	text := ""
	if err := json.Unmarshal(answer.Text, &text); err != nil {
		return nil, err
	}
	return readRows(text), nil
}

// send writes an answer.
func send(c *api.Call, form codec.Form, m codec.Message) {
	kind, _ := form.ContentType()
	c.W.Header().Set("Content-Type", kind)
	c.W.Write(form.Write(m))
}
