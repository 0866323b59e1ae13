// Package server answers Mesos' v1 scheduler API, and the link of agents. Each call becomes one message of the list: event lines for the
// allocator, and a note for the registry. Outside the proof.
package server

import (
	"context"
	"crypto/rand"
	"encoding/hex"
	"encoding/json"
	"errors"
	"fmt"
	"hash/fnv"
	"net/http"
	"strings"
	"sync"
	"time"

	"gateway/internal/allocator"
	"gateway/internal/api"
	"gateway/internal/disk"
	"gateway/internal/oplog"
	"gateway/internal/registry"
	"gateway/internal/registry/mesos"
)

// Config says how the calls are answered.
type Config struct {
	Name         string        // of the gateway
	Folder       string        // whose disk must have space
	Address      string        // that the gateway listens on
	Alone        bool          // no other gateway can use the list
	GatewayGrace time.Duration // in which a framework may come again whose gateway ended, whatever its failover_timeout
	AgentGone    time.Duration // after which an agent without a link is removed
	MaxRefuse    time.Duration // for which an offer may be refused
	Silence      time.Duration // after which a stream ends whose caller's machine acknowledges nothing

	CanSetFramework func() bool // the allocator of each gateway that runs knows the event

	MaxFrameworks int   // of one principal, or 0 for no limit
	MaxBytes      int64 // of the state, for the frameworks of one principal, or 0 for no limit
}

// DefaultConfig returns the usual times and limits.
func DefaultConfig() Config {
	return Config{GatewayGrace: time.Minute, AgentGone: 75 * time.Second, MaxRefuse: time.Minute, Silence: 20 * time.Second, MaxFrameworks: 256, MaxBytes: 64 << 20}
}

// Server answers calls from what the registry has.
type Server struct {
	config    Config
	log       *oplog.Log
	allocator *allocator.Allocator
	registry  *registry.Registry
	state     *mesos.State
	streams   *Streams
	ready     func() error // nil while this gateway may append
	session   string       // of this process, as owner of streams
	ids       ids
	budget    *budget
	acks      chan mesos.Ack
	silent    map[string]time.Time // owners of streams that do not run, and since when
	pauses    pauses
	since     time.Time // when this gateway became ready, or zero while it is not

	namesLock sync.Mutex
	names     named // for Details
}

// New returns a server. Run must be called, or it performs no due actions.
func New(config Config, log *oplog.Log, allocator *allocator.Allocator, registry *registry.Registry, state *mesos.State, streams *Streams, ready func() error) *Server {
	s := &Server{config: config, log: log, allocator: allocator, registry: registry, state: state, streams: streams, ready: ready,
		acks: make(chan mesos.Ack, 4096), silent: map[string]time.Time{}, pauses: pauses{until: map[string]time.Time{}}}
	s.session = config.Name + "/" + random(8)
	s.ids.prefix = uuid()
	s.budget = &budget{max: config.MaxBytes, held: map[string]*held{}, count: func(principal string) (bytes int64) {
		state.Read(func() { bytes = state.BytesOf(principal) })
		return bytes
	}}
	return s
}

// Mounts returns the calls by their paths.
func (s *Server) Mounts() map[string]func(*api.Call) error {
	return map[string]func(*api.Call) error{"/api/v1/scheduler": s.scheduler, api.Prefix + "agent-link": s.link, api.Prefix + "kill-task": s.killTask}
}

func random(size int) string {
	text := make([]byte, size)
	rand.Read(text)
	return hex.EncodeToString(text)
}

// uuid returns a random UUID.
func uuid() string {
	text := make([]byte, 16)
	rand.Read(text)
	text[6], text[8] = text[6]&0x0f|0x40, text[8]&0x3f|0x80
	return fmt.Sprintf("%x-%x-%x-%x-%x", text[:4], text[4:6], text[6:8], text[8:10], text[10:])
}

// patience is the time from a message to its replies.
const patience = 20 * time.Second

// message is what a call puts into the list.
type message struct {
	key   string // by which several gateways append a message once
	note  *mesos.Note
	lines []map[string]interface{}
	guard string // a name that the message touches, and that no message may have touched which is not applied here

	isInternal bool
}

func (m *message) add(event string, fields ...interface{}) {
	one := map[string]interface{}{"event": event}
	for k := 0; k < len(fields); k += 2 {
		one[fields[k].(string)] = fields[k+1]
	}
	m.lines = append(m.lines, one)
}

// put appends a message under its key, or under a random one. A key with a blank is no caller's key, and is not kept when its message is pruned:
// the registry ignores repeated messages. It returns the answers to the lines, names of refusals or ok, or nil if they are no longer kept.
func (s *Server) put(ctx context.Context, m *message, conditions ...oplog.Condition) ([]string, error) {
	ctx, cancel := context.WithTimeout(ctx, patience)
	defer cancel()
	if err := s.allocator.WaitReady(ctx); err != nil {
		return nil, err
	}
	if err := disk.CheckFree(s.config.Folder); err != nil {
		return nil, err
	}
	if m.key == "" {
		m.key = random(16)
	}
	b := &oplog.Batch{Key: "mesos/ " + m.key, Conditions: conditions, Internal: m.isInternal, Sender: oplog.SenderOf(ctx)}
	if m.note != nil {
		b.Note = m.note.Encode()
	}
	if m.guard != "" {
		b.Touches = []string{m.guard}
	}
	for _, one := range m.lines {
		line, err := json.Marshal(one)
		if err != nil {
			return nil, err
		}
		b.Add(line, one["event"] == "accept" || one["event"] == "decline")
		if kind := registers(one["event"]); kind != "" {
			b.Touches = append(b.Touches, kind)
		}
	}
	at, err := s.log.Append(ctx, b)
	wasApplied := (*oplog.AppliedError)(nil)
	if errors.As(err, &wasApplied) {
		return nil, nil
	}
	if err != nil {
		return nil, err
	}
	reply, err := s.allocator.Reply(ctx, at)
	if errors.Is(err, allocator.ErrForgotten) {
		return nil, nil
	}
	if err != nil || len(m.lines) == 0 {
		return []string{}, err
	}
	answers := []string{}
	for _, line := range strings.Split(strings.TrimSuffix(string(reply.Lines), "\n"), "\n") {
		answers = append(answers, registry.AnswerOf([]byte(line)))
	}
	return answers, nil
}

func registers(event interface{}) string {
	switch event {
	case "add_agent", "remove_agent":
		return registry.Agents
	case "add_framework", "remove_framework":
		return registry.Frameworks
	}
	return ""
}

// guards is the number of names for messages that touch. Each is a key in etcd. If many agents register at once, few of them share one.
const guards = 4096

// guardOf returns the name of the guard that is touched by messages that change which gateway has a stream. Several frameworks or agents share one
// guard.
func guardOf(kind, id string) string {
	sum := fnv.New32a()
	sum.Write([]byte(kind + "/" + id))
	return fmt.Sprintf("mesos/%d", sum.Sum32()%guards)
}

// putGuarded builds a message from the current state and appends it if no message that touches the guard came in between; otherwise it builds it
// again. The message touches the guard. Build returns nil if there is nothing to do.
func (s *Server) putGuarded(ctx context.Context, guard string, build func() (*message, error)) ([]string, error) {
	return s.putWhile(ctx, guard, func() (*message, error) {
		m, err := build()
		if m != nil {
			m.guard = guard
		}
		return m, err
	})
}

// putWhile does what putGuarded does, but its message does not touch the guard, so that messages of one framework do not wait for each other.
func (s *Server) putWhile(ctx context.Context, guard string, build func() (*message, error)) ([]string, error) {
	for try := 0; try < 8; try++ {
		applied := s.registry.Info().Revision // before what is built from
		m, err := build()
		if m == nil || err != nil {
			return nil, err
		}
		answers, err := s.put(ctx, m, s.log.Untouched(guard, applied))
		if !errors.Is(err, oplog.ErrNotDue) {
			return answers, err
		}
		if err := s.sync(ctx); err != nil {
			return nil, err
		}
	}
	return nil, api.Refuse(http.StatusServiceUnavailable, "other calls came between: try again")
}

// sync waits until this gateway has applied everything that any gateway answered before.
func (s *Server) sync(ctx context.Context) error {
	_, err := s.put(ctx, &message{isInternal: true})
	return err
}

// catchUp is called before an answer that something does not exist: another gateway may have answered that it does.
func (s *Server) catchUp(ctx context.Context) error {
	if s.config.Alone {
		return s.allocator.WaitReady(ctx)
	}
	return s.sync(ctx)
}

// isSettled reports whether an error means that another gateway has done it, or that there is nothing to do any more.
func isSettled(err error) bool {
	conflict := (*oplog.ConflictError)(nil)
	return errors.Is(err, oplog.ErrNotDue) || errors.As(err, &conflict)
}
