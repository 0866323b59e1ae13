// Package session watches agents and frameworks that send heartbeats, and ends those that become silent. Outside the proof.
package session

import (
	"context"
	"encoding/json"
	"errors"
	"fmt"
	"log"
	"strconv"
	"strings"
	"time"

	"gateway/internal/oplog"
	"gateway/internal/registry"

	"go.etcd.io/etcd/clientv3"
	"go.etcd.io/etcd/etcdserver/api/v3rpc/rpctypes"
)

// Removals is the kind for agents that were deactivated, and are removed after a further time.
const Removals = "removals"

// ending is what follows when a session ends: an event, and possibly another session, which gets no heartbeats.
type ending struct{ event, field, next string }

var endings = map[string]ending{
	registry.Agents:     {"deactivate_agent", "agent", Removals},
	Removals:            {"remove_agent", "agent", ""},
	registry.Frameworks: {"remove_framework", "framework", ""},
}

// kinds in the order in which they are checked.
var kinds = []string{registry.Agents, Removals, registry.Frameworks}

// registered returns the kind of registration that a session belongs to.
func registered(kind string) string {
	if kind == Removals {
		return registry.Agents
	}
	return kind
}

// Config says how long the owner of a session may be silent.
type Config struct {
	Timeouts map[string]time.Duration // by kind; 0 is for ever
	Rate     float64                  // events a second, at most
	Burst    int
	Alone    bool // no other gateway takes heartbeats
}

// Manager has the sessions. Each has a key under `sessions/watched/KIND/` with the message that registered its owner, and one under
// `sessions/alive/KIND/` with a lease: when the lease expires, an event is due.
type Manager struct {
	config   Config
	log      *oplog.Log
	registry *registry.Registry
	ready    func() error // nil while this gateway may append

	running func() time.Duration
	calm    time.Duration // since when no gateway started, paused or disappeared
	lastRun time.Duration
	live    []string
	silent  map[string]time.Duration // watched keys without a lease, and since when
	tokens  float64                  // events that may be appended at once
}

// New returns the sessions. Run must be called for silent ones to end.
func New(config Config, log *oplog.Log, registry *registry.Registry, ready func() error) *Manager {
	start := time.Now()
	m := &Manager{config: config, log: log, registry: registry, ready: ready, silent: map[string]time.Duration{}, tokens: float64(config.Burst)}
	m.running = func() time.Duration { return time.Since(start) } // includes the time while the process is stopped
	return m
}

// ErrNotWatched reports that heartbeats of a kind have no effect.
var ErrNotWatched = errors.New("heartbeats of this kind are not watched: the gateways need the flag -agent-timeout or -framework-timeout")

// UnknownError reports a heartbeat of an owner that is not registered.
type UnknownError struct{ Kind, Name string }

func (e *UnknownError) Error() string {
	return fmt.Sprintf("%s %q is not registered: register it first", strings.TrimSuffix(e.Kind, "s"), e.Name)
}

func (m *Manager) key(what, kind, name string) string {
	return m.log.Path("sessions/" + what + "/" + kind + "/" + name)
}

// start returns the operations that start a session.
func (m *Manager) start(ctx context.Context, kind, name string, registration int64) ([]clientv3.Op, error) {
	lease, err := m.log.Cluster().Client().Grant(ctx, int64((m.config.Timeouts[kind]+time.Second-1)/time.Second))
	if err != nil {
		return nil, err
	}
	value := strconv.FormatInt(registration, 10)
	return []clientv3.Op{clientv3.OpPut(m.key("alive", kind, name), value, clientv3.WithLease(lease.ID)), clientv3.OpPut(m.key("watched", kind, name), value)}, nil
}

// Heartbeat keeps the session of an agent or a framework alive, and reports whether it had one. A new registration needs a new session.
// Errors: ErrNotWatched, *UnknownError, *oplog.UnavailableError.
func (m *Manager) Heartbeat(ctx context.Context, kind, name string) (wasAlive bool, err error) {
	if m.config.Timeouts[kind] == 0 {
		return false, ErrNotWatched
	}
	ctx, cancel := context.WithTimeout(ctx, 5*time.Second)
	defer cancel()
	registration, is := m.waitRegistered(ctx, kind, name)
	if !is {
		return false, &UnknownError{kind, name}
	}
	client := m.log.Cluster().Client()
	there, err := client.Get(ctx, m.key("alive", kind, name))
	if err == nil && len(there.Kvs) > 0 && string(there.Kvs[0].Value) == strconv.FormatInt(registration, 10) {
		if _, err = client.KeepAliveOnce(ctx, clientv3.LeaseID(there.Kvs[0].Lease)); err == nil {
			return true, nil
		}
	}
	if err == nil || err == rpctypes.ErrLeaseNotFound {
		var ops []clientv3.Op
		if ops, err = m.start(ctx, kind, name, registration); err == nil {
			ops = append(ops, clientv3.OpDelete(m.key("watched", endings[kind].next, name)), clientv3.OpDelete(m.key("silent", kind, name)))
			_, err = client.Txn(ctx).Then(ops...).Commit()
		}
	}
	if err != nil {
		return false, &oplog.UnavailableError{Err: err}
	}
	return false, nil
}

// waitRegistered waits briefly until the registry has the registration, because another gateway may have received it.
func (m *Manager) waitRegistered(ctx context.Context, kind, name string) (registration int64, is bool) {
	for end := time.Now().Add(time.Second); ; time.Sleep(50 * time.Millisecond) {
		if registration, is = m.registry.Registration(kind, name); is || ctx.Err() != nil || time.Now().After(end) {
			return registration, is
		}
	}
}

// waitApplied waits briefly until the registry has a message, so that the condition of the next event can hold.
func (m *Manager) waitApplied(ctx context.Context, revision int64) {
	for end := time.Now().Add(time.Second); m.registry.Info().Revision < revision && ctx.Err() == nil && time.Now().Before(end); {
		time.Sleep(2 * time.Millisecond)
	}
}

// Run ends silent sessions until the context ends.
func (m *Manager) Run(ctx context.Context) {
	m.lastRun, m.calm = m.running(), m.running()
	for forgot := m.running(); ctx.Err() == nil; {
		m.observe()
		if m.running()-forgot > forgetEvery && m.ready() == nil {
			forgot = m.running()
			if err := m.forgetNotes(ctx); err != nil && ctx.Err() == nil {
				log.Printf("sessions: %v", err)
			}
		}
		for _, kind := range kinds {
			if m.config.Timeouts[kind] > 0 && m.ready() == nil {
				if err := m.endSilent(ctx, kind); err != nil && ctx.Err() == nil {
					log.Printf("sessions of %s: %v", kind, err)
				}
			}
		}
		select {
		case <-time.After(time.Second):
		case <-ctx.Done():
		}
	}
}

const (
	pauseAfter = 3 * time.Second // between two runs: the process was stopped
	holdFor    = 5 * time.Second // that another gateway may be gone before it is missed
	minGrace   = 5 * time.Second

	forgetEvery = time.Minute
)

// observe records when heartbeats may have been lost on the way: then the time-outs start again.
func (m *Manager) observe() {
	now := m.running()
	m.tokens += m.config.Rate * (now - m.lastRun).Seconds()
	if most := float64(m.config.Burst); m.tokens > most {
		m.tokens = most
	}
	live := m.log.Clock.Live()
	if now-m.lastRun > pauseAfter || m.ready() != nil || isMissing(m.live, live) {
		m.calm, m.silent = now, map[string]time.Duration{}
	}
	m.lastRun, m.live = now, live
}

func isMissing(before, now []string) bool {
	known := map[string]bool{}
	for _, name := range now {
		known[name] = true
	}
	for _, name := range before {
		if !known[name] {
			return true
		}
	}
	return false
}

// mayEnd reports whether a session without a lease can be ended, because nothing kept its owner's heartbeats from arriving.
func (m *Manager) mayEnd(kind, key string) bool {
	now, grace := m.running(), m.config.Timeouts[kind]
	if grace < minGrace {
		grace = minGrace
	}
	since, is := m.silent[key]
	if !is {
		m.silent[key], since = now, now
	}
	return now-m.calm >= grace && (m.config.Alone || now-since >= holdFor)
}

// endSilent appends the events that are due for sessions that have no lease. The revision of the session is in the message's key, so the message is
// appended only once. Nothing is appended if the owner sent a heartbeat or registered again in the meantime.
func (m *Manager) endSilent(ctx context.Context, kind string) error {
	ctx, cancel := context.WithTimeout(ctx, 20*time.Second)
	defer cancel()
	watched, alive := m.key("watched", kind, ""), m.key("alive", kind, "")
	answer, err := m.log.Cluster().Client().Txn(ctx).Then(clientv3.OpGet(watched, clientv3.WithPrefix()), clientv3.OpGet(alive, clientv3.WithPrefix(), clientv3.WithKeysOnly())).Commit()
	if err != nil {
		return err
	}
	lives := map[string]bool{}
	for _, kv := range answer.Responses[1].GetResponseRange().Kvs {
		lives[strings.TrimPrefix(string(kv.Key), alive)] = true
	}
	for _, kv := range answer.Responses[0].GetResponseRange().Kvs {
		name, key := strings.TrimPrefix(string(kv.Key), watched), string(kv.Key)
		if lives[name] {
			delete(m.silent, key)
			continue
		}
		applied := m.registry.Info().Revision // before the registration is looked up
		registration, is := m.registry.Registration(registered(kind), name)
		isCurrent := is && strconv.FormatInt(registration, 10) == string(kv.Value)
		if !isCurrent && applied < kv.ModRevision { // the registry may not have its owner's registration yet
			continue
		}
		if isCurrent && !m.mayEnd(kind, key) {
			continue
		}
		if isCurrent && m.tokens < 1 {
			return nil
		}
		if err := m.end(ctx, kind, name, key, kv.ModRevision, registration, applied, isCurrent); err != nil {
			return err
		}
	}
	return nil
}

// end appends the event of a silent session, and removes the session. A session whose owner left or registered again is only removed.
func (m *Manager) end(ctx context.Context, kind, name, key string, revision, registration, applied int64, isCurrent bool) error {
	how, then := endings[kind], []clientv3.Op{clientv3.OpDelete(key)}
	if isCurrent {
		m.tokens--
		line, err := json.Marshal(map[string]string{"event": how.event, how.field: name})
		if err != nil {
			return err
		}
		b := &oplog.Batch{Key: fmt.Sprintf("silent/%s/%s/%d", kind, name, revision), Internal: true,
			Conditions: []oplog.Condition{m.log.Unchanged(key, revision), m.log.Untouched(registered(kind), applied)}}
		if kind != registry.Agents { // which are deactivated, and stay registered
			b.Touches = []string{registered(kind)}
		}
		b.Add(line, false)
		at, err := m.log.Append(ctx, b)
		wasApplied := (*oplog.AppliedError)(nil)
		if errors.Is(err, oplog.ErrNotDue) { // it is looked at again
			m.tokens++
			return nil
		}
		m.waitApplied(ctx, at.Main)
		if err != nil && !errors.As(err, &wasApplied) {
			return err
		}
		log.Printf("%s %s was silent: %s", strings.TrimSuffix(registered(kind), "s"), name, how.event)
		then = append(then, m.note(kind, name, key, registration))
		if m.config.Timeouts[how.next] > 0 {
			next, err := m.start(ctx, how.next, name, registration)
			if err != nil {
				return err
			}
			then = append(then, next...)
		}
	}
	delete(m.silent, key)
	_, err := m.log.Cluster().Client().Txn(ctx).If(clientv3.Compare(clientv3.ModRevision(key), "=", revision)).Then(then...).Commit()
	return err
}
