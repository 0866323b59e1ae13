// Package registry, outside the proof, has the state that is derived from messages and the allocator's replies: offers, frameworks, agents, and
// subscriptions to them. It does no IO and reads no clock, so every gateway derives the same. No reply depends on it.
package registry

import (
	"bytes"
	"encoding/json"
	"fmt"
	"sync"
	"time"
)

// Message is a message of the list with the allocator's replies.
type Message struct {
	Number   int64
	Revision int64 // of etcd, at which it was appended
	Last     bool  // it is the last message of that revision
	At       int64
	Key      string
	Note     []byte
	Lines    [][]byte
	Replies  [][]byte      // each with its line feed
	Took     time.Duration // from the allocator's input to its reply
}

// State is one part of the derived state. The registry calls it with its lock held.
type State interface {
	// Name returns the part's name in a snapshot.
	Name() string
	// Begin starts an epoch: numbers of offers begin again.
	Begin(epoch int)
	// Apply takes a message and its replies.
	Apply(m *Message)
	// Snapshot returns the state. Equal states have equal snapshots.
	Snapshot() []byte
	// Restore replaces the state by a snapshot's.
	Restore(snapshot []byte) error
}

// Observer counts what happens. The registry calls it with its lock held.
type Observer interface {
	Line(kind, answer string, took time.Duration)
	OfferMade(framework string)
	OfferEnded(framework, reason string)
	FrameworkRemoved(framework string)
}

// Registry applies each message once, in order, to all its states. After a restart of the allocator, messages are repeated, and skipped.
type Registry struct {
	hub      *hub
	observer Observer

	mu       sync.RWMutex
	cluster  *cluster
	states   []State
	applied  int64 // the last message
	revision int64 // of etcd, all of whose messages are applied
	now      int64 // the greatest timestamp
	epoch    int
	idle     bool // the last event was a cycle without offers
}

// New returns an empty registry, with additional states.
func New(observer Observer, more ...State) *Registry {
	r := &Registry{hub: newHub(), observer: observer}
	r.cluster = newCluster(r.hub, observer)
	r.states = append([]State{r.cluster}, more...)
	return r
}

// Info is how far the registry has got.
type Info struct {
	Applied, Revision, Now int64
	Epoch                  int
	Idle                   bool
	Offers, Agents, Tasks  int
}

// Info returns how far the registry has got.
func (r *Registry) Info() Info {
	r.mu.RLock()
	defer r.mu.RUnlock()
	return Info{r.applied, r.revision, r.now, r.epoch, r.idle, len(r.cluster.offers), len(r.cluster.agents), r.cluster.countTasks()}
}

// Apply applies a message, unless it was applied before.
func (r *Registry) Apply(m *Message) {
	r.mu.Lock()
	defer r.mu.Unlock()
	if m.Number <= r.applied {
		return
	}
	if r.applied = m.Number; m.At > r.now {
		r.now = m.At
	}
	isHeard := r.hub.isHeard(AllReplies)
	for k, line := range m.Lines {
		reply := bytes.TrimSuffix(m.Replies[k], []byte("\n"))
		kind := Kind(line)
		r.observer.Line(kind, answerOf(reply), m.Took)
		r.idle = kind == "cycle" && string(reply) == `{"offers":[]}`
		if !isHeard {
			continue
		}
		line := line
		r.hub.publish(AllReplies, func() []byte {
			return Event(m.Number, "reply", map[string]interface{}{"message": m.Number, "line": string(line), "reply": json.RawMessage(reply)})
		})
	}
	for _, state := range r.states {
		state.Apply(m)
	}
	if m.Last {
		r.revision = m.Revision
	}
}

// Begin starts an epoch, unless it was started before.
func (r *Registry) Begin(epoch int) {
	r.mu.Lock()
	defer r.mu.Unlock()
	if epoch <= r.epoch {
		return
	}
	r.epoch = epoch
	for _, state := range r.states {
		state.Begin(epoch)
	}
}

// Snapshot returns the states as one text, if the last message has this number.
func (r *Registry) Snapshot(number int64) (snapshot []byte, is bool) {
	r.mu.RLock()
	defer r.mu.RUnlock()
	if r.applied != number {
		return nil, false
	}
	texts := map[string]json.RawMessage{}
	for _, state := range r.states {
		if text := state.Snapshot(); len(text) > 0 { // one that is not used is left out, as by gateways that do not have it
			texts[state.Name()] = text
		}
	}
	snapshot, err := json.Marshal(texts) // in order of names
	return snapshot, err == nil
}

// Restore resumes from a snapshot after a message, unless the registry is already there. Subscribers must subscribe again, and get the current
// state. An empty snapshot is replaced by the rows of the allocator's state, because snapshots of older gateways have nothing else.
func (r *Registry) Restore(snapshot, rows []byte, message, at int64, epoch int) error {
	r.mu.Lock()
	defer r.mu.Unlock()
	if message <= r.applied {
		return nil
	}
	r.hub.closeAll()
	r.applied, r.revision, r.now, r.epoch = message, 0, at, epoch
	if len(snapshot) == 0 {
		r.cluster.restoreRows(rows, at)
		return nil
	}
	var texts map[string]json.RawMessage
	if err := json.Unmarshal(snapshot, &texts); err != nil {
		return fmt.Errorf("the registry's snapshot: %w", err)
	}
	for _, state := range r.states {
		if err := state.Restore(texts[state.Name()]); err != nil {
			return fmt.Errorf("the registry's snapshot of %s: %w", state.Name(), err)
		}
	}
	return nil
}

// ResetRows replaces the cluster by the rows of the allocator's state after a message, if that is the last message.
func (r *Registry) ResetRows(rows []byte, message, at int64) {
	r.mu.Lock()
	defer r.mu.Unlock()
	if r.applied == message {
		r.cluster.restoreRows(rows, at)
	}
}

// kinds are the names of events: the name of a line's event need not be allocated.
var kinds = func() map[string]string {
	known := map[string]string{}
	for _, kind := range []string{"accept", "activate_agent", "add_agent", "add_framework", "cycle", "deactivate_agent", "decline", "finish", "remove_agent", "remove_framework",
		"report", "rescind", "reserve", "revive", "set_agent", "set_framework", "set_limit", "set_weight", "suppress", "unreserve"} {
		known[kind] = kind
	}
	return known
}()

// Kind returns the name of a line's event.
func Kind(line []byte) string {
	text, is := plainText(line, `"event"`)
	if !is {
		return Text(Fields(line), "event")
	}
	return KindOf(text)
}

// KindOf returns the name of an event as a text.
func KindOf(name []byte) string {
	if kind, is := kinds[string(name)]; is {
		return kind
	}
	return string(name)
}

// TextOf returns a field of a line that is a text, or an empty text.
func TextOf(line []byte, key string) string {
	if text, is := plainText(line, `"`+key+`"`); is {
		return string(text)
	}
	return Text(Fields(line), key)
}

// plainText returns the text of a field whose name is given in quotes, if the line has the name once and no escapes. Most lines are so, and need not
// be parsed for it.
func plainText(line []byte, name string) (text []byte, is bool) {
	at := bytes.Index(line, []byte(name))
	if at < 0 || bytes.IndexByte(line, '\\') >= 0 {
		return nil, false
	}
	rest := line[at+len(name):]
	if bytes.Contains(rest, []byte(name)) {
		return nil, false
	}
	if rest = bytes.TrimLeft(rest, " "); len(rest) == 0 || rest[0] != ':' {
		return nil, false
	}
	if rest = bytes.TrimLeft(rest[1:], " "); len(rest) == 0 || rest[0] != '"' {
		return nil, false
	}
	text, _, _ = bytes.Cut(rest[1:], []byte(`"`))
	return text, true
}

// Fields reads a line as the allocator does: keys must match exactly, and of equal keys the last counts. It returns nil if the line is not an
// object.
func Fields(line []byte) map[string]json.RawMessage {
	var object map[string]json.RawMessage
	if json.Unmarshal(line, &object) != nil {
		return nil
	}
	return object
}

// Text returns a field that is a text, or an empty text.
func Text(object map[string]json.RawMessage, key string) string {
	var text string
	if json.Unmarshal(object[key], &text) != nil {
		return ""
	}
	return text
}

// answerOf returns the name of a refusal, or ok.
func answerOf(reply []byte) string {
	if prefix := `{"name":"`; bytes.HasPrefix(reply, []byte(prefix)) {
		name, _, _ := bytes.Cut(reply[len(prefix):], []byte(`"`))
		return string(name)
	}
	return "ok"
}
