// Streams: events that the registry publishes for them wait here until they are written. Outside the proof.

package server

import (
	"sync"

	"gateway/internal/registry/mesos"
)

// maxWaiting is how many events can wait for a stream. A slower stream is ended: its caller subscribes again, and gets the current state. The
// number is larger than a reconciliation of all tasks for which the allocator has room.
const maxWaiting = 1 << 17

// Streams are the streams that this gateway has.
type Streams struct {
	mu   sync.Mutex
	open map[string]*stream
}

// NewStreams returns no streams.
func NewStreams() *Streams { return &Streams{open: map[string]*stream{}} }

type stream struct {
	id     string
	wake   chan struct{} // has something while events may wait
	over   chan struct{} // closed when it is to end
	reason string        // of its end, for an ERROR, or empty

	mu      sync.Mutex
	waiting []mesos.Event
}

func (s *Streams) add(id string) *stream {
	one := &stream{id: id, wake: make(chan struct{}, 1), over: make(chan struct{})}
	s.mu.Lock()
	defer s.mu.Unlock()
	s.open[id] = one
	return one
}

func (s *Streams) remove(one *stream) {
	s.mu.Lock()
	defer s.mu.Unlock()
	delete(s.open, one.id)
}

func (s *Streams) has(id string) bool {
	s.mu.Lock()
	defer s.mu.Unlock()
	return s.open[id] != nil
}

// end ends a stream. The lock is held.
func (s *Streams) end(one *stream, reason string) {
	one.reason = reason
	close(one.over)
	delete(s.open, one.id)
}

// Publish is called by the registry.
func (s *Streams) Publish(e mesos.Event) {
	s.mu.Lock()
	defer s.mu.Unlock()
	if e.Kind == mesos.EventReset {
		for _, one := range s.open {
			s.end(one, "")
		}
		return
	}
	one := s.open[e.Stream]
	if one == nil {
		return
	}
	if e.Kind == mesos.EventEnd {
		s.end(one, e.Message)
		return
	}
	if !one.put(e) {
		s.end(one, "")
	}
}

// put adds an event, unless too many wait.
func (one *stream) put(e mesos.Event) bool {
	one.mu.Lock()
	defer one.mu.Unlock()
	if len(one.waiting) >= maxWaiting {
		return false
	}
	one.waiting = append(one.waiting, e)
	select {
	case one.wake <- struct{}{}:
	default: // who takes them is awake already
	}
	return true
}

// take returns the events that wait.
func (one *stream) take() []mesos.Event {
	one.mu.Lock()
	defer one.mu.Unlock()
	taken := one.waiting
	one.waiting = nil
	return taken
}

// isRefused reports whether a stream is to end before it has anything.
func (one *stream) isRefused() bool {
	one.mu.Lock()
	defer one.mu.Unlock()
	return one.isOver() && len(one.waiting) == 0
}

// isOver reports whether a stream is to end.
func (one *stream) isOver() bool {
	select {
	case <-one.over:
		return true
	default:
		return false
	}
}
