// How many large bodies are handled at once. Outside the proof.

package limit

import (
	"context"
	"fmt"
	"sync"
	"time"
)

// Slots bounds how many large bodies are handled at once. A caller has at most half of the slots, so that one that sends slowly cannot keep out all
// others.
type Slots struct {
	free chan struct{}
	wait time.Duration

	mu  sync.Mutex
	own map[string]chan struct{}
}

// NewSlots returns some slots, for which callers wait for at most a given time.
func NewSlots(count int, wait time.Duration) *Slots {
	return &Slots{free: make(chan struct{}, count), wait: wait, own: map[string]chan struct{}{}}
}

// Take waits for a slot for a caller. Release returns the slot.
func (s *Slots) Take(ctx context.Context, name string) (release func(), err error) {
	ctx, cancel := context.WithTimeout(ctx, s.wait)
	defer cancel()
	own := s.ownOf(name)
	select {
	case own <- struct{}{}:
	case <-ctx.Done():
		return nil, &Error{fmt.Sprintf("%d large bodies of this caller are handled already", cap(own)), time.Second}
	}
	select {
	case s.free <- struct{}{}:
		return func() { <-s.free; <-own }, nil
	case <-ctx.Done():
		<-own
		return nil, &Error{fmt.Sprintf("%d large bodies are handled already", cap(s.free)), time.Second}
	}
}

// ownOf returns the slots of a caller.
func (s *Slots) ownOf(name string) chan struct{} {
	s.mu.Lock()
	defer s.mu.Unlock()
	if s.own[name] == nil {
		s.own[name] = make(chan struct{}, (cap(s.free)+1)/2)
	}
	return s.own[name]
}
