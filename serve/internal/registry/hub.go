// Subscriptions, indexed by topic, so that an event costs nothing for those who did not subscribe to it. Outside the proof.

package registry

import (
	"encoding/json"
	"fmt"
	"sync"
)

// AllReplies is the topic of every line and its reply.
const AllReplies = ""

// OffersOf returns the topic of a framework's offers.
func OffersOf(framework string) string { return "offers/" + framework }

// maxWaiting is how many events can wait for a subscriber. A slower subscriber is dropped: it can subscribe again, and gets the current state.
const maxWaiting = 8192

// Subscription is one listener of a topic. Its channel is closed when the listener is dropped.
type Subscription struct {
	Events <-chan []byte

	hub    *hub
	topic  string
	events chan []byte
}

// Close ends a subscription.
func (s *Subscription) Close() { s.hub.remove(s) }

type hub struct {
	mu     sync.Mutex
	topics map[string]map[*Subscription]bool
}

func newHub() *hub { return &hub{topics: map[string]map[*Subscription]bool{}} }

func (h *hub) add(topic string) *Subscription {
	events := make(chan []byte, maxWaiting)
	s := &Subscription{events, h, topic, events}
	h.mu.Lock()
	defer h.mu.Unlock()
	if h.topics[topic] == nil {
		h.topics[topic] = map[*Subscription]bool{}
	}
	h.topics[topic][s] = true
	return s
}

func (h *hub) remove(s *Subscription) {
	h.mu.Lock()
	defer h.mu.Unlock()
	h.drop(s)
}

func (h *hub) drop(s *Subscription) {
	if h.topics[s.topic][s] {
		close(s.events)
		if delete(h.topics[s.topic], s); len(h.topics[s.topic]) == 0 {
			delete(h.topics, s.topic)
		}
	}
}

// isHeard reports whether a topic has subscribers.
func (h *hub) isHeard(topic string) bool {
	h.mu.Lock()
	defer h.mu.Unlock()
	return len(h.topics[topic]) > 0
}

// publish sends an event to the subscribers of a topic. The event is built only if there are any.
func (h *hub) publish(topic string, event func() []byte) {
	h.mu.Lock()
	defer h.mu.Unlock()
	if len(h.topics[topic]) == 0 {
		return
	}
	text := event()
	for s := range h.topics[topic] {
		select {
		case s.events <- text:
		default:
			h.drop(s)
		}
	}
}

func (h *hub) closeAll() {
	h.mu.Lock()
	defer h.mu.Unlock()
	for _, subscriptions := range h.topics {
		for s := range subscriptions {
			h.drop(s)
		}
	}
}

// Event formats a server-sent event. Its data are JSON, so they have no line breaks.
func Event(id int64, name string, data interface{}) []byte {
	text, _ := json.Marshal(data) // replies are JSON
	if id == 0 {
		return []byte(fmt.Sprintf("event: %s\ndata: %s\n\n", name, text))
	}
	return []byte(fmt.Sprintf("id: %d\nevent: %s\ndata: %s\n\n", id, name, text))
}

// SubscribeReplies subscribes to every line and its reply.
func (r *Registry) SubscribeReplies() *Subscription { return r.hub.add(AllReplies) }

// SubscribeOffers subscribes to a framework's offers, and returns events for those that exist.
func (r *Registry) SubscribeOffers(framework string) (s *Subscription, existing []byte) {
	r.mu.RLock()
	defer r.mu.RUnlock()
	for _, o := range r.cluster.sortedOrNone(r.cluster.byFramework[framework]) {
		existing = append(existing, Event(0, "offer", o.Offer)...)
	}
	return r.hub.add(OffersOf(framework)), existing
}
