// Actions that become due: for streams whose gateway ended, for frameworks and agents that stay away, and for resources that nobody holds. Any
// gateway can append them. Outside the proof.

package server

import (
	"context"
	"fmt"
	"log"
	"strings"
	"sync"
	"time"

	"gateway/internal/registry/mesos"
)

// holdFor is how long another gateway may seem not to run before its streams are ended.
const holdFor = 3 * time.Second

// Run performs due actions until the context ends.
func (s *Server) Run(ctx context.Context) {
	go s.runAcks(ctx)
	for ctx.Err() == nil {
		if s.ready() != nil {
			s.since = time.Time{}
		} else {
			if s.since.IsZero() {
				s.since = time.Now()
			}
			s.doAll(ctx, append(s.dueNow(), s.dueRoles()...))
		}
		select {
		case <-time.After(500 * time.Millisecond):
		case <-ctx.Done():
		}
	}
}

// atOnce is how many actions are performed at once: when a gateway with thousands of streams ends, there are as many.
const atOnce = 32

func (s *Server) doAll(ctx context.Context, deeds []deed) {
	slots, group := make(chan struct{}, atOnce), sync.WaitGroup{}
	for _, do := range deeds {
		slots <- struct{}{}
		group.Add(1)
		go func(do deed) {
			defer func() {
				<-slots
				group.Done()
			}()
			if err := do(ctx); err != nil && !isSettled(err) && ctx.Err() == nil {
				log.Printf("mesos: %v", err)
			}
		}(do)
	}
	group.Wait()
}

// hasEnded reports whether the process that had a stream no longer runs, or is this process and does not have the stream.
func (s *Server) hasEnded(owner, stream string, live map[string]bool) bool {
	name, _, _ := strings.Cut(owner, "/")
	switch {
	case owner == s.session:
		return !s.streams.has(stream)
	case name == s.config.Name: // an earlier process of this gateway
		return true
	case live[name]:
		delete(s.silent, owner)
		return false
	}
	since, is := s.silent[owner]
	if !is {
		s.silent[owner], since = time.Now(), time.Now()
	}
	return time.Since(since) >= holdFor
}

type deed func(context.Context) error

// dueNow returns the actions that are due. The times for which a framework or an agent may be away start again when this gateway becomes ready,
// because nobody could reconnect while there was no service.
func (s *Server) dueNow() (deeds []deed) {
	live, now := map[string]bool{}, s.log.Clock.Now().UnixMilli()
	isOver := func(left, wait int64) bool { return now-left >= wait && time.Since(s.since).Milliseconds() >= wait }
	for _, name := range s.log.Clock.Live() {
		live[name] = true
	}
	s.state.Read(func() {
		for _, id := range s.state.FrameworkIDs() {
			id, f := id, s.state.Frameworks[id]
			stream, wait := f.Stream, f.FailoverMS
			if grace := s.config.GatewayGrace.Milliseconds(); f.IsOurs && wait < grace {
				wait = grace
			}
			switch {
			case f.IsConnected && s.hasEnded(f.Gateway, f.Stream, live):
				deeds = append(deeds, func(ctx context.Context) error { return s.leave(ctx, id, stream, true) })
			case !f.IsConnected && isOver(f.Left, wait):
				deeds = append(deeds, func(ctx context.Context) error { return s.removeSilent(ctx, id, stream) })
			case !f.IsConnected:
				deeds = append(deeds, s.rescinds(id)...)
			}
		}
		for _, a := range s.state.Agents {
			id, stream := a.ID, a.Stream
			switch {
			case a.Drain != nil && a.Drain.State == mesos.Drained && a.Drain.MarkGone:
				number := a.Drain.Number
				deeds = append(deeds, func(ctx context.Context) error { return s.removeDrained(ctx, id, number) })
			case a.IsConnected && s.hasEnded(a.Gateway, a.Stream, live):
				deeds = append(deeds, func(ctx context.Context) error { return s.leaveAgent(ctx, id, stream) })
			case !a.IsConnected && isOver(a.Left, s.config.AgentGone.Milliseconds()):
				deeds = append(deeds, func(ctx context.Context) error { return s.removeAgent(ctx, id, stream) })
			}
		}
		for _, o := range s.state.UnlinkedOffers() {
			deeds = append(deeds, s.declineUnlinked(o, fmt.Sprintf("decline/%d/%d", s.state.Epoch, o.Offer)))
		}
		for key, since := range s.state.Unused {
			name, hold, _ := strings.Cut(key, "/")
			m := &message{key: fmt.Sprintf("finish/%s/%d", key, since), isInternal: true}
			m.add("finish", "framework", name, "task", hold)
			deeds = append(deeds, s.deed(m))
		}
	})
	return deeds
}

// rescinds ends offers that were made while their framework was leaving.
func (s *Server) rescinds(framework string) (deeds []deed) {
	for _, o := range s.state.OffersOf(framework) {
		m := &message{key: fmt.Sprintf("rescind/%d/%d", s.state.Epoch, o.Offer), isInternal: true}
		m.add("rescind", "offer", o.Offer)
		deeds = append(deeds, s.deed(m))
	}
	return deeds
}

// declineUnlinked declines an offer on an agent without a link, so that others get it.
func (s *Server) declineUnlinked(o mesos.Offer, key string) deed {
	return func(ctx context.Context) error {
		for _, refuseMS := range []int64{s.config.MaxRefuse.Milliseconds(), 0} {
			m := &message{key: fmt.Sprintf("%s/%d", key, refuseMS), isInternal: true}
			m.add("decline", "framework", o.Framework, "offer", o.Offer, "refuse_ms", refuseMS)
			if answers, err := s.put(ctx, m); err != nil || len(answers) == 0 || answers[0] != "TooMany" { // which is that there is no room for a filter
				return err
			}
		}
		return nil
	}
}

func (s *Server) deed(m *message) deed {
	return func(ctx context.Context) error {
		_, err := s.put(ctx, m)
		return err
	}
}

// removeSilent removes a framework that did not subscribe again after a stream.
func (s *Server) removeSilent(ctx context.Context, id, stream string) error {
	return s.remove(ctx, id, "failover", func(f *mesos.Framework) (bool, error) { return f.Stream == stream && !f.IsConnected, nil })
}

// removeAgent removes an agent that stayed away for too long. Its tasks are lost.
func (s *Server) removeAgent(ctx context.Context, id, stream string) error {
	_, err := s.putGuarded(ctx, guardOf("agent", id), func() (m *message, err error) {
		s.state.Read(func() {
			if a := s.state.Agents[id]; a != nil && !a.IsConnected && a.Stream == stream {
				m = &message{key: "gone/" + stream, isInternal: true}
				m.add("remove_agent", "agent", id)
			}
		})
		return m, nil
	})
	return err
}
