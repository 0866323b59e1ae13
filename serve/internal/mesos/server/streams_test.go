// Tests of streams, and of names. Outside the proof.

package server

import (
	"fmt"
	"strings"
	"sync"
	"testing"
	"time"

	"gateway/internal/registry/mesos"
)

// Published events come in order, whenever they are taken.
func TestEventsComeInOrder(t *testing.T) {
	s := NewStreams()
	one := s.add("s")
	const count = 10000
	var group sync.WaitGroup
	group.Add(1)
	go func() {
		defer group.Done()
		for k := 0; k < count; k++ {
			s.Publish(mesos.Event{Stream: "s", Kind: "UPDATE", Message: fmt.Sprint(k)})
			s.Publish(mesos.Event{Stream: "other", Kind: "UPDATE", Message: "of nobody here"})
		}
		s.Publish(mesos.Event{Stream: "s", Kind: mesos.EventEnd, Message: "why"})
	}()
	got := 0
	take := func() {
		for _, e := range one.take() {
			if e.Message != fmt.Sprint(got) {
				t.Errorf("%s came as number %d", e.Message, got)
			}
			got++
		}
	}
	for isOver, late := false, time.After(time.Minute); !isOver; {
		select {
		case <-one.wake:
			take()
		case <-one.over:
			isOver = true
		case <-late:
			t.Fatal("the stream does not end")
		}
	}
	take()
	if group.Wait(); got != count || one.reason != "why" || s.has("s") {
		t.Errorf("%d events of %d, %q, %v", got, count, one.reason, s.has("s"))
	}
}

// A stream that nobody reads ends; one that ends before it has anything is refused.
func TestStreamsEnd(t *testing.T) {
	s := NewStreams()
	slow, refused, other := s.add("slow"), s.add("refused"), s.add("other")
	for k := 0; k < maxWaiting; k++ {
		s.Publish(mesos.Event{Stream: "slow", Kind: "OFFERS"})
	}
	if slow.isOver() {
		t.Errorf("it ended with %d events", maxWaiting)
	}
	s.Publish(mesos.Event{Stream: "slow", Kind: "OFFERS"})
	if !slow.isOver() || slow.isRefused() || slow.reason != "" || len(slow.take()) != maxWaiting {
		t.Error("a slow stream goes on")
	}
	s.Publish(mesos.Event{Stream: "refused", Kind: mesos.EventEnd, Message: "the allocator did not take it"})
	if !refused.isRefused() || other.isOver() {
		t.Error(refused.isRefused(), other.isOver())
	}
	s.Publish(mesos.Event{Kind: mesos.EventReset})
	if !other.isOver() || s.has("other") {
		t.Error("a stream outlives a restore")
	}
}

// A name depends on the principal and the id, and cannot be chosen.
func TestOwnNames(t *testing.T) {
	seen := map[string]string{}
	for _, of := range [][2]string{{"a", "site"}, {"b", "site"}, {"a", "site2"}, {"as", "ite"}, {"", "asite"}, {"a", ""}} {
		name := ownName(of[0], of[1])
		if seen[name] != "" {
			t.Errorf("%q has the name of %q", of, seen[name])
		}
		if seen[name] = fmt.Sprint(of); !strings.HasPrefix(name, "x.") || len(name) != 50 {
			t.Errorf("%q: %s", of, name)
		}
		if nameOf(name) == name { // as an id it would become another name
			t.Errorf("the id %s gets the name of %q", name, of)
		}
	}
}
