// Tests of which agents are silent, over a real etcd. Outside the proof.

package session

import (
	"context"
	"testing"
	"time"

	"gateway/internal/registry"
)

func TestSilentAgentsAreKnown(t *testing.T) {
	t.Parallel()
	w := newWorld(t)
	w.follow()
	m := w.manager(map[string]time.Duration{registry.Agents: time.Second}, 10, 10)
	silent := func(want string) Silent {
		t.Helper()
		found, err := m.Silent(context.Background())
		if err != nil || want == "" && len(found) > 0 || want != "" && (len(found) != 1 || found[0].Agent != want) {
			t.Fatalf("%v %v, want %q", found, err, want)
		}
		return append(found, Silent{})[0]
	}
	w.send(`{"event":"add_agent","agent":"n1","total":"cpus:1"}`, `{"event":"add_agent","agent":"never","total":"cpus:1"}`)
	w.beat(m, registry.Agents, "n1", false)
	last := time.Now()
	silent("")
	w.waitLeaseEnds(m, registry.Agents, "n1")
	if one := silent("n1"); one.Since != 0 {
		t.Error("it was not deactivated yet, but silent since", one.Since)
	}
	w.pass(m, 8)
	w.waitFor(`{"agent":"n1","event":"deactivate_agent"}`)
	one := silent("n1")
	// The world's time passes faster than the clock's: eight seconds in no time.
	if since := time.UnixMilli(one.Since); since.Before(last.Add(-12*time.Second)) || since.After(time.Now()) {
		t.Errorf("silent since %v, its last heartbeat was at %v", since, last)
	}
	w.beat(m, registry.Agents, "n1", false)
	silent("")
}

// Notes about agents that were removed or registered again are deleted.
func TestNotesOfRemovedAgentsAreForgotten(t *testing.T) {
	t.Parallel()
	w := newWorld(t)
	w.follow()
	m := w.manager(map[string]time.Duration{registry.Agents: time.Second}, 10, 10)
	w.send(`{"event":"add_agent","agent":"n1","total":"cpus:1"}`)
	w.beat(m, registry.Agents, "n1", false)
	w.waitLeaseEnds(m, registry.Agents, "n1")
	w.pass(m, 8)
	w.waitFor(`{"agent":"n1","event":"deactivate_agent"}`)
	count := func() int {
		answer, err := w.log.Cluster().Client().Get(context.Background(), m.key("silent", registry.Agents, "n1"))
		if err != nil {
			t.Fatal(err)
		}
		return len(answer.Kvs)
	}
	forget := func() {
		if err := m.forgetNotes(context.Background()); err != nil {
			t.Fatal(err)
		}
	}
	if forget(); count() != 1 {
		t.Error("the note of an agent that is silent was forgotten")
	}
	w.send(`{"event":"remove_agent","agent":"n1"}`, `{"event":"add_agent","agent":"n1","total":"cpus:1"}`)
	// The registry follows the list, so it learns of the second registration a little later.
	for end := time.Now().Add(20 * time.Second); ; time.Sleep(50 * time.Millisecond) {
		found, err := m.Silent(context.Background())
		if err != nil {
			t.Fatal(err)
		}
		if len(found) == 0 {
			break
		}
		if time.Now().After(end) {
			t.Fatal("an agent that registered again is silent", found)
		}
	}
	for end := time.Now().Add(20 * time.Second); count() > 0; time.Sleep(50 * time.Millisecond) {
		if forget(); time.Now().After(end) {
			t.Fatal("the note stays")
		}
	}
}
