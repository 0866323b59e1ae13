// The roles of frameworks in the small allocator, and what the registry must have of them. Outside the proof.

package mesos

import (
	"fmt"
	"reflect"
	"sort"
	"strings"
	"testing"

	"gateway/internal/registry"
)

// roleModel is what the allocator has of roles, and what the notes that took effect said.
type roleModel struct {
	roles    map[string]map[string]bool // by the allocator's name of a framework
	taskRole map[string]string          // by FRAMEWORK/TASK
	wanted   map[string]string          // by framework
	stream   map[string]string          // that runs
	left     int                        // roles that were left while the framework ran
}

func newRoleModel() roleModel {
	return roleModel{roles: map[string]map[string]bool{}, taskRole: map[string]string{}, wanted: map[string]string{}, stream: map[string]string{}}
}

func setOf(list []string) map[string]bool {
	set := map[string]bool{}
	for _, one := range list {
		set[one] = true
	}
	return set
}

func (w *world) someRoles() []string {
	all := []string{"dev", "ops", "web"}
	k := w.Intn(3)
	return all[k : k+1+w.Intn(3-k)]
}

func (w *world) roleOf(framework string) string {
	roles := sortedKeys(w.roles[framework])
	return roles[w.Intn(len(roles))]
}

// setFramework answers the event as its definition says; now and then a table is full.
func (w *world) setFramework(framework string, roles []string) string {
	if !w.frameworks[framework] || w.Intn(8) == 0 {
		return refused
	}
	stays := setOf(roles)
	for _, o := range w.offers {
		if o.Framework == framework && !stays[o.Role] {
			return refused
		}
	}
	for key, role := range w.taskRole {
		if strings.HasPrefix(key, framework+"/") && !stays[role] {
			return refused
		}
	}
	for role := range w.roles[framework] {
		if !stays[role] {
			w.left++
		}
	}
	w.roles[framework] = stays
	return isOK
}

// expect follows which roles a framework is subscribed with: those of its last note whose roles the allocator all has.
func (w *world) expect(n *Note) {
	if n.Kind == NoteLeave && n.Stream == w.stream[n.Framework] {
		w.stream[n.Framework] = ""
	}
	if n.Subscription == nil || n.Kind == NoteUpdate && n.Stream != w.stream[n.Framework] {
		return
	}
	for _, role := range n.Subscription.Roles {
		if !w.roles[n.Subscription.Name][role] {
			return
		}
	}
	if w.wanted[n.Framework] = strings.Join(n.Subscription.Roles, " "); n.Kind == NoteSubscribe {
		w.stream[n.Framework] = n.Stream
	}
}

// changeRoles returns the lines by which a gateway changes roles, from what it saw some time ago.
func (w *world) changeRoles(seen *State, f *Framework, sub *Subscription) (lines []string) {
	all, stays := append([]string(nil), sub.Roles...), setOf(sub.Roles)
	if f != nil {
		held := f.HeldRoles()
		used := seen.UsedRoles(f, held)
		for _, role := range held {
			if !stays[role] && used[role] {
				all = append(all, role)
			}
		}
		for _, o := range seen.OffersOf(f.ID) {
			if !stays[o.Role] {
				lines = append(lines, line("rescind", "offer", o.Offer))
			}
		}
	}
	if w.Intn(3) == 0 { // a role that is listed twice counts once
		all = append(all, all[0])
	}
	return append(lines, line("set_framework", "framework", sub.Name, "roles", all))
}

// updateRoles changes the roles of a framework that runs, leaves some that it left before, or is what an operator sends.
func (w *world) updateRoles(seen *State, f *Framework) *registry.Message {
	if f == nil {
		return w.message(nil)
	}
	sub := f.Subscription
	switch w.Intn(4) {
	case 0:
		return w.message(nil, w.changeRoles(seen, f, &sub)...)
	case 1:
		return w.message(nil, line("set_framework", "framework", f.Name, "roles", w.someRoles()))
	}
	sub.Roles = w.someRoles()
	return w.message(&Note{Kind: NoteUpdate, Framework: f.ID, Stream: f.Stream, Subscription: &sub}, w.changeRoles(seen, f, &sub)...)
}

// checkRoles compares the roles of frameworks, and where their tasks are, with the allocator.
func (w *world) checkRoles(s *State) error {
	for id, f := range s.Frameworks {
		held := append([]string(nil), f.HeldRoles()...)
		sort.Strings(held)
		if want := sortedKeys(w.roles[f.Name]); !reflect.DeepEqual(held, want) {
			return fmt.Errorf("framework %s has the roles %v, and %v in the allocator", id, held, want)
		}
		if got := strings.Join(f.Roles, " "); got != w.wanted[id] {
			return fmt.Errorf("framework %s is subscribed with the roles %q, want %q", id, got, w.wanted[id])
		}
		for _, role := range f.LeavingRoles() {
			if setOf(f.Roles)[role] || !w.roles[f.Name][role] {
				return fmt.Errorf("framework %s leaves %s", id, role)
			}
		}
		used := s.UsedRoles(f, held)
		for key, role := range w.taskRole {
			if strings.HasPrefix(key, f.Name+"/") && !used[role] {
				return fmt.Errorf("the allocator's task %s is in %s, which counts as not used", key, role)
			}
		}
	}
	return nil
}

// A framework that leaves a role in which it has a task keeps the role until the task has ended. An update that the allocator refuses changes
// nothing.
func TestRoles(t *testing.T) {
	var events []string
	s, w := New(func(e Event) { events = append(events, e.Kind) }), newWorld(1)
	apply := func(n *Note, reply string, lines ...string) {
		w.number++
		m := &registry.Message{Number: w.number, At: w.number * 10}
		for k, text := range lines {
			answer := isOK
			if k == len(lines)-1 {
				answer = reply
			}
			m.Lines, m.Replies = append(m.Lines, []byte(text)), append(m.Replies, []byte(answer+"\n"))
		}
		if n != nil {
			m.Note = n.Encode()
		}
		s.Apply(m)
	}
	set := func(roles ...string) string { return line("set_framework", "framework", "x.f", "roles", roles) }
	note := func(kind, stream string, roles ...string) *Note {
		return &Note{Kind: kind, Framework: "f", Stream: stream, Subscription: &Subscription{Name: "x.f", Roles: roles}}
	}
	check := func(what, roles, held string) {
		t.Helper()
		f := s.Frameworks["f"]
		if got := strings.Join(f.Roles, " "); got != roles || strings.Join(f.HeldRoles(), " ") != held {
			t.Errorf("%s: %q of %v, want %q of %q", what, got, f.HeldRoles(), roles, held)
		}
	}
	inUse := `{"name":"RoleInUse","refused":20}`
	apply(note(NoteSubscribe, "s1", "web"), isOK, line("add_framework", "framework", "x.f", "roles", []string{"web"}))
	check("subscribed", "web", "web")
	apply(note(NoteUpdate, "s1", "ops"), isOK, set("ops", "web"))
	check("with a task in web", "ops", "ops web")
	if used := s.UsedRoles(s.Frameworks["f"], []string{"web"}); used["web"] {
		t.Error("a role without a task is used")
	}
	apply(nil, inUse, set("ops"))
	check("refused", "ops", "ops web")
	apply(nil, isOK, set("ops"))
	check("left", "ops", "ops")
	apply(note(NoteUpdate, "s1", "dev", "ops"), `{"name":"TooMany","refused":19}`, set("dev", "ops"))
	check("refused for want of room", "ops", "ops")
	apply(note(NoteUpdate, "s0", "dev"), isOK, set("dev", "ops"))
	check("of another stream", "ops", "dev ops")
	events = nil
	apply(note(NoteSubscribe, "s2", "dev", "web"), inUse, set("dev", "web"))
	if check("refused again", "ops", "dev ops"); !reflect.DeepEqual(events, []string{EventEnd}) || s.Frameworks["f"].Stream != "s1" {
		t.Errorf("%v on %s", events, s.Frameworks["f"].Stream)
	}
	apply(note(NoteSubscribe, "s3", "dev", "web"), isOK, set("web", "dev"))
	check("subscribed again", "dev web", "dev web")
}
