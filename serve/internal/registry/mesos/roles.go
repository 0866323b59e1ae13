// The roles that frameworks have in the allocator, including those that they left while tasks of theirs ran there. Outside the proof.

package mesos

import (
	"encoding/json"
	"sort"
	"strings"

	"gateway/internal/registry"
)

// HeldRoles returns the roles that a framework has in the allocator: those of its subscription, and those that it has not left yet.
func (f *Framework) HeldRoles() []string {
	if f.Held == nil {
		return f.Roles
	}
	return f.Held
}

// LeavingRoles returns the roles that a framework has in the allocator, and not in its subscription.
func (f *Framework) LeavingRoles() (roles []string) {
	for _, role := range f.Held {
		if !hasRole(f.Roles, role) {
			roles = append(roles, role)
		}
	}
	return roles
}

func hasRole(roles []string, role string) bool {
	for _, one := range roles {
		if one == role {
			return true
		}
	}
	return false
}

// hold records the roles that a framework has in the allocator.
func (f *Framework) hold(roles []string) {
	held := append([]string(nil), roles...)
	sort.Strings(held)
	if f.Held = held; strings.Join(held, " ") == strings.Join(f.Roles, " ") {
		f.Held = nil
	}
}

// setRoles applies an event that sets the roles of a framework, whoever sent it.
func (s *State) setRoles(line []byte) {
	fields := registry.Fields(line)
	f := s.Frameworks[s.IDs[registry.Text(fields, "framework")]]
	if f == nil {
		return
	}
	var roles, once []string
	json.Unmarshal(fields["roles"], &roles)
	for _, role := range roles {
		if !hasRole(once, role) {
			once = append(once, role)
		}
	}
	f.hold(once)
}

// canTake reports whether the allocator has all roles of a subscription for a framework. If it has not, the message's event was refused.
func (f *Framework) canTake(sub *Subscription) bool {
	held := f.HeldRoles()
	for _, role := range sub.Roles {
		if !hasRole(held, role) {
			return false
		}
	}
	return true
}

// take replaces the subscription of a framework. The framework keeps the roles that it had in the allocator.
func (f *Framework) take(sub *Subscription) {
	held := f.HeldRoles()
	f.Subscription = *sub
	f.hold(held)
}

// updateFramework replaces a framework's description, unless the allocator refused its roles.
func (s *State) updateFramework(f *Framework, n *Note) {
	if n.Subscription == nil || !f.IsConnected || f.Stream != n.Stream || !f.canTake(n.Subscription) {
		return
	}
	f.take(n.Subscription)
	s.changed(Change{Kind: FrameworkUpdated, Framework: *f})
}

// UsedRoles reports in which of some roles a framework's tasks and executors have resources. Resources that are to be finished, and executors whose
// role is not known, can be in any of them.
func (s *State) UsedRoles(f *Framework, among []string) map[string]bool {
	used, isAny := map[string]bool{}, false
	for _, t := range f.Tasks {
		if !IsTerminal(t.State) {
			used[t.Role] = true
		}
	}
	for _, e := range f.Executors {
		if used[e.Role] = true; e.Role == "" && len(e.Holds) > 0 {
			isAny = true
		}
	}
	for key := range s.Unused {
		isAny = isAny || strings.HasPrefix(key, HoldKey(f.Name, ""))
	}
	found := map[string]bool{}
	for _, role := range among {
		if isAny || used[role] {
			found[role] = true
		}
	}
	return found
}
