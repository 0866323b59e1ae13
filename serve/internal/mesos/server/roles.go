// Changes of a framework's roles: by SUBSCRIBE again, by UPDATE_FRAMEWORK, and when the last task ends in a role that was left. Outside the proof.

package server

import (
	"context"
	"errors"
	"net/http"
	"sort"
	"strings"
	"sync"
	"time"

	"gateway/internal/api"
	"gateway/internal/mesos/codec"
	"gateway/internal/registry/mesos"
)

const (
	roleTries = 4                // an offer may come in a role while it is left
	rolePause = 30 * time.Second // after a role could not be left: somebody else launched a task there
)

// changeRoles adds the lines that change the roles of a framework. Its offers in roles that it leaves are rescinded. A role in which its tasks run
// is suppressed, and left when the last of them ends; changeRoles returns these roles. It is called while the state is read, so it cannot ask
// whether the event can be sent.
func (s *Server) changeRoles(m *message, f *mesos.Framework, roles []string, canSet bool) (leaving []string, err error) {
	held := f.HeldRoles()
	if sameRoles(held, roles) || sameRoles(f.Roles, roles) && !canSet {
		return nil, nil
	}
	if !canSet {
		return nil, refuseSubscription("Framework '%s' is subscribed with the roles [%s] and cannot change them to [%s]: the allocators of all gateways need to know `set_framework`",
			f.ID, strings.Join(f.Roles, " "), strings.Join(roles, " "))
	}
	used, all := s.state.UsedRoles(f, held), append([]string(nil), roles...)
	for _, role := range held {
		if !contains(roles, role) && used[role] {
			leaving, all = append(leaving, role), append(all, role)
		}
	}
	if len(all) > maxRoles {
		return nil, refuseSubscription("the framework '%s' has %d roles with those in which its tasks run, [%s]: at most %d are supported", f.ID, len(all), strings.Join(leaving, " "), maxRoles)
	}
	for _, o := range s.state.OffersOf(f.ID) {
		if !contains(roles, o.Role) {
			m.add("rescind", "offer", o.Offer)
		}
	}
	if !sameRoles(held, all) {
		m.add("set_framework", "framework", f.Name, "roles", all)
	}
	for _, role := range leaving {
		m.add("suppress", "framework", f.Name, "role", role)
	}
	return leaving, nil
}

func sameRoles(a, b []string) bool {
	a, b = append([]string(nil), a...), append([]string(nil), b...)
	sort.Strings(a)
	sort.Strings(b)
	return strings.Join(a, " ") == strings.Join(b, " ")
}

// restoreRoles undoes the lines of a change that was refused: roles that were suppressed get offers again, and a framework that is away gets none.
func (s *Server) restoreRoles(ctx context.Context, id string, suppressed []string) error {
	m := &message{isInternal: true}
	s.state.Read(func() {
		switch f := s.state.Frameworks[id]; {
		case f == nil:
		case f.IsConnected:
			for _, role := range suppressed {
				m.add("revive", "framework", f.Name, "role", role)
			}
		default:
			for _, role := range f.HeldRoles() {
				m.add("suppress", "framework", f.Name, "role", role)
			}
		}
	})
	if len(m.lines) == 0 {
		return nil
	}
	_, err := s.put(ctx, m)
	return err
}

// setSuppressed adds the lines after which a framework gets offers in all of its roles except some.
func (m *message) setSuppressed(name string, roles []string, suppressed map[string]bool, isNew bool) {
	for _, role := range roles {
		if suppressed[role] {
			m.add("suppress", "framework", name, "role", role)
		} else if !isNew {
			m.add("revive", "framework", name, "role", role)
		}
	}
}

// updateFramework answers UPDATE_FRAMEWORK. As in Mesos, the user and the checkpoint flag do not change.
func (s *Server) updateFramework(ctx context.Context, f *framework, call codec.Message) error {
	if !s.config.CanSetFramework() {
		return api.Refuse(http.StatusNotImplemented, "the call type UPDATE_FRAMEWORK is not supported")
	}
	if !call.Has("update_framework") {
		return invalid("Expecting 'update_framework' to be present")
	}
	body := call.Sub("update_framework")
	info := body.Sub("framework_info")
	id, sub, suppressed, err := readSubscription(f.by, info, body.Texts("suppressed_roles"))
	if err != nil {
		return asStatus(err)
	}
	old := codec.MustReadProtobuf("mesos.FrameworkInfo", f.Info)
	switch {
	case id != f.id:
		return invalid("'framework_id' differs from 'update_framework.framework_info.id'")
	case info.Has("principal") && info.Text("principal") != f.Principal:
		return api.Refuse(http.StatusBadRequest, "Updating 'FrameworkInfo.principal' is unsupported")
	case sub.User != f.User:
		return api.Refuse(http.StatusBadRequest, "Updating 'FrameworkInfo.user' is unsupported: it is '%s'", f.User)
	case info.Bool("checkpoint") != old.Bool("checkpoint"):
		return api.Refuse(http.StatusBadRequest, "Updating 'FrameworkInfo.checkpoint' is unsupported: it is %v", old.Bool("checkpoint"))
	}
	sub.Name, sub.Info = f.Name, info.Set("principal", f.Principal).Protobuf()
	if more := int64(len(sub.Info) - len(f.Info)); more > 0 && !s.budget.take(f.Principal, more) {
		return api.Refuse(http.StatusTooManyRequests, "%s", s.overBudget(f.Principal))
	}
	return s.putUpdate(ctx, f, &sub, suppressed)
}

// putUpdate appends an update, and tries again while offers come in between.
func (s *Server) putUpdate(ctx context.Context, f *framework, sub *mesos.Subscription, suppressed map[string]bool) error {
	for try := 1; ; try++ {
		leaving, canSet := []string(nil), s.config.CanSetFramework()
		answers, err := s.putGuarded(ctx, guardOf("framework", f.id), func() (m *message, err error) {
			s.state.Read(func() {
				known := s.state.Frameworks[f.id]
				if known == nil || known.Stream != f.stream || !known.IsConnected {
					err = api.Refuse(http.StatusForbidden, "Framework is not subscribed")
					return
				}
				m = &message{note: &mesos.Note{Kind: mesos.NoteUpdate, Framework: f.id, Stream: f.stream, Subscription: sub}}
				if leaving, err = s.changeRoles(m, known, sub.Roles, canSet); err == nil {
					m.setSuppressed(f.Name, sub.Roles, suppressed, false)
				}
			})
			return m, err
		})
		switch {
		case err != nil:
			return asStatus(err)
		case s.hasRoles(f.id, sub.Roles):
			return nil
		case contains(answers, "RoleInUse") && try < roleTries:
			continue
		}
		if err := s.restoreRoles(ctx, f.id, leaving); err != nil {
			return err
		}
		return api.Refuse(http.StatusConflict, "the allocator did not take the roles [%s] of the framework '%s': %s", strings.Join(sub.Roles, " "), f.id, strings.Join(answers, ", "))
	}
}

// hasRoles reports whether a framework is subscribed in exactly these roles.
func (s *Server) hasRoles(id string, roles []string) (is bool) {
	s.state.Read(func() {
		f := s.state.Frameworks[id]
		is = f != nil && sameRoles(f.Roles, roles)
	})
	return is
}

// asStatus returns the error of a call for what would end a stream by an ERROR.
func asStatus(err error) error {
	if refused := (*refusedSubscription)(nil); errors.As(err, &refused) {
		return api.Refuse(refused.status, "%s", refused.reason)
	}
	return err
}

// pauses are the frameworks whose roles are not left for some time.
type pauses struct {
	mu    sync.Mutex
	until map[string]time.Time
}

func (p *pauses) has(id string) bool {
	p.mu.Lock()
	defer p.mu.Unlock()
	if time.Now().Before(p.until[id]) {
		return true
	}
	delete(p.until, id)
	return false
}

func (p *pauses) begin(id string) {
	p.mu.Lock()
	defer p.mu.Unlock()
	p.until[id] = time.Now().Add(rolePause)
}

// dueRoles returns the actions that are due for frameworks that are leaving roles: a role is left once none of the framework's tasks runs in it,
// and offers that were made there end.
func (s *Server) dueRoles() (deeds []deed) {
	var due []string
	s.state.Read(func() {
		for _, id := range s.state.FrameworkIDs() {
			if f := s.state.Frameworks[id]; s.hasDueRole(f) && !s.pauses.has(id) {
				due = append(due, id)
			}
		}
	})
	if len(due) == 0 || !s.config.CanSetFramework() {
		return nil
	}
	for _, id := range due {
		id := id
		deeds = append(deeds, func(ctx context.Context) error { return s.leaveRoles(ctx, id) })
	}
	return deeds
}

// hasDueRole reports whether a framework has left a role in which none of its tasks runs, or in which it has an offer.
func (s *Server) hasDueRole(f *mesos.Framework) bool {
	leaving := f.LeavingRoles()
	if len(leaving) == 0 {
		return false
	}
	for _, o := range s.state.OffersOf(f.ID) {
		if contains(leaving, o.Role) {
			return true
		}
	}
	return len(s.state.UsedRoles(f, leaving)) < len(leaving)
}

func (s *Server) leaveRoles(ctx context.Context, id string) error {
	answers, err := s.putGuarded(ctx, guardOf("framework", id), func() (m *message, err error) {
		s.state.Read(func() {
			if f := s.state.Frameworks[id]; f != nil && s.hasDueRole(f) {
				m = &message{isInternal: true}
				_, err = s.changeRoles(m, f, f.Roles, true)
			}
		})
		return m, err
	})
	if contains(answers, "RoleInUse") {
		s.pauses.begin(id)
	}
	return err
}
