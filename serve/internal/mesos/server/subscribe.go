// SUBSCRIBE, and the life of a framework's stream. Outside the proof.

package server

import (
	"context"
	"errors"
	"fmt"
	"log"
	"net/http"
	"sort"
	"strings"
	"time"

	"gateway/internal/api"
	"gateway/internal/auth"
	"gateway/internal/mesos/codec"
	"gateway/internal/mesos/resources"
	"gateway/internal/registry/mesos"
)

const maxRoles = 8 // that the allocator takes of a framework

// refusedSubscription is why a SUBSCRIBE is refused. As in Mesos, its stream has only an ERROR event, because clients would repeat the call after
// an error status.
type refusedSubscription struct {
	status int // of other calls
	reason string
}

func (r *refusedSubscription) Error() string { return r.reason }

func refuseSubscription(format string, values ...interface{}) error {
	return &refusedSubscription{http.StatusBadRequest, fmt.Sprintf(format, values...)}
}

// subscription reads a SUBSCRIBE. The texts are Mesos' where it has one.
func (s *Server) subscription(c *api.Call, call codec.Message) (id string, sub mesos.Subscription, suppressed map[string]bool, err error) {
	return readSubscription(c.By(), call.Sub("subscribe.framework_info"), call.Texts("subscribe.suppressed_roles"))
}

// readSubscription reads a FrameworkInfo, and the roles that get no offers.
func readSubscription(by *auth.Caller, info codec.Message, without []string) (id string, sub mesos.Subscription, suppressed map[string]bool, err error) {
	id = info.Text("id.value")
	failover := info.Float("failover_timeout")
	sub = mesos.Subscription{Principal: by.Name, User: info.Text("user"), FailoverMS: int64(failover * 1000)}
	for _, one := range info.List("capabilities") {
		sub.Capabilities = append(sub.Capabilities, one.Enum("type"))
	}
	switch {
	case id != "" && !isID(id):
		return id, sub, nil, refuseSubscription("Framework ID '%s' is invalid", id)
	case !(failover >= 0 && failover < 1e12):
		return id, sub, nil, refuseSubscription("The specified failover_timeout '%v' is invalid", failover)
	}
	if sub.Roles, err = rolesOf(info, sub.Has("MULTI_ROLE")); err != nil {
		return id, sub, nil, err
	}
	for _, role := range sub.Roles {
		if !by.Has("role", role) {
			return id, sub, nil, &refusedSubscription{http.StatusForbidden, fmt.Sprintf("Not authorized to use role '%s': the principal '%s' needs the right role:%s", role, by.Name, role)}
		}
	}
	suppressed = map[string]bool{}
	for _, role := range without {
		if suppressed[role] = true; !contains(sub.Roles, role) {
			return id, sub, nil, refuseSubscription("Suppressed role '%s' is not contained in the list of roles", role)
		}
	}
	return id, sub, suppressed, nil
}

func contains(list []string, text string) bool {
	for _, one := range list {
		if one == text {
			return true
		}
	}
	return false
}

func rolesOf(info codec.Message, isMulti bool) ([]string, error) {
	roles := append([]string(nil), info.Texts("roles")...)
	switch {
	case isMulti && info.Has("role"):
		return nil, refuseSubscription("'FrameworkInfo.role' must not be set when the framework is MULTI_ROLE capable")
	case !isMulti && len(roles) > 0:
		return nil, refuseSubscription("'FrameworkInfo.roles' must not be set when the framework is not MULTI_ROLE capable")
	case !isMulti:
		roles = []string{info.Text("role")}
	case len(roles) == 0:
		return nil, refuseSubscription("'FrameworkInfo.roles' is empty: a framework without a role is not supported")
	case len(roles) > maxRoles:
		return nil, refuseSubscription("'FrameworkInfo.roles' has %d roles: at most %d are supported", len(roles), maxRoles)
	}
	sort.Strings(roles)
	for k, role := range roles {
		if k > 0 && roles[k-1] == role {
			return nil, refuseSubscription("'FrameworkInfo.roles' contains duplicate items: %s", role)
		}
		if !resources.IsRole(role) {
			return nil, refuseSubscription("Role '%s' is invalid: expected 1 to 8 parts of visible characters without ( ) : ;, at most 64 bytes", role)
		}
	}
	return roles, nil
}

// subscribe answers with a stream.
func (s *Server) subscribe(c *api.Call, call codec.Message) error {
	form, err := codec.Accepts(c.R.Header.Get("Accept"), c.R.Header.Get("Message-Accept"))
	if err != nil {
		return api.Refuse(http.StatusNotAcceptable, "%v", err)
	}
	if c.R.Header.Get(streamHeader) != "" {
		return api.Refuse(http.StatusBadRequest, "Subscribe calls should not include the '%s' header", streamHeader)
	}
	release, err := c.Stream()
	if err != nil {
		return err
	}
	defer release()
	if err := c.EndWhenSilent(s.config.Silence); err != nil {
		return err
	}
	err = s.stream(c, form, call)
	if refused := (*refusedSubscription)(nil); errors.As(err, &refused) {
		setHeaders(c, form, uuid())
		c.Send(form.Record(errorEvent(refused.reason)))
		return nil
	}
	return err
}

// stream subscribes a framework, and writes its stream until that ends.
func (s *Server) stream(c *api.Call, form codec.Form, call codec.Message) error {
	id, sub, suppressed, err := s.subscription(c, call)
	if err != nil {
		return err
	}
	if err := s.catchUp(c.R.Context()); err != nil {
		return err
	}
	if err := s.nameCluster(c.R.Context()); err != nil {
		return err
	}
	if sub.Name = ownName(sub.Principal, id); id == "" {
		id = s.ids.next()
		sub.Name = nameOf(id)
	}
	info := call.Sub("subscribe.framework_info")
	sub.Info = info.Set("id.value", id).Set("principal", sub.Principal).Protobuf()
	wasRemoved, more := false, int64(len(sub.Info))
	s.state.Read(func() {
		f := s.state.Frameworks[id]
		if wasRemoved = s.state.WasRemoved(id) && f == nil; f != nil {
			more -= int64(len(f.Info))
		}
	})
	switch {
	case wasRemoved:
		return refuseSubscription("Framework has been removed")
	case more > 0 && !s.budget.take(sub.Principal, more):
		return refuseSubscription("%s", s.overBudget(sub.Principal))
	}
	one, err := s.putSubscription(c.R.Context(), id, sub, suppressed)
	if err != nil {
		return err
	}
	defer s.streams.remove(one)
	setHeaders(c, form, one.id)
	s.run(c, form, one, id)
	return nil
}

// putSubscription appends a subscription, tries again while offers come in roles that it leaves, and returns its stream.
func (s *Server) putSubscription(ctx context.Context, id string, sub mesos.Subscription, suppressed map[string]bool) (*stream, error) {
	for try := 1; ; try++ {
		one, leaving := s.streams.add(uuid()), []string(nil)
		answers, err := s.putGuarded(ctx, guardOf("framework", id), func() (m *message, err error) {
			m, leaving, err = s.subscribeMessage(id, one.id, sub, suppressed)
			return m, err
		})
		if err == nil && !one.isRefused() {
			return one, nil
		}
		s.streams.remove(one)
		if err == nil && contains(answers, "RoleInUse") && try < roleTries {
			continue
		}
		if err == nil {
			err = s.restoreRoles(ctx, id, leaving)
		}
		if err == nil {
			err = refuseSubscription("the allocator did not take the framework '%s': %s", id, strings.Join(answers, ", "))
		}
		return nil, err
	}
}

func setHeaders(c *api.Call, form codec.Form, stream string) {
	contentType, messageType := form.ContentType()
	c.W.Header().Set("Content-Type", contentType)
	if messageType != "" {
		c.W.Header().Set("Message-Content-Type", messageType)
	}
	if stream != "" {
		c.W.Header().Set(streamHeader, stream)
	}
}

// nameCluster gives the cluster an id, if it has none.
func (s *Server) nameCluster(ctx context.Context) error {
	hasName := false
	s.state.Read(func() { hasName = s.state.Cluster != "" })
	if hasName {
		return nil
	}
	_, err := s.put(ctx, &message{note: &mesos.Note{Kind: mesos.NoteCluster, ID: uuid()}}) // the first one counts
	return err
}

// subscribeMessage builds the message of a subscription. A framework that subscribes again keeps its name and, as in Mesos, its user and its
// checkpoint flag.
func (s *Server) subscribeMessage(id, stream string, sub mesos.Subscription, suppressed map[string]bool) (m *message, leaving []string, err error) {
	canSet := s.config.CanSetFramework()
	m = &message{note: &mesos.Note{Kind: mesos.NoteSubscribe, Framework: id, Stream: stream, Gateway: s.session, Subscription: &sub}}
	s.state.Read(func() {
		f := s.state.Frameworks[id]
		switch {
		case f == nil && s.hasManyFrameworks(sub.Principal):
			err = refuseSubscription("The principal '%s' has %d frameworks, which is the most that one may have: tear some down, or subscribe with their ids", sub.Principal, s.config.MaxFrameworks)
		case f == nil:
			m.add("add_framework", "framework", sub.Name, "roles", sub.Roles)
		case f.Principal != sub.Principal:
			err = refuseSubscription("Framework '%s' is another principal's than '%s'", id, sub.Principal)
		default:
			leaving, err = s.changeRoles(m, f, sub.Roles, canSet)
		}
		if f != nil {
			old, info := codec.MustReadProtobuf("mesos.FrameworkInfo", f.Info), codec.MustReadProtobuf("mesos.FrameworkInfo", sub.Info)
			if info.Clear("checkpoint"); old.Has("checkpoint") {
				info.Set("checkpoint", old.Bool("checkpoint"))
			}
			sub.Name, sub.User, sub.Info = f.Name, f.User, info.Set("user", f.User).Protobuf()
		}
		m.setSuppressed(sub.Name, sub.Roles, suppressed, f == nil)
	})
	return m, leaving, err
}

// overBudget says that a principal cannot use more space in the state.
func (s *Server) overBudget(principal string) string {
	return fmt.Sprintf("the frameworks of the principal '%s' have %d bytes in the state, and may have no more: acknowledge statuses, or end tasks", principal, s.config.MaxBytes)
}

// hasManyFrameworks reports whether a principal has as many frameworks as it can have, including those that are away. One principal must not be
// able to fill the allocator's table.
func (s *Server) hasManyFrameworks(principal string) bool {
	count := 0
	for _, f := range s.state.Frameworks {
		if f.Principal == principal {
			count++
		}
	}
	return s.config.MaxFrameworks > 0 && count >= s.config.MaxFrameworks
}

// run writes a framework's stream until it ends, and then reports that to the registry.
func (s *Server) run(c *api.Call, form codec.Form, one *stream, id string) {
	hasLeft := s.write(c, form, one, id)
	if one.isOver() { // the registry knows
		return
	}
	ctx, cancel := context.WithTimeout(context.Background(), 2*time.Second)
	defer cancel()
	if err := s.leave(ctx, id, one.id, !hasLeft); err != nil {
		log.Printf("mesos: the end of the stream of framework %s: %v", id, err)
	}
}

// write writes the events of a stream, and reports whether its caller ended it.
func (s *Server) write(c *api.Call, form codec.Form, one *stream, id string) (hasLeft bool) {
	beat, repeat := time.NewTicker(heartbeatSeconds*time.Second), time.NewTicker(repeatAfter/4)
	defer beat.Stop()
	defer repeat.Stop()
	lost, sent := s.log.Clock.Lost(), unacknowledged{}
	for {
		var text []byte
		select {
		case <-one.wake:
			for _, e := range one.take() {
				sent.add(e, time.Now())
				for _, m := range s.render(e) {
					text = append(text, form.Record(m)...)
				}
				if len(text) > 1<<20 {
					if !c.Send(text) {
						return true
					}
					text = text[:0]
				}
			}
		case <-one.over:
			for _, e := range one.take() {
				for _, m := range s.render(e) {
					text = append(text, form.Record(m)...)
				}
			}
			if one.reason != "" {
				text = append(text, form.Record(errorEvent(one.reason))...)
			}
			c.Send(text)
			return false
		case <-beat.C:
			text = form.Record(codec.New("mesos.scheduler.Event").Set("type", "HEARTBEAT"))
		case <-repeat.C:
			for _, status := range sent.due(s.state, id, one.id, time.Now()) {
				text = append(text, form.Record(codec.New("mesos.scheduler.Event").Set("type", "UPDATE").Set("update.status", renderStatus(status)))...)
			}
		case <-c.Replaced():
			return false
		case <-lost:
			return false
		case <-c.R.Context().Done():
			return true
		}
		if len(text) > 0 && !c.Send(text) {
			return true
		}
	}
}

// leave ends a framework's stream in the registry: its offers end, and it gets no more offers.
func (s *Server) leave(ctx context.Context, id, stream string, isOurs bool) error {
	_, err := s.putGuarded(ctx, guardOf("framework", id), func() (m *message, err error) {
		s.state.Read(func() {
			f := s.state.Frameworks[id]
			if f == nil || !f.IsConnected || f.Stream != stream {
				return
			}
			m = &message{key: "leave/" + stream, isInternal: true, note: &mesos.Note{Kind: mesos.NoteLeave, Framework: id, Stream: stream, IsOurs: isOurs}}
			for _, role := range f.Roles {
				m.add("suppress", "framework", f.Name, "role", role)
			}
			for _, o := range s.state.OffersOf(id) {
				m.add("rescind", "offer", o.Offer)
			}
		})
		return m, nil
	})
	if isSettled(err) {
		return nil
	}
	return err
}
