// Package api answers HTTP calls: it knows callers, paths and statuses, but not how messages are stored. Outside the proof: each reply line in an
// answer comes from the allocator.
package api

import (
	"net/http"
	"strings"
	"sync/atomic"
	"time"

	"gateway/internal/allocator"
	"gateway/internal/archive"
	"gateway/internal/auth"
	"gateway/internal/limit"
	"gateway/internal/members"
	"gateway/internal/metrics"
	"gateway/internal/oplog"
	"gateway/internal/registry"
	"gateway/internal/session"
)

// Prefix is what the paths of calls begin with.
const Prefix = "/drf/v1/"

// patience is the time from a batch to its replies.
const patience = 25 * time.Second

// Service is the parts of the gateway that a server needs to answer calls.
type Service struct {
	Name      string
	Version   string
	Drf       string // SHA-256 of the allocator's program
	Started   time.Time
	Folder    string        // whose disk must have space
	Window    time.Duration // for which keys are kept
	Log       *oplog.Log
	Journal   *allocator.Journal
	Allocator *allocator.Allocator
	Questions *allocator.Questions
	Registry  *registry.Registry
	Sessions  *session.Manager
	Members   *members.Table
	Details   []DetailSource
	Archive   *archive.Archiver            // or nil
	Mounts    map[string]func(*Call) error // by path, calls of other APIs
}

// Server answers calls. Before it has a service it answers 503.
type Server struct {
	metrics *metrics.Metrics
	limiter *limit.Limiter
	slots   *limit.Slots
	logins  *logins
	inTime  time.Duration // that a caller may take to send a request, and to take an answer or a part of it

	states   stateCache
	detailed detailCache

	callers atomic.Value // *auth.Callers
	service atomic.Value // *Service
	waiting atomic.Value // string: why there is no service
}

// New returns a server.
func New(metrics *metrics.Metrics, limiter *limit.Limiter, slots *limit.Slots) *Server {
	s := &Server{metrics: metrics, limiter: limiter, slots: slots, logins: newLogins(), inTime: time.Minute}
	s.callers.Store(&auth.Callers{})
	s.waiting.Store("it starts")
	return s
}

// SetCallers replaces the callers. All streams end, and callers that still have the right can open them again.
func (s *Server) SetCallers(callers *auth.Callers) {
	old := s.callers.Swap(callers).(*auth.Callers)
	if old.Replaced() != nil {
		old.Replace()
	}
}

// EndStreams ends the streams that are open.
func (s *Server) EndStreams() { s.SetCallers(s.callers.Load().(*auth.Callers).Renewed()) }

// SetService lets calls be answered.
func (s *Server) SetService(service *Service) { s.service.Store(service) }

// SetWaiting says why there is no service yet.
func (s *Server) SetWaiting(reason string) { s.waiting.Store(reason) }

// request is a call that is answered.
type request struct {
	*Service
	server  *Server
	w       http.ResponseWriter
	r       *http.Request
	by      *auth.Caller
	callers *auth.Callers
	name    string // the NAME in the path, or empty
}

// call is a method and the right that it needs, and the function that answers it.
type call struct {
	method, right string
	answer        func(*request) error
	when          when
}

// when says which calls a gateway answers that is not ready: those that say why it is not.
type when int

const (
	whenReady  when = iota
	whenCutOff      // too
	always          // even before there is a service
)

var calls = map[string]call{
	Prefix + "events":                 {http.MethodPost, "", (*request).events, whenReady},
	Prefix + "report":                 {http.MethodGet, "read", (*request).report, whenReady},
	Prefix + "state":                  {http.MethodGet, "read", (*request).state, whenReady},
	Prefix + "explain":                {http.MethodGet, "read", (*request).explain, whenReady},
	Prefix + "audit":                  {http.MethodGet, "read", (*request).audit, whenReady},
	Prefix + "settings":               {http.MethodGet, "read", (*request).settings, whenReady},
	Prefix + "journal":                {http.MethodGet, "read", (*request).readJournal, whenReady},
	Prefix + "replies":                {http.MethodGet, "read", (*request).replies, whenReady},
	Prefix + "status":                 {http.MethodGet, "read", (*request).status, whenCutOff},
	Prefix + "details":                {http.MethodGet, "read", (*request).details, whenReady},
	Prefix + "me":                     {http.MethodGet, "", (*request).me, always},
	Prefix + "login-codes":            {http.MethodPost, "", (*request).createLogin, always},
	Prefix + "frameworks/NAME/offers": {http.MethodGet, "", (*request).offers, whenReady},
	Prefix + "frameworks/NAME/alive":  {http.MethodPost, "", (*request).frameworkAlive, whenReady},
	Prefix + "agents/NAME/alive":      {http.MethodPost, "", (*request).agentAlive, whenReady},
	"/metrics":                        {http.MethodGet, "read", (*request).readMetrics, always},
}

// Values of headers that every answer has.
var nosniff, noStore = []string{"nosniff"}, []string{"no-store"}

// ServeHTTP answers a request.
func (s *Server) ServeHTTP(w http.ResponseWriter, r *http.Request) {
	r = withDeadlines(w, r)
	limitReading(r, s.inTime)
	head := w.Header()
	head["X-Content-Type-Options"], head["Cache-Control"] = nosniff, noStore
	text, kind, isPage := pageFile(r.URL.Path)
	name, m, isMounted := findMount(r.URL.Path)
	switch {
	case isPage && r.Method == http.MethodGet:
		writePage(w, text, kind)
	case r.URL.Path == Prefix+"login":
		if err := s.useLogin(w, r); err != nil {
			s.refuse(w, r, err)
		}
	case r.URL.Path == "/healthz":
		if err := s.Healthy(); err != nil {
			s.refuse(w, r, err)
		}
	case isMounted:
		if err := s.mounted(w, r, name, m); err != nil {
			s.refuse(w, r, err)
		}
	default:
		if err := s.dispatch(w, r); err != nil {
			s.refuse(w, r, err)
		}
	}
}

// Healthy returns why this gateway does not take events, or nil.
func (s *Server) Healthy() error {
	service, err := s.ready()
	if err != nil {
		return err
	}
	if err := service.Allocator.Ready(); err != nil {
		return err
	}
	if fault := service.Log.Clock.Fault(); fault != "" {
		return &oplog.ClockError{Reason: fault}
	}
	return nil
}

// ready returns the service, and an error when there is none or it is cut off from the other gateways.
func (s *Server) ready() (*Service, error) {
	service, _ := s.service.Load().(*Service)
	if service == nil {
		return nil, &allocator.NotReadyError{Reason: s.waiting.Load().(string)}
	}
	if problem := service.cutOff(); problem != "" {
		return service, &allocator.NotReadyError{Reason: problem}
	}
	return service, nil
}

// cutOff says why the majority of etcd's members cannot be reached, or is empty.
func (service *Service) cutOff() string {
	if problem := service.Log.Cluster().Problem(); problem != "" {
		return problem
	}
	if service.Log.Clock.IsCutOff() {
		return "it is cut off: etcd's majority does not answer"
	}
	return ""
}

// IsConnected reports whether there is a service that reaches the majority of etcd's members.
func (s *Server) IsConnected() bool {
	_, err := s.ready()
	return err == nil
}

// route finds the call of a path, and the NAME in it.
func route(path string) (c call, name string, is bool) {
	if rest := strings.TrimPrefix(path, Prefix); rest != path {
		if parts := strings.Split(rest, "/"); len(parts) == 3 {
			name, parts[1] = parts[1], "NAME"
			path = Prefix + strings.Join(parts, "/")
		}
	}
	c, is = calls[path]
	return c, name, is
}

func bearer(r *http.Request) (token string, is bool) {
	return auth.BearerToken(r.Header.Get("Authorization"))
}

// dispatch identifies the caller and the call.
func (s *Server) dispatch(w http.ResponseWriter, r *http.Request) error {
	callers := s.callers.Load().(*auth.Callers)
	token, hasToken := bearer(r)
	by, err := find(callers, token, hasToken)
	if err != nil {
		w.Header().Set("WWW-Authenticate", "Bearer")
		return unauthorized(err, "missing or unknown token: send the header `Authorization: Bearer TOKEN`")
	}
	c, name, is := route(r.URL.Path)
	switch {
	case !is:
		return refusal(http.StatusNotFound, "there is no call %q: the paths of calls begin with %s", r.URL.Path, Prefix)
	case r.Method != c.method:
		w.Header().Set("Allow", c.method)
		return refusal(http.StatusMethodNotAllowed, "this call needs the method %s, not %s", c.method, r.Method)
	case c.right != "" && !by.Has(c.right, ""):
		return refusal(http.StatusForbidden, "the token %q does not have the right %s", by.Name, c.right)
	}
	if err := s.limiter.Request(by.Name); err != nil {
		return err
	}
	service, err := s.ready()
	if err != nil && (c.when == whenReady || c.when == whenCutOff && service == nil) {
		return err
	}
	r, cancel := bounded(r, by)
	defer cancel()
	return c.answer(&request{service, s, w, r, by, callers, name})
}

// write writes an answer that is valid as of a message.
func (q *request) write(kind string, message int64, text []byte) {
	q.w.Header().Set("Content-Type", kind)
	q.w.Header().Set("Drf-Message", formatInt(message))
	limitTime(q.r, q.server.inTime)
	q.w.Write(text)
}
