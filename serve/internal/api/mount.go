// Calls of other APIs, which other packages answer. Outside the proof.

package api

import (
	"net/http"
	"net/url"
	"strings"
	"time"

	"gateway/internal/auth"
)

// mount says how a path of another API can be called.
type mount struct {
	methods []string
	isOpen  bool // by anybody
	isBelow bool // with a name after the path, which may have slashes
}

// mounts are the paths that other packages can answer: those of Mesos' APIs, and the link of agents.
var mounts = map[string]mount{
	"/api/v1/scheduler": {methods: []string{"POST"}}, Prefix + "agent-link": {methods: []string{"POST"}}, Prefix + "kill-task": {methods: []string{"POST"}}, "/api/v1": {methods: []string{"POST"}},
	"/state": {methods: []string{"GET"}}, "/state-summary": {methods: []string{"GET"}}, "/slaves": {methods: []string{"GET"}}, "/frameworks": {methods: []string{"GET"}},
	"/tasks": {methods: []string{"GET"}}, "/roles": {methods: []string{"GET"}}, "/flags": {methods: []string{"GET"}}, "/metrics/snapshot": {methods: []string{"GET"}},
	"/weights": {methods: []string{"GET", "PUT"}}, "/quota": {methods: []string{"GET", "POST", "DELETE"}, isBelow: true},
	"/reserve": {methods: []string{"POST"}}, "/unreserve": {methods: []string{"POST"}}, "/teardown": {methods: []string{"POST"}},
	"/health": {methods: []string{"GET", "HEAD"}, isOpen: true}, "/version": {methods: []string{"GET", "HEAD"}, isOpen: true}, "/redirect": {methods: []string{"GET", "HEAD"}, isOpen: true},
}

// findMount returns the mount of a path, and its path without the prefix of a master and a suffix that older clients of Mesos' use.
func findMount(path string) (name string, m mount, is bool) {
	if m, is = mounts[path]; is {
		return path, m, true
	}
	if strings.HasPrefix(path, Prefix) {
		return path, m, false
	}
	name = strings.TrimSuffix(strings.TrimPrefix(path, "/master"), ".json")
	if m, is = mounts[name]; is {
		return name, m, true
	}
	for above, m := range mounts {
		if m.isBelow && strings.HasPrefix(name, above+"/") {
			return above, m, true
		}
	}
	return path, m, false
}

func (m mount) allows(method string) bool {
	for _, one := range m.methods {
		if one == method {
			return true
		}
	}
	return false
}

// isForeign reports whether a page of another site sent a request: browsers add the user and password that were entered for HTTP Basic to such
// requests too.
func isForeign(r *http.Request) bool {
	origin := r.Header.Get("Origin")
	from, err := url.Parse(origin)
	return origin != "" && (err != nil || from.Host != r.Host)
}

// Call is a call of another API, by a known caller, while this gateway is connected to the others. If the path is open, an unknown caller has no
// rights.
type Call struct {
	W http.ResponseWriter
	R *http.Request
	*request
}

// Refuse returns an error that is answered with a status.
func Refuse(status int, format string, values ...interface{}) error {
	return refusal(status, format, values...)
}

// By returns the caller.
func (c *Call) By() *auth.Caller { return c.by }

// Replaced returns a channel that is closed when streams are to end.
func (c *Call) Replaced() <-chan struct{} { return c.callers.Replaced() }

// Body reads the request's body. Release lets another large one be handled.
func (c *Call) Body() (body []byte, release func(), err error) { return c.body() }

// Stream counts a stream of the caller's, until release is called.
func (c *Call) Stream() (release func(), err error) { return c.server.limiter.Stream(c.by.Name) }

// Send writes a part of a stream, and reports whether the caller took it in time.
func (c *Call) Send(text []byte) bool { return c.send(text) }

// mounted answers a call of another API. Callers can also authenticate by HTTP Basic: the user is the token's name.
func (s *Server) mounted(w http.ResponseWriter, r *http.Request, name string, m mount) error {
	callers := s.callers.Load().(*auth.Callers)
	token, hasToken := auth.BearerToken(r.Header.Get("Authorization"))
	by, err := find(callers, token, hasToken)
	if user, password, isBasic := r.BasicAuth(); isBasic {
		by, err = callers.FindPrincipal(user, password, time.Now())
	}
	if err != nil && m.isOpen {
		by, err = &auth.Caller{}, nil
	}
	if err != nil {
		w.Header().Set("WWW-Authenticate", `Basic realm="mesos-master"`)
		return unauthorized(err, "no known principal: send HTTP Basic with a token's name and the token, or `Authorization: Bearer TOKEN`")
	}
	if !m.allows(r.Method) {
		w.Header().Set("Allow", strings.Join(m.methods, ", "))
		return refusal(http.StatusMethodNotAllowed, "Expecting one of { '%s' }, but received '%s'", strings.Join(m.methods, "', '"), r.Method)
	}
	if _, _, isBasic := r.BasicAuth(); isBasic && r.Method != http.MethodGet && isForeign(r) {
		return refusal(http.StatusForbidden, "the request comes from a page of %s", r.Header.Get("Origin"))
	}
	if err := s.limiter.Request(by.Name); err != nil {
		return err
	}
	service, err := s.ready()
	if err != nil {
		return err
	}
	answer := service.Mounts[name]
	if answer == nil {
		return refusal(http.StatusNotFound, "this gateway does not have %s", r.URL.Path)
	}
	r, cancel := named(r, by)
	defer cancel()
	return answer(&Call{w, r, &request{service, s, w, r, by, callers, ""}})
}
