// Package agentapi answers operators' requests to a Mesos agent: the operator API (`POST /api/v1`), and the classic endpoints `/state`,
// `/files/browse`, `/files/read` and `/monitor/statistics`. It changes nothing. Outside the proof.
package agentapi

import (
	"context"
	"encoding/json"
	"errors"
	"fmt"
	"io"
	"log"
	"net"
	"net/http"
	"strings"
	"time"

	"gateway/internal/mesos/agent"
	"gateway/internal/mesos/codec"
	"gateway/internal/sandbox"
)

const (
	maxBody = 1 << 20
	version = "1.11.0" // of Mesos, whose API this is
)

// Authorize returns nil if a caller, identified by the header Authorization, has a right.
type Authorize func(ctx context.Context, authorization, right string) error

// Server answers operators.
type Server struct {
	agent     *agent.Agent
	files     sandbox.Root
	authorize Authorize
	started   time.Time
}

// New returns a server for an agent.
func New(a *agent.Agent, authorize Authorize) *Server {
	return &Server{agent: a, files: sandbox.New(a.Folder()), authorize: authorize, started: time.Now()}
}

// Serve answers until the context ends.
func (s *Server) Serve(ctx context.Context, listener net.Listener) {
	server := &http.Server{Handler: s, ReadHeaderTimeout: 10 * time.Second, ReadTimeout: 30 * time.Second, WriteTimeout: time.Minute, IdleTimeout: 2 * time.Minute, MaxHeaderBytes: 1 << 16}
	go func() {
		if err := server.Serve(listener); !errors.Is(err, http.ErrServerClosed) {
			log.Printf("operators' calls: %v", err)
		}
	}()
	<-ctx.Done()
	server.Close()
}

// refusal is an answer with an error's status.
type refusal struct {
	status int
	text   string
}

func (r *refusal) Error() string { return r.text }

func refuse(status int, format string, values ...interface{}) error {
	return &refusal{status, fmt.Sprintf(format, values...)}
}

// endpoint is the right that a path needs, and the function that answers it. An empty right means that none is needed.
type endpoint struct {
	method, right string
	answer        func(*Server, http.ResponseWriter, *http.Request) error
}

// endpoints are the calls by their paths. Files can contain secrets, so they need the right to operate.
var endpoints = map[string]endpoint{
	"/api/v1":             {http.MethodPost, "read", (*Server).call},
	"/state":              {http.MethodGet, "read", (*Server).state},
	"/monitor/statistics": {http.MethodGet, "read", (*Server).statistics},
	"/files/browse":       {http.MethodGet, "operate", (*Server).browse},
	"/files/read":         {http.MethodGet, "operate", (*Server).read},
	"/sandbox":            {http.MethodGet, "operate", viewerFile("sandbox.html", "text/html")}, // so that a browser asks for a token
	"/sandbox.js":         {http.MethodGet, "", viewerFile("sandbox.js", "text/javascript")},
	"/sandbox.css":        {http.MethodGet, "", viewerFile("sandbox.css", "text/css")},
	"/health":             {http.MethodGet, "", func(*Server, http.ResponseWriter, *http.Request) error { return nil }},
	"/version": {http.MethodGet, "", func(_ *Server, w http.ResponseWriter, _ *http.Request) error {
		return sendJSON(w, object{"version": version})
	}},
}

// ServeHTTP answers a request.
func (s *Server) ServeHTTP(w http.ResponseWriter, r *http.Request) {
	head := w.Header()
	head.Set("X-Content-Type-Options", "nosniff")
	head.Set("Cache-Control", "no-store")
	if err := s.dispatch(w, r); err != nil {
		status, text := statusOf(err)
		if status == http.StatusUnauthorized {
			head.Set("WWW-Authenticate", `Basic realm="mesos-agent-readonly"`)
		}
		head.Del("Content-Type")
		http.Error(w, text, status)
	}
}

// statusOf returns the answer to an error.
func statusOf(err error) (int, string) {
	refused, denied := (*refusal)(nil), (*agent.Denied)(nil)
	switch {
	case errors.As(err, &refused):
		return refused.status, refused.text
	case errors.As(err, &denied):
		return denied.Status, denied.Text
	}
	return http.StatusServiceUnavailable, err.Error()
}

func (s *Server) dispatch(w http.ResponseWriter, r *http.Request) error {
	path := strings.TrimPrefix(r.URL.Path, "/slave(1)")
	e, is := endpoints[strings.TrimSuffix(path, ".json")]
	switch {
	case !is:
		return refuse(http.StatusNotFound, "there is no %s", r.URL.Path)
	case r.Method != e.method && !(e.method == http.MethodGet && r.Method == http.MethodHead):
		w.Header().Set("Allow", e.method)
		return refuse(http.StatusMethodNotAllowed, "Expecting one of { '%s' }, but received '%s'", e.method, r.Method)
	case e.right != "":
		if err := s.authorize(r.Context(), r.Header.Get("Authorization"), e.right); err != nil {
			return err
		}
	}
	return e.answer(s, w, r)
}

type object = map[string]interface{}

func sendJSON(w http.ResponseWriter, value interface{}) error {
	w.Header().Set("Content-Type", "application/json")
	writer := json.NewEncoder(w)
	writer.SetEscapeHTML(false)
	return writer.Encode(value)
}

// newer are calls of newer Mesos agents. The messages of this service have no numbers for them.
var newer = map[string]bool{"LAUNCH_CONTAINER": true, "WAIT_CONTAINER": true, "KILL_CONTAINER": true, "REMOVE_CONTAINER": true, "PRUNE_IMAGES": true,
	"GET_OPERATIONS": true, "GET_RESOURCE_PROVIDERS": true, "ADD_RESOURCE_PROVIDER_CONFIG": true, "UPDATE_RESOURCE_PROVIDER_CONFIG": true,
	"REMOVE_RESOURCE_PROVIDER_CONFIG": true, "MARK_RESOURCE_PROVIDER_GONE": true}

// bodies are the fields that calls need.
var bodies = map[string]string{"LIST_FILES": "list_files", "READ_FILE": "read_file"}

// call answers POST /api/v1.
func (s *Server) call(w http.ResponseWriter, r *http.Request) error {
	body, err := io.ReadAll(http.MaxBytesReader(w, r.Body, maxBody))
	if err != nil {
		return refuse(http.StatusRequestEntityTooLarge, "a body has at most %d bytes", maxBody)
	}
	call, err := codec.Read("mesos.agent.Call", r.Header.Get("Content-Type"), body)
	if errors.Is(err, codec.ErrMediaType) {
		return refuse(http.StatusUnsupportedMediaType, "%v", err)
	}
	if err != nil {
		return refuse(http.StatusBadRequest, "%v", err)
	}
	form, err := codec.Accepts(r.Header.Get("Accept"), r.Header.Get("Message-Accept"))
	if err != nil {
		return refuse(http.StatusNotAcceptable, "%v", err)
	}
	kind, is := call.Name("type")
	switch {
	case !is:
		return refuse(http.StatusBadRequest, "Failed to validate agent::Call: Expecting 'type' to be present")
	case newer[kind]:
		return refuse(http.StatusNotImplemented, "%s is not supported", kind)
	case !call.Has("type"): // in JSON, a name that Mesos does not have
		return refuse(http.StatusBadRequest, "Failed to convert JSON into Call protobuf: Failed to find enum for '%s'", kind)
	case form.Framed:
		return refuse(http.StatusNotAcceptable, "%v", codec.ErrNotAcceptable)
	}
	if body := bodies[kind]; body != "" {
		if !call.Has(body) {
			return refuse(http.StatusBadRequest, "Failed to validate agent::Call: Expecting '%s' to be present", body)
		}
		if err := s.authorize(r.Context(), r.Header.Get("Authorization"), "operate"); err != nil {
			return err
		}
	}
	answer, err := s.answer(kind, call)
	if err != nil {
		return err
	}
	contentType, _ := form.ContentType()
	w.Header().Set("Content-Type", contentType)
	_, err = w.Write(form.Write(answer.Set("type", kind)))
	return err
}

// answer answers a call.
func (s *Server) answer(kind string, call codec.Message) (codec.Message, error) {
	m := codec.New("mesos.agent.Response")
	switch kind {
	case "GET_HEALTH":
		return m.Set("get_health.healthy", true), nil
	case "GET_VERSION":
		return m.Set("get_version.version_info.version", version), nil
	case "GET_AGENT":
		return m.Set("get_agent.agent_info", s.agent.Info()), nil
	case "GET_STATE":
		v := s.view()
		return m.Set("get_state.get_tasks", v.tasks()).Set("get_state.get_executors", v.executors()).Set("get_state.get_frameworks", v.frameworks()), nil
	case "GET_TASKS":
		return m.Set("get_tasks", s.view().tasks()), nil
	case "GET_EXECUTORS":
		return m.Set("get_executors", s.view().executors()), nil
	case "GET_FRAMEWORKS":
		return m.Set("get_frameworks", s.view().frameworks()), nil
	case "GET_CONTAINERS":
		return m.Set("get_containers", s.view().containers()), nil
	case "LIST_FILES":
		return s.listFiles(m, call.Text("list_files.path"))
	case "READ_FILE":
		length := int64(maxRead)
		if call.Has("read_file.length") {
			length = bounded(call.Uint("read_file.length"))
		}
		data, size, err := s.readFile(call.Text("read_file.path"), bounded(call.Uint("read_file.offset")), length)
		return m.Set("read_file.size", size).Set("read_file.data", data), err
	}
	return m, refuse(http.StatusNotImplemented, "%s is not supported", kind)
}

// bounded returns a number that may be larger than any file.
func bounded(number uint64) int64 {
	if number > 1<<62 {
		return 1 << 62
	}
	return int64(number)
}
