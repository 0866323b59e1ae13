// The v1 executor API, as Mesos' agent serves it: POST /api/v1/executor on the loopback. Outside the proof.

package agent

import (
	"context"
	"crypto/subtle"
	"errors"
	"fmt"
	"io"
	"net"
	"net/http"
	"os"
	"path/filepath"
	"strconv"
	"strings"
	"sync"
	"time"

	"gateway/internal/disk"
	"gateway/internal/mesos/codec"
)

const (
	maxCall   = 16 << 20 // bytes of a call of an executor
	maxStatus = 3 << 20  // bytes of a status in protobuf: a gateway takes calls of 4 MiB, and would never take a longer one
)

// httpError is an answer with an error status. The texts are those of Mesos.
type httpError struct {
	status int
	text   string
}

func (e *httpError) Error() string { return e.text }

func refuse(status int, format string, values ...interface{}) error {
	return &httpError{status, fmt.Sprintf(format, values...)}
}

// peer is the other end of a connection.
type peer struct {
	net.Conn
	mu sync.Mutex
	of *executor // that has it, when that was found out
}

type peerKey struct{}

// listen opens the port for executors. It stays the same after a restart, because running executors know it.
func (a *Agent) listen() (net.Listener, error) {
	path := filepath.Join(a.config.Folder, "executor-port")
	text, _ := os.ReadFile(path)
	var listener net.Listener
	err := errors.New("no port was used before")
	if port, bad := strconv.Atoi(strings.TrimSpace(string(text))); bad == nil {
		for end := time.Now().Add(5 * time.Second); ; time.Sleep(100 * time.Millisecond) {
			if listener, err = net.Listen("tcp4", fmt.Sprintf("127.0.0.1:%d", port)); err == nil || len(a.executors) == 0 || time.Now().After(end) {
				break
			}
		}
	}
	if err != nil {
		if listener, err = net.Listen("tcp4", "127.0.0.1:0"); err != nil {
			return nil, err
		}
	}
	a.endpoint = listener.Addr().String()
	return listener, disk.WriteFile(path, []byte(strconv.Itoa(listener.Addr().(*net.TCPAddr).Port)))
}

// serve answers executors until the context ends.
func (a *Agent) serve(ctx context.Context, listener net.Listener) {
	mux := http.NewServeMux()
	mux.HandleFunc("/api/v1/executor", a.answerExecutor)
	mux.HandleFunc("/slave(1)/api/v1/executor", a.answerExecutor)
	server := &http.Server{Handler: mux, ReadHeaderTimeout: 20 * time.Second,
		ConnContext: func(ctx context.Context, conn net.Conn) context.Context {
			return context.WithValue(ctx, peerKey{}, &peer{Conn: conn})
		}}
	go server.Serve(listener)
	<-ctx.Done()
	server.Close()
}

func (a *Agent) answerExecutor(w http.ResponseWriter, r *http.Request) {
	err := a.executorCall(w, r)
	refused := (*httpError)(nil)
	switch {
	case errors.As(err, &refused):
		if refused.status == http.StatusUnauthorized {
			w.Header().Set("WWW-Authenticate", `Bearer realm="mesos-agent-executor"`)
		}
		http.Error(w, refused.text, refused.status)
	case err != nil:
		http.Error(w, err.Error(), http.StatusInternalServerError)
	}
}

// bodies are the fields that calls need.
var bodies = map[string]string{"SUBSCRIBE": "subscribe", "UPDATE": "update", "MESSAGE": "message"}

func (a *Agent) executorCall(w http.ResponseWriter, r *http.Request) error {
	if r.Method != http.MethodPost {
		w.Header().Set("Allow", http.MethodPost)
		return refuse(http.StatusMethodNotAllowed, "Expecting one of { 'POST' }, but received '%s'", r.Method)
	}
	body, err := io.ReadAll(http.MaxBytesReader(w, r.Body, maxCall))
	if err != nil {
		return refuse(http.StatusRequestEntityTooLarge, "%v", err)
	}
	call, err := codec.Read("mesos.executor.Call", r.Header.Get("Content-Type"), body)
	if errors.Is(err, codec.ErrMediaType) {
		return refuse(http.StatusUnsupportedMediaType, "%v", err)
	}
	if err != nil {
		return refuse(http.StatusBadRequest, "%v", err)
	}
	if err := validate(call); err != nil {
		return refuse(http.StatusBadRequest, "Failed to validate Executor::Call: %v", err)
	}
	e, err := a.callingExecutor(r, call)
	if err != nil {
		return err
	}
	kind, _ := call.Name("type")
	if kind == "SUBSCRIBE" {
		return a.subscribeExecutor(w, r, e, call.Sub("subscribe"))
	}
	e.mu.Lock()
	hasSubscribed := e.hasSubscribed
	e.mu.Unlock()
	if !hasSubscribed {
		return refuse(http.StatusForbidden, "Executor is not subscribed")
	}
	switch kind {
	case "UPDATE":
		err = e.update(call.Sub("update.status"))
	case "MESSAGE":
		e.report(call.Bytes("message.data"))
	case "HEARTBEAT": // of newer executors; a connection on one machine needs none
	default:
		err = refuse(http.StatusNotImplemented, "%s is not supported", kind)
	}
	if err == nil {
		w.WriteHeader(http.StatusAccepted)
	}
	return err
}

// validate returns why a call is not valid.
func validate(call codec.Message) error {
	kind, is := call.Name("type")
	if !is {
		return errors.New("Expecting 'type' to be present")
	}
	if body := bodies[kind]; body != "" && !call.Has(body) {
		return fmt.Errorf("Expecting '%s' to be present", body)
	}
	if kind != "UPDATE" {
		return nil
	}
	status := call.Sub("update.status")
	executor, framework := call.Text("executor_id.value"), call.Text("framework_id.value")
	switch {
	case !status.Has("uuid"):
		return errors.New("Expecting 'uuid' to be present")
	case len(status.Bytes("uuid")) != 16:
		return fmt.Errorf("Not a valid UUID: expected 16 bytes, got %d", len(status.Bytes("uuid")))
	case status.Has("executor_id") && status.Text("executor_id.value") != executor:
		return fmt.Errorf("ExecutorID in Call: %s does not match ExecutorID in TaskStatus: %s", executor, status.Text("executor_id.value"))
	case status.Enum("source") != "SOURCE_EXECUTOR" || !status.Has("source"):
		return fmt.Errorf("Received Call from executor %s of framework %s with invalid source, expecting 'SOURCE_EXECUTOR'", executor, framework)
	case !strings.HasPrefix(status.Enum("state"), "TASK_"):
		return fmt.Errorf("Received the unknown state %s from executor %s of framework %s", status.Enum("state"), executor, framework)
	case status.Enum("state") == "TASK_STAGING":
		return fmt.Errorf("Received TASK_STAGING from executor %s of framework %s which is not allowed", executor, framework)
	case len(status.Protobuf()) > maxStatus:
		return fmt.Errorf("the status has %d bytes: expected at most %d", len(status.Protobuf()), maxStatus)
	}
	return nil
}

// callingExecutor returns the executor that sends a call: the call has that executor's token or, if the executor has no token, was sent by one of
// its processes.
func (a *Agent) callingExecutor(r *http.Request, call codec.Message) (*executor, error) {
	framework, id := call.Text("framework_id.value"), call.Text("executor_id.value")
	var found *executor
	hasFramework := false
	a.mu.Lock()
	for _, e := range a.executors {
		hasFramework = hasFramework || e.framework == framework
		if e.framework == framework && e.id == id && (found == nil || e.launch > found.launch) {
			found = e
		}
	}
	a.mu.Unlock()
	switch {
	case !hasFramework:
		return nil, refuse(http.StatusBadRequest, "Framework cannot be found")
	case found == nil:
		return nil, refuse(http.StatusBadRequest, "Executor cannot be found")
	}
	if header := r.Header.Get("Authorization"); header != "" {
		scheme, token, _ := strings.Cut(header, " ")
		if !strings.EqualFold(scheme, "Bearer") || subtle.ConstantTimeCompare([]byte(strings.TrimSpace(token)), []byte(found.token)) != 1 {
			return nil, refuse(http.StatusForbidden, "the token is not that of executor '%s' of framework '%s'", id, framework)
		}
		return found, nil
	}
	p, is := r.Context().Value(peerKey{}).(*peer)
	if !is || !p.isOf(found) {
		return nil, refuse(http.StatusUnauthorized, "the caller is no process of executor '%s' of framework '%s': use its token, which is in MESOS_EXECUTOR_AUTHENTICATION_TOKEN", id, framework)
	}
	return found, nil
}

// isOf reports whether the other end belongs to a process of an executor.
func (p *peer) isOf(e *executor) bool {
	p.mu.Lock()
	defer p.mu.Unlock()
	if p.of == nil && isPeer(p.Conn, e.number("supervisor")) {
		p.of = e
	}
	return p.of == e
}

// subscribeExecutor answers with a stream.
func (a *Agent) subscribeExecutor(w http.ResponseWriter, r *http.Request, e *executor, call codec.Message) error {
	form, err := codec.Accepts(r.Header.Get("Accept"), r.Header.Get("Message-Accept"))
	if err != nil {
		return refuse(http.StatusNotAcceptable, "%v", err)
	}
	s := e.subscribe(call, a.config.Info.Clone().Set("id.value", a.id))
	if s == nil {
		return refuse(http.StatusBadRequest, "Executor cannot be found")
	}
	defer e.leave(s)
	contentType, messageType := form.ContentType()
	w.Header().Set("Content-Type", contentType)
	if messageType != "" {
		w.Header().Set("Message-Content-Type", messageType)
	}
	w.WriteHeader(http.StatusOK)
	for isOver := false; ; {
		select {
		case event := <-s.events:
			if _, err := w.Write(form.Record(event)); err != nil {
				return nil
			}
			if len(s.events) == 0 {
				w.(http.Flusher).Flush()
			}
			continue
		default:
		}
		if isOver { // and nothing waits
			return nil
		}
		select {
		case event := <-s.events:
			if _, err := w.Write(form.Record(event)); err != nil {
				return nil
			}
			w.(http.Flusher).Flush()
		case <-s.over:
			isOver = true
		case <-r.Context().Done():
			return nil
		}
	}
}

// report passes a message to the framework of an executor. As in Mesos, delivery is not guaranteed.
func (e *executor) report(data []byte) {
	select {
	case e.outbox <- data:
	default:
	}
}

// sendMessages sends the messages of an executor to its framework, in order.
func (a *Agent) sendMessages(ctx context.Context, e *executor) {
	for {
		select {
		case data := <-e.outbox:
			call := a.call("MESSAGE").Set("message.framework_id.value", e.framework).Set("message.executor_id.value", e.id).Set("message.data", data)
			one, cancel := context.WithTimeout(ctx, 10*time.Second)
			if answer, err := a.post(one, a.url(), call); err == nil {
				io.Copy(io.Discard, answer.Body)
				answer.Body.Close()
			}
			cancel()
		case <-ctx.Done():
			return
		}
	}
}
