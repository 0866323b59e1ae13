// Tests of calls without a service: routes, keys, errors, slow callers. Outside the proof.

package api

import (
	"errors"
	"fmt"
	"io"
	"net"
	"net/http"
	"net/http/httptest"
	"strings"
	"testing"
	"time"

	"gateway/internal/allocator"
	"gateway/internal/audit"
	"gateway/internal/auth"
	"gateway/internal/disk"
	"gateway/internal/limit"
	"gateway/internal/metrics"
	"gateway/internal/oplog"
	"gateway/internal/session"
)

func newServer() *Server {
	return New(metrics.New(), limit.New(limit.Rates{Burst: time.Second}), limit.NewSlots(2, time.Second))
}

func TestRoutes(t *testing.T) {
	for path, want := range map[string]string{
		"/drf/v1/events": "", "/drf/v1/frameworks/site/offers": "site", "/drf/v1/agents/n1/alive": "n1", "/metrics": "",
		"/events": "none", "/state": "none", "/drf/v1/metrics": "none", "/frameworks/site/offers": "none", "/drf/v1/": "none", "/drf/v1/agents//x": "none", "/drf/v1/a/b/c/d": "none",
	} {
		if _, name, is := route(path); is != (want != "none") || is && name != want {
			t.Errorf("%s: %q %v", path, name, is)
		}
	}
}

// Random keys of 32 hexadecimal digits have no time, whatever digit is at the place of a UUID's version.
func TestKeyTimes(t *testing.T) {
	if at, is := keyTime("01890a5d-ac96-774b-bcce-b302099a8057"); !is || at.UnixMilli() != 0x01890a5dac96 {
		t.Error(at, is)
	}
	for _, key := range []string{"", "k1", "01890a5d-ac96-474b-bcce-b302099a8057", "01890a5dac96774bbcceb302099a8057", "01890a5d-ac96-774b-7cce-b302099a8057",
		"01890a5da-c96-774b-bcce-b302099a8057", oplog.Anonymous("a")} {
		if _, is := keyTime(key); is {
			t.Errorf("%q is dated", key)
		}
	}
}

func TestAnswersToErrors(t *testing.T) {
	for _, c := range []struct {
		err     error
		status  int
		applied string
		retry   bool
	}{
		{&oplog.AppliedError{Message: 7}, 410, "yes", false},
		{&oplog.ConflictError{}, 409, "no", false},
		{&oplog.TooLargeError{}, 413, "no", false},
		{&oplog.FullError{Keys: true}, 429, "no", true},
		{&oplog.FullError{}, 503, "no", true},
		{&oplog.UnavailableError{}, 503, "no", true},
		{&oplog.UnavailableError{MayBeApplied: true}, 503, "unknown", true},
		{&oplog.ClockError{Reason: "x"}, 503, "no", true},
		{&allocator.NotReadyError{Reason: "x"}, 503, "no", true},
		{&disk.SpaceError{}, 503, "no", true},
		{&limit.Error{RetryAfter: time.Second}, 429, "no", true},
		{&session.UnknownError{}, 404, "no", false},
		{session.ErrNotWatched, 501, "no", false},
		{allocator.ErrDue, 504, "yes", false},
		{audit.ErrNotKept, 503, "no", true},
		{allocator.ErrForgotten, 410, "yes", false},
		{refusal(403, "x"), 403, "no", false},
		{errors.New("something else"), 500, "unknown", false},
	} {
		answer := answerTo(fmt.Errorf("in some call: %w", c.err))
		if answer.status != c.status || answer.applied != c.applied || (answer.retry > 0) != c.retry {
			t.Errorf("%T %v: %+v", c.err, c.err, answer)
		}
	}
	if text := answerTo(errors.New("a secret path")).text; strings.Contains(text, "secret") || !strings.Contains(text, "the gateway's log has it as ") {
		t.Error(text)
	}
}

func TestAnswersBeforeThereIsAService(t *testing.T) {
	s := newServer()
	s.SetWaiting("this member waits for a majority")
	w := httptest.NewRecorder()
	s.ServeHTTP(w, httptest.NewRequest("GET", "/healthz", nil))
	if w.Code != http.StatusServiceUnavailable || !strings.Contains(w.Body.String(), "waits for a majority") {
		t.Error(w.Code, w.Body)
	}
	w = httptest.NewRecorder()
	s.ServeHTTP(w, httptest.NewRequest("GET", "/", nil))
	if w.Code != http.StatusOK {
		t.Error(w.Code)
	}
}

// A caller without a token that never sends the rest of its request does not hold its connection for long.
func TestSilentCallersAreDropped(t *testing.T) {
	s := newServer()
	s.inTime = 300 * time.Millisecond
	listener, err := net.Listen("tcp", "127.0.0.1:0")
	if err != nil {
		t.Fatal(err)
	}
	server := s.HTTPServer(nil)
	go server.Serve(listener)
	defer server.Close()
	for _, head := range []string{"POST /drf/v1/events HTTP/1.1\r\nHost: x\r\nContent-Length: 100000\r\n\r\n", "POST /drf/v1/agents/n1/alive HTTP/1.1\r\nHost: x\r\nTransfer-Encoding: chunked\r\n\r\n"} {
		connection, err := net.Dial("tcp", listener.Addr().String())
		if err != nil {
			t.Fatal(err)
		}
		connection.SetDeadline(time.Now().Add(20 * time.Second))
		connection.Write([]byte(head))
		if text, err := io.ReadAll(connection); err != nil || len(text) > 0 && !strings.HasPrefix(string(text), "HTTP/1.1 401") {
			t.Error(err, string(text))
		}
		connection.Close()
	}
}

// A caller who sends its body too slowly gets 400, and does not hold its connection for longer.
func TestSlowBodies(t *testing.T) {
	s := newServer()
	s.inTime = time.Second
	handler := http.HandlerFunc(func(w http.ResponseWriter, r *http.Request) {
		limitTime(r, s.inTime)
		_, release, err := (&request{server: s, w: w, r: r, by: &auth.Caller{Name: "a"}}).body()
		if err == nil {
			release()
			return
		}
		s.refuse(w, r, err)
	})
	listener, err := net.Listen("tcp", "127.0.0.1:0")
	if err != nil {
		t.Fatal(err)
	}
	server := s.HTTPServer(nil)
	server.Handler = handler
	go server.Serve(listener)
	defer server.Close()
	connection, err := net.Dial("tcp", listener.Addr().String())
	if err != nil {
		t.Fatal(err)
	}
	defer connection.Close()
	start := time.Now()
	fmt.Fprint(connection, "POST /drf/v1/events HTTP/1.1\r\nHost: x\r\nContent-Length: 1000\r\n\r\n")
	go func() {
		for n := 0; n < 300; n++ {
			if _, err := connection.Write([]byte("x")); err != nil {
				return
			}
			time.Sleep(100 * time.Millisecond)
		}
	}()
	connection.SetReadDeadline(time.Now().Add(20 * time.Second))
	text := make([]byte, 1<<12)
	n, err := connection.Read(text)
	if err != nil || !strings.HasPrefix(string(text[:n]), "HTTP/1.1 400") || !strings.Contains(string(text[:n]), "Drf-Applied: no") {
		t.Errorf("%v: %q", err, text[:n])
	}
	if took := time.Since(start); took > 10*time.Second {
		t.Error(took)
	}
}

// A large body waits for a slot, a small one does not.
func TestLargeBodiesWait(t *testing.T) {
	s := New(metrics.New(), limit.New(limit.Rates{Burst: time.Second}), limit.NewSlots(1, 50*time.Millisecond))
	body := func(size int) (func(), error) {
		r := httptest.NewRequest("POST", "/drf/v1/events", strings.NewReader(strings.Repeat("x", size)))
		text, release, err := (&request{server: s, w: httptest.NewRecorder(), r: r, by: &auth.Caller{Name: "a"}}).body()
		if err == nil && len(text) != size {
			t.Errorf("read %d of %d bytes", len(text), size)
		}
		return release, err
	}
	release, err := body(maxBody)
	if err != nil {
		t.Fatal(err)
	}
	limited := (*limit.Error)(nil)
	if _, err := body(maxBody); !errors.As(err, &limited) {
		t.Error("a second large one:", err)
	}
	if _, err := body(smallBody - 1); err != nil {
		t.Error("a small one:", err)
	}
	release()
	refused := (*answerError)(nil)
	if _, err := body(maxBody + 1); !errors.As(err, &refused) || refused.status != 413 {
		t.Error("one that is too large:", err)
	}
	if _, err := body(maxBody); err != nil {
		t.Error("afterwards:", err)
	}
}
