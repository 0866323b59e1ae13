// Tests of polling, against a small fake master. Outside the proof.

package shadow

import (
	"bytes"
	"context"
	"encoding/json"
	"encoding/xml"
	"fmt"
	"io"
	"net/http"
	"net/http/httptest"
	"os"
	"os/exec"
	"path/filepath"
	"strings"
	"sync"
	"testing"
	"time"

	"gateway/internal/mesos/document"
)

// fakeMaster answers from files of a version, as a test wants it.
type fakeMaster struct {
	*httptest.Server
	mu      sync.Mutex
	answers document.Answers
	status  int           // for /master/state, or 0
	delay   time.Duration // for /master/state
	isCut   bool          // /master/state ends early
	polls   int
	after   chan int // gets the number of each poll when its last answer is sent
}

func newFakeMaster(t *testing.T, answers document.Answers) *fakeMaster {
	m := &fakeMaster{answers: answers, after: make(chan int, 100)}
	m.Server = httptest.NewServer(http.HandlerFunc(m.serve))
	t.Cleanup(m.Close)
	return m
}

func (m *fakeMaster) serve(w http.ResponseWriter, r *http.Request) {
	m.mu.Lock()
	defer m.mu.Unlock()
	body := map[string][]byte{"/master/state": m.answers.State.Body, "/roles": []byte(`{"roles":[]}`), "/weights": m.answers.Weights.Body, "/quota": m.answers.Quota.Body}[r.URL.Path]
	switch {
	case body == nil:
		http.NotFound(w, r)
	case r.URL.Path == "/master/state" && m.status != 0:
		http.Error(w, "", m.status)
	case r.URL.Path == "/master/state" && m.isCut:
		w.Header().Set("Content-Length", fmt.Sprint(len(body)))
		w.Write(body[:len(body)/2])
	default:
		if r.URL.Path == "/master/state" && m.delay > 0 {
			select {
			case <-time.After(m.delay):
			case <-r.Context().Done():
			}
		}
		w.Write(body)
	}
	if r.URL.Path == "/quota" {
		m.polls++
		m.after <- m.polls
	}
}

func (m *fakeMaster) set(change func()) {
	m.mu.Lock()
	defer m.mu.Unlock()
	change()
}

func (m *fakeMaster) shadow(t *testing.T, timeout time.Duration) *Shadow {
	t.Helper()
	master, err := NewMaster(m.URL, timeout)
	if err != nil {
		t.Fatal(err)
	}
	return &Shadow{Master: master, Program: program(t), Interval: 10 * time.Millisecond, Now: func() time.Time { return time.Date(2026, 12, 1, 5, 0, 0, 0, time.UTC) }}
}

// half is a master with two roles, data with 6 of 10 cpus and web with 2.
var half = cluster{agents: []string{"10"}, tasks: []string{"data S0 1 6", "web S0 1 2"}, limits: map[string]float64{"data": 4}, weights: map[string]float64{"web": 2}}

func TestTable(t *testing.T) {
	m := newFakeMaster(t, half.document(t))
	s := m.shadow(t, time.Minute)
	var out, notes bytes.Buffer
	if err := s.Once(context.Background(), &out, &notes); err != nil || notes.Len() > 0 {
		t.Fatal(err, notes.String())
	}
	want := "2026-12-01 05:00:00  " + m.URL + `  Mesos 1.9.0: agents 1, tasks 8, since the last poll 0 came and 0 left, left out 0
ROLE  WEIGHT  LIMIT   TASKS  MESOS  SAME DEMAND  FAIR   WHY MESOS DIFFERS
data  1       cpus:4  6      60.0%  40.0%        40.0%  limit: 2 of its tasks find no place again: the limit of data, cpus:4
web   2       -       2      20.0%  20.0%        60.0%  demand: one task more fits in Mesos, so it does not want more

`
	if out.String() != want {
		t.Errorf("%s", out.String())
	}
}

func TestJSON(t *testing.T) {
	m := newFakeMaster(t, half.document(t))
	s := m.shadow(t, time.Minute)
	s.AsJSON = true
	var out, notes bytes.Buffer
	if err := s.Once(context.Background(), &out, &notes); err != nil {
		t.Fatal(err)
	}
	want := `{"at":"2026-12-01T05:00:00Z","master":"` + m.URL + `","version":"1.9.0","agents":1,"tasks":8,"came":0,"gone":0,"left_out":[],"roles":[` +
		`{"role":"data","weight":1,"limit":{"cpus":4},"tasks":6,"mesos":{"share":0.6,"resources":{"cpus":6}},"same_demand":{"share":0.4,"resources":{"cpus":4}},"fair":{"share":0.4,"resources":{"cpus":4}},` +
		`"unmet":2,"why":[{"kind":"limit","text":"2 of its tasks find no place again: the limit of data, cpus:4"}]},` +
		`{"role":"web","weight":2,"tasks":2,"mesos":{"share":0.2,"resources":{"cpus":2}},"same_demand":{"share":0.2,"resources":{"cpus":2}},"fair":{"share":0.6,"resources":{"cpus":6}},` +
		`"unmet":0,"why":[{"kind":"demand","text":"one task more fits in Mesos, so it does not want more"}]}]}` + "\n"
	if out.String() != want {
		t.Error(out.String())
	}
}

// The picture is well formed, and has the shares and reasons.
func TestPicture(t *testing.T) {
	m := newFakeMaster(t, half.document(t))
	s := m.shadow(t, time.Minute)
	s.Picture = filepath.Join(t.TempDir(), "roles.svg")
	if err := s.Once(context.Background(), &bytes.Buffer{}, &bytes.Buffer{}); err != nil {
		t.Fatal(err)
	}
	picture, err := os.ReadFile(s.Picture)
	if err != nil {
		t.Fatal(err)
	}
	decoder, texts := xml.NewDecoder(bytes.NewReader(picture)), ""
	for {
		token, err := decoder.Token()
		if err == io.EOF {
			break
		} else if err != nil {
			t.Fatal(err)
		}
		if data, isText := token.(xml.CharData); isText && strings.TrimSpace(string(data)) != "" {
			texts += string(data) + "\n"
		}
	}
	for _, want := range []string{"Mesos 1.9.0: 1 agents, 8 tasks", "data\nweight 1\n60.0%\n40.0%\n40.0%\nlimit: 2 of its tasks find no place again: the limit of data,\ncpus:4\n",
		"web\nweight 2\n20.0%\n20.0%\n60.0%\ndemand: one task more fits in Mesos"} {
		if !strings.Contains(texts, want) {
			t.Errorf("no %q in %s", want, texts)
		}
	}
}

// The state is that of the cluster: the allocator's own audit of it agrees with the document.
func TestState(t *testing.T) {
	m := newFakeMaster(t, half.document(t))
	s := m.shadow(t, time.Minute)
	s.State = filepath.Join(t.TempDir(), "mesos.state")
	for _, want := range []string{`{"agent":"S0","free":"cpus:2","out":8,"total":"cpus:10"}`, `{"agent":"S0","free":"cpus:3","out":7,"total":"cpus:10"}`} {
		if err := s.Once(context.Background(), &bytes.Buffer{}, &bytes.Buffer{}); err != nil {
			t.Fatal(err)
		}
		out, err := exec.Command(os.Getenv("DRF"), "audit", "--from", s.State).Output()
		if err != nil || strings.TrimSpace(string(out)) != want {
			t.Errorf("%v: %s", err, out)
		}
		less := half
		less.tasks = []string{"data S0 1 6", "web S0 1 1"}
		m.set(func() { m.answers = less.document(t) })
	}
}

// A master that changes, fails, is slow, answers another version or half an answer, and recovers.
func TestFollow(t *testing.T) {
	m := newFakeMaster(t, half.document(t))
	s := m.shadow(t, time.Second)
	s.AsJSON = true
	var out, notes lockedBuffer
	ctx, stop := context.WithCancel(context.Background())
	ended := make(chan error, 1)
	go func() { ended <- s.Follow(ctx, &out, &notes) }()
	await := func(b *lockedBuffer, text string) {
		t.Helper()
		for deadline := time.Now().Add(time.Minute); !strings.Contains(b.String(), text); time.Sleep(5 * time.Millisecond) {
			if time.Now().After(deadline) {
				t.Fatalf("no %q in %s", text, b.String())
			}
		}
	}
	good := half.document(t)
	more := half
	more.tasks = []string{"data S0 1 6", "web S0 1 1", "ops S0 0.5 2"} // a task of web ended, and two of ops came
	await(&out, `"tasks":8,"came":0,"gone":0`)
	m.set(func() { m.answers = more.document(t) })
	await(&out, `"tasks":9,"came":2,"gone":1`)
	name := m.URL + "/master/state"
	m.set(func() { m.status = http.StatusServiceUnavailable })
	await(&notes, name+": the master answers 503 Service Unavailable: trying again every 10ms\n")
	m.set(func() { m.status, m.delay = 0, time.Hour })
	await(&notes, name+": no whole answer within 1s: trying again")
	m.set(func() {
		m.delay = 0
		m.answers.State.Body = bytes.Replace(good.State.Body, []byte("1.9.0"), []byte("0.28.2"), 1)
	})
	await(&notes, name+`: version: the version "0.28.2": expected 1.4 to 1.11: trying again`)
	m.set(func() { m.answers, m.isCut = good, true })
	await(&notes, name+": the answer is cut: trying again")
	m.set(func() { m.isCut, m.answers.State.Body = false, good.State.Body[:100] })
	await(&notes, name+" line 1 column 100: the document is cut: expected more: trying again")
	m.set(func() { m.answers = good })
	await(&notes, m.URL+": answers again\n")
	stop()
	if err := <-ended; err != nil {
		t.Error(err)
	}
	if count := strings.Count(notes.String(), "503"); count != 1 {
		t.Errorf("the same failure is reported %d times", count)
	}
	for _, line := range strings.Split(strings.TrimSpace(out.String()), "\n") {
		if !json.Valid([]byte(line)) {
			t.Errorf("not JSON: %s", line)
		}
	}
}

type lockedBuffer struct {
	mu sync.Mutex
	b  bytes.Buffer
}

func (l *lockedBuffer) Write(p []byte) (int, error) {
	l.mu.Lock()
	defer l.mu.Unlock()
	return l.b.Write(p)
}

func (l *lockedBuffer) String() string {
	l.mu.Lock()
	defer l.mu.Unlock()
	return l.b.String()
}

// A master that does not lead redirects to the one that does. The secret is for the master that was named alone.
func TestRedirectAndSecret(t *testing.T) {
	leader := newFakeMaster(t, half.document(t))
	inner, isProtected := leader.Config.Handler, false
	leader.Config.Handler = http.HandlerFunc(func(w http.ResponseWriter, r *http.Request) {
		if name, secret, _ := r.BasicAuth(); isProtected && (name != "ops" || secret != "s3cret") {
			http.Error(w, "", http.StatusUnauthorized)
			return
		}
		inner.ServeHTTP(w, r)
	})
	other := httptest.NewServer(http.HandlerFunc(func(w http.ResponseWriter, r *http.Request) {
		w.Header().Set("Location", strings.TrimPrefix(leader.URL, "http:")+r.URL.Path)
		w.WriteHeader(http.StatusTemporaryRedirect)
	}))
	defer other.Close()
	for _, c := range []struct {
		url, principal, secret string
		isProtected            bool
		want                   string
	}{
		{other.URL + "/master/", "", "", false, ""},
		{leader.URL, "ops", "s3cret", true, ""},
		{leader.URL, "ops", "wrong", true, leader.URL + "/master/state: the master answers 401 Unauthorized"},
		{leader.URL, "", "", true, leader.URL + "/master/state: the master answers 401 Unauthorized"},
		{other.URL, "ops", "s3cret", true, other.URL + "/master/state: the master answers 401 Unauthorized; it redirects to " + leader.URL + ", which does not get the secret: give that URL"},
	} {
		master, err := NewMaster(c.url, time.Minute)
		if err != nil {
			t.Fatal(err)
		}
		isProtected, master.Principal, master.Secret = c.isProtected, c.principal, c.secret
		_, err = master.Ask(context.Background())
		if c.want == "" && err != nil || c.want != "" && (err == nil || err.Error() != c.want) {
			t.Errorf("%+v: %v", c, err)
		}
	}
}

func TestNewMaster(t *testing.T) {
	for _, bad := range []string{"", "10.0.0.1:5050", "zk://a:2181/mesos", "http://", "http://a:5050/?x", "http://u:p@a:5050"} {
		if _, err := NewMaster(bad, time.Second); err == nil {
			t.Errorf("%q is taken", bad)
		}
	}
}

// An allocator that is missing, or ends, is an error and no hang.
func TestAllocatorFails(t *testing.T) {
	m := newFakeMaster(t, half.document(t))
	for _, bad := range []string{"/absent/drf", "/bin/true"} {
		s := m.shadow(t, time.Minute)
		s.Program = bad
		if err := s.Once(context.Background(), &bytes.Buffer{}, &bytes.Buffer{}); err == nil || !strings.HasPrefix(err.Error(), "the allocator") {
			t.Errorf("%s: %v", bad, err)
		}
	}
}
