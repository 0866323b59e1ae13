// Tests of one-time codes, and of the page's files. Outside the proof.

package api

import (
	"net/http"
	"net/http/httptest"
	"strings"
	"testing"
	"time"
)

func TestCodesAreUsedOnceAndInTime(t *testing.T) {
	l, now := newLogins(), time.Unix(1000, 0)
	l.now = func() time.Time { return now }
	code, err := l.create("a token")
	if err != nil || strings.Contains(code, "token") || len(code) < 32 {
		t.Fatal(code, err)
	}
	if _, is := l.use("another"); is {
		t.Error("an unknown code was taken")
	}
	if token, is := l.use(code); !is || token != "a token" {
		t.Error(token, is)
	}
	if _, is := l.use(code); is {
		t.Error("a code was taken twice")
	}
	if code, err = l.create("a token"); err != nil {
		t.Fatal(err)
	}
	now = now.Add(codeTime + time.Millisecond)
	if _, is := l.use(code); is {
		t.Error("an old code was taken")
	}
}

func TestCodesAreBounded(t *testing.T) {
	l, now := newLogins(), time.Unix(1000, 0)
	l.now = func() time.Time { return now }
	for k := 0; k < maxCodes; k++ {
		if _, err := l.create("t"); err != nil {
			t.Fatal(k, err)
		}
	}
	if _, err := l.create("t"); answerTo(err).status != http.StatusTooManyRequests {
		t.Error(err)
	}
	now = now.Add(codeTime + time.Millisecond)
	if _, err := l.create("t"); err != nil || len(l.codes) != 1 {
		t.Error(len(l.codes), err)
	}
}

func TestLoginNeedsNoTokenAndAPost(t *testing.T) {
	s := newServer()
	code, err := s.logins.create("the token")
	if err != nil {
		t.Fatal(err)
	}
	call := func(method, body string) *httptest.ResponseRecorder {
		w := httptest.NewRecorder()
		s.ServeHTTP(w, httptest.NewRequest(method, "/drf/v1/login", strings.NewReader(body)))
		return w
	}
	if w := call("GET", code); w.Code != http.StatusMethodNotAllowed {
		t.Error(w.Code)
	}
	if w := call("POST", strings.Repeat("x", 300)); w.Code != http.StatusBadRequest {
		t.Error(w.Code)
	}
	if w := call("POST", code+"\n"); w.Code != http.StatusOK || !strings.Contains(w.Body.String(), `"the token"`) || w.Header().Get("Cache-Control") != "no-store" {
		t.Error(w.Code, w.Body)
	}
	if w := call("POST", code); w.Code != http.StatusForbidden || !strings.Contains(w.Body.String(), "used before") {
		t.Error(w.Code, w.Body)
	}
}

func TestPageFiles(t *testing.T) {
	s := newServer()
	for path, want := range map[string]string{"/": "text/html; charset=utf-8", "/page/style.css": "text/css; charset=utf-8", "/page/main.js": "text/javascript; charset=utf-8",
		"/page/index.html": "", "/page/": "", "/page/../page.go": "", "/page/x.js": "", "/page/a/b.js": "", "/style.css": ""} {
		w := httptest.NewRecorder()
		s.ServeHTTP(w, httptest.NewRequest("GET", path, nil))
		if want == "" && w.Code == http.StatusOK || want != "" && (w.Code != http.StatusOK || w.Header().Get("Content-Type") != want) {
			t.Errorf("%s: %d %s", path, w.Code, w.Header().Get("Content-Type"))
		}
		if policy := w.Header().Get("Content-Security-Policy"); want != "" && (!strings.Contains(policy, "default-src 'none'") || strings.Contains(policy, "unsafe")) {
			t.Errorf("%s: %s", path, policy)
		}
	}
}

// Differences are applied as the page does it: runs of old rows, and new rows.
func TestDetailsAreDifferences(t *testing.T) {
	c := &detailCache{}
	first := c.add([]string{`{"a":1}`, `{"b":2}`})
	if again := c.add([]string{`{"a":1}`, `{"b":2}`}); again.version != first.version {
		t.Error("equal rows have another version")
	}
	second := c.add([]string{`{"b":2}`, `{"c":3}`})
	old, is := c.find(first.version)
	if !is || second.version == first.version {
		t.Fatal(first, second)
	}
	if got := strings.Join(edits(old, second.rows), " "); got != `[1,1] {"c":3}` {
		t.Error(got)
	}
	for k := 0; k < cachedStates; k++ {
		c.add([]string{strings.Repeat("1", k+1)})
	}
	if _, is := c.find(first.version); is {
		t.Error("old rows are kept for ever")
	}
}
