// Tests that callers are recognized while a gateway stops. Outside the proof.

package api

import (
	"net/http/httptest"
	"path/filepath"
	"strings"
	"testing"
	"time"

	"gateway/internal/auth"
)

// A gateway that stops ends its streams and still recognizes its callers: after a 503 they use another gateway, but not after a 401.
func TestStoppingGatewayKnowsItsCallers(t *testing.T) {
	path := filepath.Join(t.TempDir(), "tokens.json")
	token, err := auth.AddCaller(path, "one", []string{"read"}, time.Time{})
	if err != nil {
		t.Fatal(err)
	}
	callers, err := auth.ReadCallers(path)
	if err != nil {
		t.Fatal(err)
	}
	s := newServer()
	s.SetCallers(callers)
	s.EndStreams()
	select {
	case <-callers.Replaced():
	default:
		t.Error("streams do not end")
	}
	r, w := httptest.NewRequest("GET", "/drf/v1/status", nil), httptest.NewRecorder()
	r.Header.Set("Authorization", "Bearer "+token)
	s.ServeHTTP(w, r)
	if w.Code != 503 {
		t.Error(w.Code, w.Body)
	}
}

// An expired token is refused with a text that says so, by both ways to send one; another token is unknown.
func TestExpiredTokenIsRefused(t *testing.T) {
	path := filepath.Join(t.TempDir(), "tokens.json")
	token, err := auth.AddCaller(path, "web", []string{"admin"}, time.Date(2020, 1, 2, 3, 4, 5, 0, time.UTC))
	if err != nil {
		t.Fatal(err)
	}
	callers, err := auth.ReadCallers(path)
	if err != nil {
		t.Fatal(err)
	}
	s := newServer()
	s.SetCallers(callers)
	for _, c := range []struct{ method, path, token, want string }{
		{"GET", "/drf/v1/status", token, `the token "web" expired at 2020-01-02T03:04:05Z: ask for a new one`},
		{"POST", "/drf/v1/events", token, `the token "web" expired at 2020-01-02T03:04:05Z: ask for a new one; nothing was applied`},
		{"POST", "/api/v1/scheduler", token, `the token "web" expired at 2020-01-02T03:04:05Z: ask for a new one`},
		{"GET", "/drf/v1/status", token + "0", "missing or unknown token: send the header `Authorization: Bearer TOKEN`"},
		{"POST", "/api/v1/scheduler", token + "0", "no known principal"},
	} {
		r, w := httptest.NewRequest(c.method, c.path, nil), httptest.NewRecorder()
		if r.Header.Set("Authorization", "Bearer "+c.token); c.method == "POST" && c.path != "/drf/v1/events" {
			r.SetBasicAuth("web", c.token)
		}
		s.ServeHTTP(w, r)
		if w.Code != 401 || !strings.HasPrefix(w.Body.String(), c.want) || w.Header().Get("WWW-Authenticate") == "" {
			t.Errorf("%s %s: %d %s", c.method, c.path, w.Code, w.Body)
		}
	}
}
