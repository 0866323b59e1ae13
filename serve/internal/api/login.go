// One-time codes: a browser exchanges one for a token, so that no token is in an address. Outside the proof.

package api

import (
	"crypto/rand"
	"encoding/hex"
	"encoding/json"
	"io"
	"net/http"
	"strings"
	"sync"
	"time"

	"gateway/internal/disk"
)

const (
	codeTime = 2 * time.Minute // for which a code may be used
	maxCodes = 1000            // that are not used yet
)

// login is a token and the time until which its code is valid.
type login struct {
	token string
	until time.Time
}

// logins has the unused codes, by their digests. They are lost when the process ends, and other gateways do not know them.
type logins struct {
	mu    sync.Mutex
	codes map[string]login
	now   func() time.Time
}

func newLogins() *logins { return &logins{codes: map[string]login{}, now: time.Now} }

// create returns a code for a token, or an error if there are too many unused codes.
func (l *logins) create(token string) (string, error) {
	secret := make([]byte, 20)
	if _, err := rand.Read(secret); err != nil {
		return "", err
	}
	l.mu.Lock()
	defer l.mu.Unlock()
	now := l.now()
	for digest, one := range l.codes {
		if now.After(one.until) {
			delete(l.codes, digest)
		}
	}
	if len(l.codes) >= maxCodes {
		return "", refusal(http.StatusTooManyRequests, "%d codes are not used yet: wait two minutes", maxCodes)
	}
	code := hex.EncodeToString(secret)
	l.codes[disk.Digest([]byte(code))] = login{token, now.Add(codeTime)}
	return code, nil
}

// use returns the token of a code, once and in time.
func (l *logins) use(code string) (token string, is bool) {
	l.mu.Lock()
	defer l.mu.Unlock()
	digest := disk.Digest([]byte(code))
	one, is := l.codes[digest]
	delete(l.codes, digest)
	return one.token, is && !l.now().After(one.until)
}

// createLogin returns a code for the caller's own token.
func (q *request) createLogin() error {
	token, _ := bearer(q.r)
	code, err := q.server.logins.create(token)
	if err != nil {
		return err
	}
	return q.writeJSON(map[string]interface{}{"code": code, "seconds": int(codeTime / time.Second)})
}

// useLogin answers POST /drf/v1/login, whose body is a code. It needs no token.
func (s *Server) useLogin(w http.ResponseWriter, r *http.Request) error {
	if r.Method != http.MethodPost {
		w.Header().Set("Allow", http.MethodPost)
		return refusal(http.StatusMethodNotAllowed, "this call needs the method POST, not %s", r.Method)
	}
	body, err := io.ReadAll(http.MaxBytesReader(w, r.Body, 256))
	if err != nil {
		return refusal(http.StatusBadRequest, "expected a code of at most 256 bytes")
	}
	token, is := s.logins.use(strings.TrimSpace(string(body)))
	if !is {
		return refusal(http.StatusForbidden, "this link was used before, or it is older than %v: create another one", codeTime)
	}
	w.Header().Set("Content-Type", "application/json")
	return json.NewEncoder(w).Encode(map[string]string{"token": token})
}

// me returns the caller's name and rights.
func (q *request) me() error {
	return q.writeJSON(map[string]interface{}{"name": q.by.Name, "rights": q.by.Rights})
}

func (q *request) writeJSON(value interface{}) error {
	q.w.Header().Set("Content-Type", "application/json")
	return json.NewEncoder(q.w).Encode(value)
}
