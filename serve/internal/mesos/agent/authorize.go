// Which callers an agent answers: those that a gateway knows. Outside the proof.

package agent

import (
	"bytes"
	"context"
	"crypto/sha256"
	"fmt"
	"io"
	"net/http"
	"strings"
	"sync"
	"time"
)

// probes are calls that change nothing, by the right that a gateway requires for them.
var probes = map[string]string{"read": `{"type":"GET_VERSION"}`, "operate": `{"type":"UPDATE_WEIGHTS","update_weights":{}}`}

const (
	trustFor = 30 * time.Second // a caller that a gateway knew
	maxTrust = 1000             // callers
	maxAsked = 4                // questions to gateways at once
)

// Authorizer asks gateways about callers.
type Authorizer struct {
	agent *Agent
	slots chan bool

	mu    sync.Mutex
	known map[[32]byte]time.Time // by caller and right
}

// NewAuthorizer returns an authorizer that asks the gateway that the agent is linked to.
func NewAuthorizer(a *Agent) *Authorizer {
	return &Authorizer{agent: a, slots: make(chan bool, maxAsked), known: map[[32]byte]time.Time{}}
}

// Denied is why a caller has no right: the gateway's answer.
type Denied struct {
	Status int
	Text   string
}

func (d *Denied) Error() string { return d.Text }

// Check returns nil if a caller, identified by the header Authorization, has a right; a *Denied if it has not; or another error if no gateway
// answers.
func (z *Authorizer) Check(ctx context.Context, authorization, right string) error {
	if authorization == "" {
		return &Denied{http.StatusUnauthorized, "no known principal: send HTTP Basic with a token's name and the token, or `Authorization: Bearer TOKEN`"}
	}
	key := sha256.Sum256([]byte(right + "\n" + authorization))
	if z.isKnown(key) {
		return nil
	}
	select {
	case z.slots <- true:
		defer func() { <-z.slots }()
	case <-ctx.Done():
		return ctx.Err()
	}
	ctx, cancel := context.WithTimeout(ctx, 10*time.Second)
	defer cancel()
	request, err := http.NewRequestWithContext(ctx, http.MethodPost, strings.TrimSuffix(z.agent.url(), "/")+"/api/v1", strings.NewReader(probes[right]))
	if err != nil {
		return err
	}
	request.Header.Set("Content-Type", "application/json")
	request.Header.Set("Authorization", authorization)
	answer, err := z.agent.client.Do(request)
	if err != nil {
		return fmt.Errorf("no gateway could be asked for the caller's rights: %w", err)
	}
	defer answer.Body.Close()
	text, _ := io.ReadAll(io.LimitReader(answer.Body, 1000))
	switch answer.StatusCode {
	case http.StatusOK:
		z.remember(key)
		return nil
	case http.StatusUnauthorized, http.StatusForbidden, http.StatusTooManyRequests:
		return &Denied{answer.StatusCode, string(bytes.TrimSpace(text))}
	}
	return fmt.Errorf("the gateway answered %s when it was asked for the caller's rights", answer.Status)
}

func (z *Authorizer) isKnown(key [32]byte) bool {
	z.mu.Lock()
	defer z.mu.Unlock()
	return time.Now().Before(z.known[key])
}

func (z *Authorizer) remember(key [32]byte) {
	z.mu.Lock()
	defer z.mu.Unlock()
	if len(z.known) >= maxTrust {
		z.known = map[[32]byte]time.Time{}
	}
	z.known[key] = time.Now().Add(trustFor)
}
