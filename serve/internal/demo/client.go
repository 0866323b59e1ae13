// Calls of the demo to its gateway. Outside the proof.

package demo

import (
	"bytes"
	"context"
	"encoding/json"
	"fmt"
	"io"
	"net/http"
	"strings"
	"time"
)

// Event is an event line.
type Event map[string]interface{}

// Offer is an offer in the reply to a cycle.
type Offer struct {
	Agent     string `json:"agent"`
	Framework string `json:"framework"`
	Offer     int64  `json:"offer"`
	Resources string `json:"resources"`
	Role      string `json:"role"`
}

// Reply is the allocator's reply to a line. Refused is 0 when it was accepted.
type Reply struct {
	Name    string  `json:"name"`
	Refused int     `json:"refused"`
	Offers  []Offer `json:"offers"`
}

// client calls a gateway with a token.
type client struct {
	url, token string
	http       http.Client
}

func newClient(address, token string) *client {
	return &client{url: "http://" + address, token: token, http: http.Client{Timeout: 30 * time.Second}}
}

// call sends a request, and returns its status and answer.
func (c *client) call(ctx context.Context, method, path string, body []byte) (int, []byte, error) {
	request, err := http.NewRequestWithContext(ctx, method, c.url+path, bytes.NewReader(body))
	if err != nil {
		return 0, nil, err
	}
	if c.token != "" {
		request.Header.Set("Authorization", "Bearer "+c.token)
	}
	answer, err := c.http.Do(request)
	if err != nil {
		return 0, nil, err
	}
	defer answer.Body.Close()
	text, err := io.ReadAll(answer.Body)
	return answer.StatusCode, text, err
}

// send applies events, and returns a reply for each.
func (c *client) send(ctx context.Context, events ...Event) ([]Reply, error) {
	if len(events) == 0 {
		return nil, nil
	}
	var body bytes.Buffer
	for _, one := range events {
		if err := json.NewEncoder(&body).Encode(one); err != nil {
			return nil, err
		}
	}
	status, text, err := c.call(ctx, http.MethodPost, "/drf/v1/events", body.Bytes())
	if err != nil {
		return nil, err
	}
	if status != http.StatusOK {
		return nil, fmt.Errorf("the gateway answered %d: %s", status, strings.TrimSpace(string(text)))
	}
	replies := make([]Reply, 0, len(events))
	for _, line := range bytes.Split(bytes.TrimSuffix(text, []byte("\n")), []byte("\n")) {
		reply := Reply{}
		if err := json.Unmarshal(line, &reply); err != nil {
			return nil, err
		}
		replies = append(replies, reply)
	}
	if len(replies) != len(events) {
		return nil, fmt.Errorf("%d replies to %d events", len(replies), len(events))
	}
	return replies, nil
}

// alive sends a heartbeat of an agent, and reports whether the agent is registered.
func (c *client) alive(ctx context.Context, agent string) bool {
	status, _, err := c.call(ctx, http.MethodPost, "/drf/v1/agents/"+agent+"/alive", nil)
	return err != nil || status != http.StatusNotFound
}

// code returns a code that signs a browser in once.
func (c *client) code(ctx context.Context) (string, error) {
	status, text, err := c.call(ctx, http.MethodPost, "/drf/v1/login-codes", nil)
	if err != nil {
		return "", err
	}
	var answer struct{ Code string }
	if err := json.Unmarshal(text, &answer); status != http.StatusOK || err != nil || answer.Code == "" {
		return "", fmt.Errorf("the gateway answered %d: %s", status, strings.TrimSpace(string(text)))
	}
	return answer.Code, nil
}

// isReady reports whether the gateway takes events.
func (c *client) isReady(ctx context.Context) bool {
	status, _, err := c.call(ctx, http.MethodGet, "/healthz", nil)
	return err == nil && status == http.StatusOK
}
