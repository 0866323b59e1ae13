// Package shadow compares what a Mesos cluster has allocated with what the allocator would allocate, without touching the cluster. Outside the
// proof.
package shadow

import (
	"context"
	"errors"
	"fmt"
	"io"
	"net/http"
	"net/url"
	"strings"
	"time"

	"gateway/internal/mesos/document"
)

// maxAnswer is the size above which an answer is refused.
const maxAnswer = 1 << 30

// Master is a Mesos master that is asked for its state. Redirects to the leading master are followed, but no other host gets the secret.
type Master struct {
	URL               string // such as http://10.0.0.1:5050
	Principal, Secret string // empty for a master without authentication
	Timeout           time.Duration
	Client            *http.Client
}

// NewMaster checks a URL.
func NewMaster(text string, timeout time.Duration) (*Master, error) {
	u, err := url.Parse(text)
	if err != nil || u.Scheme != "http" && u.Scheme != "https" || u.Host == "" || u.RawQuery != "" || u.User != nil {
		return nil, fmt.Errorf("the URL %q: expected http://HOST:PORT or https://HOST:PORT", text)
	}
	return &Master{URL: strings.TrimSuffix(strings.TrimSuffix(u.String(), "/"), "/master"), Timeout: timeout, Client: http.DefaultClient}, nil
}

// statusError is an answer other than 200.
type statusError struct {
	url    string
	status int
	leader string // to which a request with a secret was redirected, or empty
}

func (e *statusError) Error() string {
	text := fmt.Sprintf("%s: the master answers %d %s", e.url, e.status, http.StatusText(e.status))
	if e.leader != "" {
		text += "; it redirects to " + e.leader + ", which does not get the secret: give that URL"
	}
	return text
}

// Ask gets all answers. If a master does not have /slaves, or does not show it to the principal, this answer is left out.
func (m *Master) Ask(ctx context.Context) (answers document.Answers, err error) {
	ctx, cancel := context.WithTimeout(ctx, m.Timeout)
	defer cancel()
	for _, call := range []struct {
		path       string
		answer     *document.Answer
		isOptional bool
	}{
		{"/master/state", &answers.State, false}, {"/master/slaves", &answers.Slaves, true}, {"/roles", &answers.Roles, false},
		{"/weights", &answers.Weights, false}, {"/quota", &answers.Quota, false},
	} {
		*call.answer, err = m.get(ctx, call.path)
		if s := (*statusError)(nil); call.isOptional && errors.As(err, &s) && (s.status == http.StatusNotFound || s.status == http.StatusForbidden) {
			err = nil
		}
		if err != nil {
			return answers, err
		}
	}
	return answers, nil
}

func (m *Master) get(ctx context.Context, path string) (answer document.Answer, err error) {
	answer.Name = m.URL + path
	request, err := http.NewRequestWithContext(ctx, http.MethodGet, answer.Name, nil)
	if err != nil {
		return answer, err
	}
	request.Header.Set("Accept", "application/json")
	if m.Principal != "" {
		request.SetBasicAuth(m.Principal, m.Secret)
	}
	response, err := m.Client.Do(request)
	if err != nil {
		return answer, m.describe(answer.Name, err)
	}
	defer response.Body.Close()
	if response.StatusCode != http.StatusOK {
		e := &statusError{url: answer.Name, status: response.StatusCode}
		if final := response.Request.URL; m.Principal != "" && final.Host != request.URL.Host {
			e.leader = final.Scheme + "://" + final.Host
		}
		return answer, e
	}
	body, err := io.ReadAll(io.LimitReader(response.Body, maxAnswer+1))
	switch {
	case errors.Is(err, io.ErrUnexpectedEOF):
		return answer, fmt.Errorf("%s: the answer is cut", answer.Name)
	case err != nil:
		return answer, m.describe(answer.Name, err)
	case len(body) > maxAnswer:
		return answer, fmt.Errorf("%s: the answer has more than %d bytes", answer.Name, maxAnswer)
	}
	answer.Body = append([]byte{}, body...)
	return answer, nil
}

// describe adds to a time-out what was being waited for.
func (m *Master) describe(name string, err error) error {
	if errors.Is(err, context.DeadlineExceeded) {
		return fmt.Errorf("%s: no whole answer within %v", name, m.Timeout)
	}
	var u *url.Error
	if errors.As(err, &u) {
		err = u.Err
	}
	return fmt.Errorf("%s: %w", name, err)
}
