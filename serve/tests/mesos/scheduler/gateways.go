// Several gateways: if one does not answer, or its stream is silent, another one is used. Outside the proof.

package main

import (
	"io"
	"net/http"
	"sync"
	"time"
)

// silence is for how long a stream may have no record: heartbeats come every 15 seconds.
const silence = 20 * time.Second

// gateways sends each call to one of several hosts, until that fails.
type gateways struct {
	next  http.RoundTripper
	hosts []string

	mu      sync.Mutex
	current int
}

func (g *gateways) RoundTrip(request *http.Request) (*http.Response, error) {
	g.mu.Lock()
	at := g.current
	g.mu.Unlock()
	copied, address := *request, *request.URL
	address.Host = g.hosts[at%len(g.hosts)]
	copied.URL, copied.Host = &address, address.Host
	answer, err := g.next.RoundTrip(&copied)
	if err != nil || answer.StatusCode == http.StatusServiceUnavailable {
		g.leave(at)
		return answer, err
	}
	if answer.StatusCode == http.StatusOK {
		s := &stream{ReadCloser: answer.Body, leave: func() { g.leave(at) }}
		s.timer = time.AfterFunc(silence, func() { s.ReadCloser.Close() })
		answer.Body = s
	}
	return answer, nil
}

func (g *gateways) leave(at int) {
	g.mu.Lock()
	defer g.mu.Unlock()
	if g.current == at {
		g.current++
	}
}

// stream is closed when it is silent.
type stream struct {
	io.ReadCloser
	timer *time.Timer
	leave func()
}

func (s *stream) Read(into []byte) (int, error) {
	count, err := s.ReadCloser.Read(into)
	if s.timer.Reset(silence); err != nil {
		s.leave()
	}
	return count, err
}

func (s *stream) Close() error {
	s.timer.Stop()
	return s.ReadCloser.Close()
}
