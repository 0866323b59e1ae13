// Tests of callers over HTTP/2: what bounds them over HTTP/1.1 does so there. Outside the proof.

package api

import (
	"bytes"
	"context"
	"crypto/tls"
	"fmt"
	"io"
	"net"
	"net/http"
	"net/http/httptest"
	"strings"
	"sync/atomic"
	"testing"
	"time"

	"gateway/internal/auth"

	"golang.org/x/net/http2"
	"golang.org/x/net/http2/hpack"
)

// overTLS starts a server over TLS whose requests a handler answers, and returns its address.
func overTLS(t *testing.T, s *Server, handler http.HandlerFunc) string {
	t.Helper()
	borrowed := httptest.NewTLSServer(nil)
	defer borrowed.Close()
	certificate := borrowed.TLS.Certificates[0]
	server := s.HTTPServer(func(*tls.ClientHelloInfo) (*tls.Certificate, error) { return &certificate, nil })
	if err := s.AddHTTP2(server); err != nil {
		t.Fatal(err)
	}
	server.Handler = handler
	listener, err := net.Listen("tcp", "127.0.0.1:0")
	if err != nil {
		t.Fatal(err)
	}
	go server.Serve(tls.NewListener(listener, server.TLSConfig))
	t.Cleanup(func() { server.Close() })
	return listener.Addr().String()
}

// clients of both versions, by name.
func clients() map[string]*http.Client {
	insecure := func() *tls.Config { return &tls.Config{InsecureSkipVerify: true} }
	return map[string]*http.Client{
		"HTTP/1.1": {Transport: &http.Transport{TLSClientConfig: insecure(), TLSNextProto: map[string]func(string, *tls.Conn) http.RoundTripper{}}},
		"HTTP/2.0": {Transport: &http2.Transport{TLSClientConfig: insecure()}},
	}
}

// reading answers with the length of the body, as events would read it.
func reading(s *Server) http.HandlerFunc {
	return func(w http.ResponseWriter, r *http.Request) {
		r = withDeadlines(w, r)
		limitReading(r, s.inTime)
		q := &request{server: s, w: w, r: r, by: &auth.Caller{Name: "one"}}
		body, release, err := q.body()
		if err != nil {
			s.refuse(w, r, err)
			return
		}
		defer release()
		fmt.Fprintf(w, "%s %d", r.Proto, len(body))
	}
}

// slow is a body that does not end.
type slow struct{ first io.Reader }

func (s slow) Read(text []byte) (int, error) {
	if n, err := s.first.Read(text); err == nil {
		return n, nil
	}
	time.Sleep(20 * time.Millisecond)
	return copy(text, "x"), nil
}

func TestBodies(t *testing.T) {
	s := newServer()
	s.inTime = 2 * time.Second
	address := overTLS(t, s, reading(s))
	for version, client := range clients() {
		for _, one := range []struct {
			name   string
			body   io.Reader
			status int
			text   string
		}{
			{"small", strings.NewReader("x"), 200, version + " 1"},
			{"large", bytes.NewReader(make([]byte, maxBody)), 200, fmt.Sprint(version, " ", maxBody)},
			{"too large", bytes.NewReader(make([]byte, maxBody+1)), 413, "a body has at most"},
			{"none", nil, 400, "the body has no event line"},
			{"slow", slow{strings.NewReader("")}, 400, "the body could not be read"},
			{"slow and large", slow{bytes.NewReader(make([]byte, 100_000))}, 400, "the body could not be read"},
		} {
			start := time.Now()
			answer, err := client.Post("https://"+address, "", one.body)
			if err != nil {
				t.Errorf("%s, %s: %v", version, one.name, err)
				continue
			}
			text, _ := io.ReadAll(answer.Body)
			answer.Body.Close()
			if answer.StatusCode != one.status || !strings.HasPrefix(string(text), one.text) || answer.Proto != version || time.Since(start) > 10*time.Second {
				t.Errorf("%s, %s: %s %d %s after %v", version, one.name, answer.Proto, answer.StatusCode, text, time.Since(start))
			}
		}
	}
}

// A slow body does not end the other requests of its connection, and a stream that is not read keeps none of them waiting. The stream ends.
func TestStreamsOfOneConnection(t *testing.T) {
	s := newServer()
	s.inTime = 500 * time.Millisecond
	ended := make(chan error, 1)
	var connections atomic.Int64
	address := overTLS(t, s, func(w http.ResponseWriter, r *http.Request) {
		if r.URL.Path != "/stream" {
			reading(s)(w, r)
			return
		}
		q := &request{server: s, w: w, r: withDeadlines(w, r)}
		limitReading(q.r, s.inTime)
		for n, part := 0, make([]byte, 1<<16); ; n++ {
			if !q.send(part) {
				ended <- r.Context().Err()
				return
			}
			if r.URL.RawQuery == "slowly" && n%8 == 7 {
				time.Sleep(100 * time.Millisecond)
			}
		}
	})
	client := &http.Client{Transport: &http2.Transport{TLSClientConfig: &tls.Config{InsecureSkipVerify: true},
		DialTLS: func(network, address string, config *tls.Config) (net.Conn, error) {
			connections.Add(1)
			return tls.Dial(network, address, config)
		}}}
	stream, err := client.Get("https://" + address + "/stream") // of which nothing is read
	if err != nil {
		t.Fatal(err)
	}
	defer stream.Body.Close()
	slowly := make(chan string, 1)
	go func() {
		answer, err := client.Post("https://"+address, "", slow{strings.NewReader("")})
		if err != nil {
			slowly <- err.Error()
			return
		}
		answer.Body.Close()
		slowly <- answer.Status
	}()
	for end := time.Now().Add(3 * s.inTime); time.Now().Before(end); {
		start := time.Now()
		answer, err := client.Post("https://"+address, "", strings.NewReader("x"))
		if err != nil || answer.StatusCode != 200 {
			t.Fatal(answer, err)
		}
		answer.Body.Close()
		if took := time.Since(start); took > 5*time.Second {
			t.Fatal("a request took", took)
		}
	}
	if got := <-slowly; !strings.HasPrefix(got, "400") {
		t.Error("the slow body:", got)
	}
	select {
	case <-ended:
	case <-time.After(20 * time.Second):
		t.Error("the stream that nobody reads does not end")
	}
	if n := connections.Load(); n != 1 {
		t.Errorf("%d connections", n)
	}
	// A stream that is read lasts for longer than the time that a part of it may take.
	lasting, err := client.Get("https://" + address + "/stream?slowly")
	if err != nil {
		t.Fatal(err)
	}
	defer lasting.Body.Close()
	for end := time.Now().Add(4 * s.inTime); time.Now().Before(end); {
		if _, err := io.CopyN(io.Discard, lasting.Body, 1<<16); err != nil {
			t.Fatal(err)
		}
	}
}

// raw is a client that sends frames.
type raw struct {
	*http2.Framer
	*tls.Conn
}

func dialRaw(t *testing.T, address string) raw {
	t.Helper()
	connection, err := tls.Dial("tcp", address, &tls.Config{InsecureSkipVerify: true, NextProtos: []string{"h2"}})
	if err != nil {
		t.Fatal(err)
	}
	t.Cleanup(func() { connection.Close() })
	io.WriteString(connection, http2.ClientPreface)
	c := raw{http2.NewFramer(connection, connection), connection}
	c.WriteSettings()
	return c
}

// headers of a request for a path.
func headers(path string) []byte {
	var text bytes.Buffer
	encoder := hpack.NewEncoder(&text)
	for _, field := range [][2]string{{":method", "GET"}, {":scheme", "https"}, {":authority", "x"}, {":path", path}} {
		encoder.WriteField(hpack.HeaderField{Name: field[0], Value: field[1]})
	}
	return text.Bytes()
}

// isEnded reports whether a server ends the connection soon.
func (c raw) isEnded() bool {
	c.SetReadDeadline(time.Now().Add(10 * time.Second))
	_, err := io.Copy(io.Discard, c.Conn)
	timeout, is := err.(net.Error)
	return !is || !timeout.Timeout()
}

// A client that floods the server loses its connection, before many handlers run; others do not notice it.
func TestFloods(t *testing.T) {
	s := newServer()
	var running, most, all atomic.Int64
	address := overTLS(t, s, func(w http.ResponseWriter, r *http.Request) {
		all.Add(1)
		for now := running.Add(1); ; {
			old := most.Load()
			if now <= old || most.CompareAndSwap(old, now) {
				break
			}
		}
		defer running.Add(-1)
		if r.URL.Path == "/wait" {
			ctx, cancel := context.WithTimeout(context.Background(), 2*time.Second) // as what is on its way into the list goes on
			defer cancel()
			<-ctx.Done()
		}
	})
	for name, send := range map[string]func(c raw, n int) error{
		"rapid resets": func(c raw, n int) error {
			id := uint32(2*n + 1)
			c.WriteHeaders(http2.HeadersFrameParam{StreamID: id, BlockFragment: headers("/wait"), EndHeaders: true, EndStream: true})
			return c.WriteRSTStream(id, http2.ErrCodeCancel)
		},
		"settings": func(c raw, n int) error {
			return c.WriteSettings(http2.Setting{ID: http2.SettingInitialWindowSize, Val: 1 << 20})
		},
		"pings": func(c raw, n int) error { return c.WritePing(false, [8]byte{}) },
		"continuations": func(c raw, n int) error {
			if n == 0 {
				return c.WriteHeaders(http2.HeadersFrameParam{StreamID: 1, BlockFragment: headers("/"), EndStream: true})
			}
			return c.WriteContinuation(1, false, bytes.Repeat([]byte{0x10, 1, 'a', 1, 'b'}, 200))
		},
	} {
		c, sent := dialRaw(t, address), 0
		for ; sent < 100_000; sent++ {
			if err := send(c, sent); err != nil {
				break
			}
		}
		if !c.isEnded() {
			t.Errorf("%s: the connection lasts after %d", name, sent)
		}
		if answer, err := clients()["HTTP/2.0"].Get("https://" + address + "/"); err != nil || answer.StatusCode != 200 {
			t.Errorf("%s: another client: %v", name, err)
		}
	}
	if n := most.Load(); n > 250 {
		t.Errorf("%d handlers ran at once", n)
	}
}
