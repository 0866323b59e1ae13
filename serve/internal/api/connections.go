// Connections of callers: how long a caller may take, over HTTP/1.1 and over HTTP/2. Outside the proof.

package api

import (
	"context"
	"crypto/tls"
	"io"
	"net"
	"net/http"
	"os"
	"time"

	"gateway/internal/h2"
)

// HTTPServer returns a server for HTTP/1.1, over TCP or TLS.
func (s *Server) HTTPServer(certificate func(*tls.ClientHelloInfo) (*tls.Certificate, error)) *http.Server {
	return &http.Server{Handler: s, ReadHeaderTimeout: 10 * time.Second, IdleTimeout: 2 * time.Minute, MaxHeaderBytes: 1 << 16,
		ConnContext: func(ctx context.Context, c net.Conn) context.Context {
			return context.WithValue(ctx, connectionKey{}, c)
		},
		TLSConfig:    &tls.Config{MinVersion: tls.VersionTLS12, GetCertificate: certificate},
		TLSNextProto: map[string]func(*http.Server, *tls.Conn, http.Handler){},
	}
}

// AddHTTP2 lets a server of HTTPServer speak HTTP/2 over TLS too.
func (s *Server) AddHTTP2(server *http.Server) error { return h2.Configure(server, s.inTime) }

type connectionKey struct{}

// deadlines bound the time of a request over HTTP/2, where requests share a connection.
type deadlines struct {
	read, write func(time.Time) error
}

type deadlinesKey struct{}

// withDeadlines returns a request that can be bounded in time. One over HTTP/1.1 can be, by its connection.
func withDeadlines(w http.ResponseWriter, r *http.Request) *http.Request {
	own, is := w.(interface{ SetWriteDeadline(time.Time) error })
	if r.ProtoMajor == 1 || !is {
		return r
	}
	body := &timedBody{body: r.Body}
	r = r.WithContext(context.WithValue(r.Context(), deadlinesKey{}, &deadlines{body.setDeadline, own.SetWriteDeadline}))
	r.Body = body
	return r
}

// timedBody is a body over HTTP/2 with a deadline. With the library's deadline, the next part of a slow body would end its stream, often before
// the caller has the answer.
type timedBody struct {
	body    io.ReadCloser
	until   time.Time
	pending chan readPart // of a read that goes on
	left    readPart      // of what was read
}

type readPart struct {
	text []byte
	err  error
}

const timedPart = 32 << 10 // bytes that are read at once

func (b *timedBody) setDeadline(until time.Time) error {
	b.until = until
	return nil
}

// Read reads from the body until the deadline. What goes on then ends with the handler.
func (b *timedBody) Read(to []byte) (int, error) {
	if len(b.left.text) == 0 && b.left.err == nil {
		if b.pending == nil {
			b.pending = make(chan readPart, 1)
			go func(done chan<- readPart) {
				text := make([]byte, timedPart)
				n, err := b.body.Read(text)
				done <- readPart{text[:n], err}
			}(b.pending)
		}
		timer := time.NewTimer(time.Until(b.until))
		defer timer.Stop()
		select {
		case b.left = <-b.pending:
			b.pending = nil
		case <-timer.C:
			return 0, os.ErrDeadlineExceeded
		}
	}
	n := copy(to, b.left.text)
	if b.left.text = b.left.text[n:]; len(b.left.text) == 0 {
		return n, b.left.err
	}
	return n, nil
}

func (b *timedBody) Close() error { return b.body.Close() }

func deadlinesOf(r *http.Request) (d deadlines, is bool) {
	if own, is := r.Context().Value(deadlinesKey{}).(*deadlines); is {
		return *own, true
	}
	connection, is := r.Context().Value(connectionKey{}).(net.Conn)
	if !is || r.ProtoMajor > 1 { // as in tests without a network
		return d, false
	}
	return deadlines{connection.SetDeadline, connection.SetDeadline}, true
}

// limitReading bounds the time that a caller may take to send the rest of its request.
func limitReading(r *http.Request, within time.Duration) {
	if d, is := deadlinesOf(r); is {
		d.read(time.Now().Add(within))
	}
}

// limitTime bounds the time that a caller may take to take what is written to it; 0 means no bound.
func limitTime(r *http.Request, within time.Duration) {
	until := time.Time{}
	if within > 0 {
		until = time.Now().Add(within)
	}
	if d, is := deadlinesOf(r); is {
		d.write(until)
	}
}
