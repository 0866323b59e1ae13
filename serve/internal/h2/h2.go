// Package h2, outside the proof, serves HTTP/2 over TLS. It looks at all frames before the library reads them, because the library that Debian
// has does not bound what a client may ask for without waiting for answers.
package h2

import (
	"context"
	"crypto/tls"
	"net"
	"net/http"
	"time"

	"golang.org/x/net/http2"
)

const (
	streams          = 250 // of a connection, at once
	connectionWindow = 256 << 10
	streamWindow     = 128 << 10 // bytes of a body that are taken before the handler reads them
)

// Configure lets a server speak HTTP/2 with clients that ask for it in the TLS handshake. The server must have a TLSConfig. A client that takes
// nothing for a time loses its connection.
func Configure(server *http.Server, patience time.Duration) error {
	library := &http2.Server{MaxConcurrentStreams: streams, MaxUploadBufferPerConnection: connectionWindow, MaxUploadBufferPerStream: streamWindow}
	if err := http2.ConfigureServer(server, library); err != nil {
		return err
	}
	server.TLSNextProto[http2.NextProtoTLS] = func(server *http.Server, connection *tls.Conn, handler http.Handler) {
		options := &http2.ServeConnOpts{BaseConfig: server, Handler: handler}
		if based, is := handler.(interface{ BaseContext() context.Context }); is { // it has what ConnContext added
			options.Context = based.BaseContext()
		}
		library.ServeConn(newGuard(connection, patience), options)
	}
	return nil
}

// guard is a connection whose frames are looked at when they are read. It has the methods of *tls.Conn that the library asks for.
type guard struct {
	net.Conn
	secure   *tls.Conn
	patience time.Duration
	frames   frames
}

func newGuard(connection *tls.Conn, patience time.Duration) *guard {
	return &guard{Conn: connection, secure: connection, patience: patience, frames: newFrames(time.Now)}
}

// ConnectionState returns the state of TLS.
func (g *guard) ConnectionState() tls.ConnectionState { return g.secure.ConnectionState() }

// Read reads from the client. What is not allowed is an error, which ends the connection.
func (g *guard) Read(text []byte) (int, error) {
	n, err := g.Conn.Read(text)
	if fault := g.frames.look(text[:n]); fault != nil {
		g.Conn.Close()
		return 0, fault
	}
	return n, err
}

// Write writes to the client, which must take it in time: all streams of the connection wait for it.
func (g *guard) Write(text []byte) (int, error) {
	if err := g.Conn.SetWriteDeadline(time.Now().Add(g.patience)); err != nil {
		return 0, err
	}
	return g.Conn.Write(text)
}
