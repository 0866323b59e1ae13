// The address at which operators ask this agent. Outside the proof.

package main

import (
	"context"
	"crypto/tls"
	"errors"
	"fmt"
	"log"
	"net"

	"gateway/internal/mesos/agent"
	"gateway/internal/mesos/agentapi"
	"gateway/internal/mesos/codec"
)

// operators has the values of the flags for the address at which operators ask the agent.
type operators struct{ address, cert, key *string }

// listen opens the address, with TLS where there is a certificate, and adds its port to the agent's description.
func (o operators) listen(info codec.Message) (net.Listener, error) {
	if (*o.cert == "") != (*o.key == "") || *o.address == "" && *o.cert != "" {
		return nil, errors.New("-listen, -cert and -key: give -listen alone, or all three")
	}
	if *o.address == "" {
		return nil, nil
	}
	listener, err := net.Listen("tcp", *o.address)
	if err != nil {
		return nil, fmt.Errorf("-listen: %w", err)
	}
	info.Set("port", listener.Addr().(*net.TCPAddr).Port)
	if *o.cert == "" {
		return listener, nil
	}
	certificate, err := tls.LoadX509KeyPair(*o.cert, *o.key)
	if err != nil {
		return nil, fmt.Errorf("-cert and -key: %w", err)
	}
	return tls.NewListener(listener, &tls.Config{MinVersion: tls.VersionTLS12, Certificates: []tls.Certificate{certificate}}), nil
}

// serve answers operators until the context ends.
func (o operators) serve(ctx context.Context, a *agent.Agent, listener net.Listener) {
	if listener == nil {
		return
	}
	log.Printf("listening for operators on %s", listener.Addr())
	agentapi.New(a, agent.NewAuthorizer(a).Check).Serve(ctx, listener)
}
