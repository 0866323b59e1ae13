// The sender of a batch, which is stored with its message. Outside the proof.

package oplog

import (
	"context"
	"net"
	"strings"
)

// Sender is the sender of a batch: the name of the token, never the token, and the address that the request came from.
type Sender struct {
	Name    string
	Address string // an IP address, or empty where it is not known
}

// NewSender returns the sender of a request that came from a remote address, such as 10.0.0.7:4711.
func NewSender(name, remote string) Sender {
	host, _, err := net.SplitHostPort(remote)
	if err != nil {
		return Sender{Name: name}
	}
	host, _, _ = strings.Cut(host, "%") // the zone of a link-local address
	if net.ParseIP(host) == nil {
		return Sender{Name: name}
	}
	return Sender{name, host}
}

type senderKey struct{}

// WithSender returns a context of a request that somebody sent.
func WithSender(ctx context.Context, s Sender) context.Context {
	return context.WithValue(ctx, senderKey{}, s)
}

// SenderOf returns the sender of the request of a context. It is empty for actions of the gateway itself.
func SenderOf(ctx context.Context) Sender {
	s, _ := ctx.Value(senderKey{}).(Sender)
	return s
}
