// Callers of streams whose connection is lost: nothing that is sent to them is acknowledged, and nothing reports that they are gone. Outside the
// proof.

package api

import (
	"crypto/tls"
	"net"
	"syscall"
	"time"
)

const tcpUserTimeout = 18 // TCP_USER_TIMEOUT of Linux, in milliseconds

// EndWhenSilent closes the request's connection if the other machine acknowledges nothing for some time. So a stream with heartbeats ends soon
// after a link failed; otherwise the operating system tries for a quarter of an hour.
func (c *Call) EndWhenSilent(after time.Duration) error {
	connection, _ := c.R.Context().Value(connectionKey{}).(net.Conn)
	if secure, is := connection.(*tls.Conn); is {
		connection = secure.NetConn()
	}
	plain, is := connection.(*net.TCPConn)
	if !is { // as in tests without a network
		return nil
	}
	raw, err := plain.SyscallConn()
	if err != nil {
		return err
	}
	failed := error(nil)
	err = raw.Control(func(fd uintptr) {
		failed = syscall.SetsockoptInt(int(fd), syscall.IPPROTO_TCP, tcpUserTimeout, int(after.Milliseconds()))
	})
	if err == nil {
		err = failed
	}
	return err
}
