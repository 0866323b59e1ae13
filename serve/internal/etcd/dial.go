// Connecting to the members of an etcd outside of this process. Outside the proof.

package etcd

import (
	"context"
	"crypto/tls"
	"errors"
	"fmt"
	"log"
	"strings"
	"time"

	"go.etcd.io/etcd/clientv3"
	"go.etcd.io/etcd/etcdserver/api/v3rpc/rpctypes"
	"go.uber.org/zap"
)

const redial = 2 * time.Second // between tries to reach a member

// dial connects to the members. Without a user, it does not wait for any member. With a user, a member must be reached to authenticate; members
// that cannot be reached are tried again while others are used.
func (c *Cluster) dial(ctx context.Context, config Config) error {
	connect, err := connector(config)
	if err != nil {
		return err
	}
	missing := strings.Split(config.URLs, ",")
	for {
		if missing, err = c.connectAll(connect, missing, config); err != nil {
			c.closeClients()
			return err
		}
		if len(c.clients) > 0 {
			break
		}
		log.Print("etcd: no member can be reached to check the user")
		select {
		case <-time.After(redial):
		case <-ctx.Done():
			return ctx.Err()
		}
	}
	go c.watch(ctx)
	go c.connectMissing(ctx, connect, missing, config)
	return nil
}

// connector returns the function that connects to a member.
func connector(config Config) (func(url string) (*clientv3.Client, error), error) {
	var security *tls.Config
	if config.PeerCert != "" || config.PeerCA != "" {
		var err error
		if security, err = config.security().ClientConfig(); err != nil {
			return nil, fmt.Errorf("etcd's certificates: %w", err)
		}
	}
	quiet := zap.NewProductionConfig()
	quiet.Level = zap.NewAtomicLevelAt(zap.ErrorLevel)
	return func(url string) (*clientv3.Client, error) {
		return clientv3.New(clientv3.Config{Endpoints: []string{url}, TLS: security, LogConfig: &quiet, DialTimeout: 2 * time.Second, MaxCallSendMsgSize: 64 << 20,
			Username: config.User, Password: config.Password})
	}, nil
}

// connectAll connects to members, and returns those that could not be reached. An error means a wrong address or user.
func (c *Cluster) connectAll(connect func(string) (*clientv3.Client, error), urls []string, config Config) (missing []string, err error) {
	for _, url := range urls {
		client, err := connect(url)
		switch {
		case errors.Is(err, rpctypes.ErrAuthFailed):
			return nil, fmt.Errorf("etcd at %s rejects the user %q or its password", url, config.User)
		case err != nil && config.User == "":
			return nil, fmt.Errorf("etcd at %s: %w", url, err)
		case err != nil:
			missing = append(missing, url)
		default:
			c.mu.Lock()
			c.clients = append(c.clients, client)
			c.mu.Unlock()
		}
	}
	return missing, nil
}

// connectMissing tries again to reach members, until all are reached or the context ends.
func (c *Cluster) connectMissing(ctx context.Context, connect func(string) (*clientv3.Client, error), missing []string, config Config) {
	defer close(c.closed)
	for len(missing) > 0 {
		select {
		case <-time.After(redial):
		case <-ctx.Done():
			return
		}
		var err error
		if missing, err = c.connectAll(connect, missing, config); err != nil {
			log.Printf("etcd: %v", err)
			return
		}
	}
}
