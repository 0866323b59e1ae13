// Package etcd connects to etcd: to a member inside this process, or to the members of a cluster. Outside the proof.
package etcd

import (
	"context"
	"crypto/sha256"
	"io"
	"log"
	"sync"
	"sync/atomic"
	"time"

	"go.etcd.io/etcd/clientv3"
	"go.etcd.io/etcd/embed"
	"go.etcd.io/etcd/pkg/transport"
)

// Config says which etcd to use.
type Config struct {
	Folder                    string // of the embedded member: its data, log and socket
	Name                      string
	Members                   string // NAME=URL of each embedded member, with commas; empty for one alone
	Joins                     bool   // this member is new in an existing cluster
	URLs                      string // of an external etcd, with commas; empty for an embedded member
	User, Password            string // of an external etcd, or empty
	PeerCert, PeerKey, PeerCA string
	Quota                     int64 // bytes of the embedded member's store
}

// IsAlone reports whether no other gateway can use the same etcd.
func (c Config) IsAlone() bool { return c.URLs == "" && c.Members == "" }

func (c Config) security() transport.TLSInfo {
	return transport.TLSInfo{CertFile: c.PeerCert, KeyFile: c.PeerKey, TrustedCAFile: c.PeerCA, ClientCertAuth: c.PeerCA != ""}
}

// Cluster has a client for each member. It uses the first one until that member does not answer. One client for all members would send each third
// request to a member that hangs, for as long as the connection exists.
type Cluster struct {
	stop       context.CancelFunc
	isEmbedded bool
	quota      int64
	member     *embed.Etcd   // or nil
	closed     chan struct{} // closed when an embedded member has stopped, or has had its time to
	counted    atomic.Int64  // bytes that were appended since entries of raft's log were last bounded

	mu      sync.Mutex
	clients []*clientv3.Client
	left    chan struct{} // closed when the first client changes
	problem string        // why the embedded member does not work, or empty
}

// Open connects to etcd. An embedded member may need other members before it works: Problem says whether it does.
func Open(ctx context.Context, config Config) (*Cluster, error) {
	ctx, stop := context.WithCancel(ctx)
	c := &Cluster{stop: stop, quota: config.Quota, closed: make(chan struct{}), left: make(chan struct{})}
	var err error
	if c.isEmbedded = config.URLs == ""; c.isEmbedded {
		err = c.embed(ctx, config)
	} else {
		err = c.dial(ctx, config)
	}
	if err != nil {
		stop()
		return nil, err
	}
	return c, nil
}

// Client returns the client of the member to ask.
func (c *Cluster) Client() *clientv3.Client {
	c.mu.Lock()
	defer c.mu.Unlock()
	return c.clients[0]
}

// Size returns the bytes of the store that are in use, and those of its file.
func (c *Cluster) Size(ctx context.Context) (used, file int64, err error) {
	if c.member != nil { // whose server panics where the member was removed
		backend := c.member.Server.Backend()
		return backend.SizeInUse(), backend.Size(), nil
	}
	answer, err := statusOf(ctx, c.Client())
	if err != nil {
		return 0, 0, err
	}
	return answer.DbSizeInUse, answer.DbSize, nil
}

// statusOf asks a member for its status over the client's connection. The client's own call would connect and authenticate again.
func statusOf(ctx context.Context, client *clientv3.Client) (*clientv3.StatusResponse, error) {
	maintenance := clientv3.NewMaintenanceFromMaintenanceClient(clientv3.RetryMaintenanceClient(client, client.ActiveConnection()), client)
	return maintenance.Status(ctx, client.Endpoints()[0])
}

// Endpoint returns the address of the member to ask, or an empty text for an embedded one.
func (c *Cluster) Endpoint() string {
	c.mu.Lock()
	defer c.mu.Unlock()
	if c.isEmbedded {
		return ""
	}
	return c.clients[0].Endpoints()[0]
}

// WriteSnapshot writes the whole store, as `etcdctl snapshot save` does.
func (c *Cluster) WriteSnapshot(ctx context.Context, to io.Writer) error {
	if c.member == nil {
		from, err := c.Client().Snapshot(ctx)
		if err != nil {
			return err
		}
		defer from.Close()
		_, err = io.Copy(to, from)
		return err
	}
	snapshot, sum := c.member.Server.Backend().Snapshot(), sha256.New()
	defer snapshot.Close()
	if _, err := snapshot.WriteTo(io.MultiWriter(to, sum)); err != nil {
		return err
	}
	_, err := to.Write(sum.Sum(nil))
	return err
}

// Ask returns the client of the member to ask, and a context that ends after a time, or when another member is to be used.
func (c *Cluster) Ask(ctx context.Context, patience time.Duration) (*clientv3.Client, context.Context, context.CancelFunc) {
	c.mu.Lock()
	client, left := c.clients[0], c.left
	c.mu.Unlock()
	ctx, cancel := context.WithTimeout(ctx, patience)
	go func() {
		select {
		case <-left:
			cancel()
		case <-ctx.Done():
		}
	}()
	return client, ctx, cancel
}

// Leave moves on to the next member, unless this was done after the client was asked: an error of the old member must not make the gateway leave
// the new one too.
func (c *Cluster) Leave(client *clientv3.Client, reason error) {
	c.mu.Lock()
	defer c.mu.Unlock()
	if len(c.clients) > 1 && c.clients[0] == client {
		log.Printf("leaving the etcd member %v: %v", c.clients[0].Endpoints(), reason)
		c.clients = append(c.clients[1:], c.clients[0])
		close(c.left)
		c.left = make(chan struct{})
	}
}

// watch leaves a member that does not answer a request for which no leader is needed.
func (c *Cluster) watch(ctx context.Context) {
	for ctx.Err() == nil {
		client, asked, cancel := c.Ask(ctx, 500*time.Millisecond)
		if _, err := client.Get(asked, "/", clientv3.WithSerializable()); err != nil && ctx.Err() == nil {
			c.Leave(client, err)
		}
		cancel()
		time.Sleep(100 * time.Millisecond)
	}
}

// Problem says why the embedded member does not work, such as "it was removed from the cluster". It is empty while the member works.
func (c *Cluster) Problem() string {
	c.mu.Lock()
	defer c.mu.Unlock()
	return c.problem
}

func (c *Cluster) setProblem(problem string) {
	c.mu.Lock()
	defer c.mu.Unlock()
	if problem != "" && problem != c.problem {
		log.Printf("etcd: %s", problem)
	}
	c.problem = problem
}

func (c *Cluster) closeClients() {
	for _, client := range c.clients {
		client.Close()
	}
}

// Close ends the connections, and stops an embedded member.
func (c *Cluster) Close() {
	c.stop()
	<-c.closed
	c.closeClients()
}
