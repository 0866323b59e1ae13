// The etcd member inside this process: its settings, and why it does not work. Outside the proof.

package etcd

import (
	"context"
	"errors"
	"fmt"
	"log"
	"net/url"
	"os"
	"path/filepath"
	"strings"
	"time"

	"go.etcd.io/etcd/clientv3"
	"go.etcd.io/etcd/embed"
	"go.etcd.io/etcd/etcdserver/api/v3client"
	"go.etcd.io/etcd/wal"
)

const (
	maxSocketPath = 100 // of a Unix socket's path, which the system limits to 107 bytes
	walFiles      = 2   // of raft's log that are kept: a start reads all of them
	walFileSize   = 16 << 20
	batchLimit    = 1_000 // writes after which the store is written to its file: etcd copies the room for them at each transaction
)

func init() { wal.SegmentSizeBytes = walFileSize }

// embed starts a member in this process. Without other members it listens on no port: its only socket is in the data folder, for etcdctl.
func (c *Cluster) embed(ctx context.Context, o Config) error {
	config := embed.NewConfig()
	config.Name, config.Dir = o.Name, filepath.Join(o.Folder, "etcd")
	config.Logger, config.LogLevel, config.LogOutputs = "zap", "error", []string{filepath.Join(o.Folder, "etcd.log")}
	config.MaxRequestBytes, config.QuotaBackendBytes = 10<<20, o.Quota
	config.PreVote, config.EnableGRPCGateway = true, false
	config.SnapshotCount, config.BackendBatchLimit, config.MaxWalFiles = mostEntries, batchLimit, walFiles
	config.AutoCompactionMode, config.AutoCompactionRetention = embed.CompactorModePeriodic, "1h"
	config.LPUrls, config.LCUrls = nil, nil
	config.InitialCluster = config.InitialClusterFromName(o.Name)
	if socket := filepath.Join(o.Folder, "etcd.sock"); len(socket) < maxSocketPath {
		os.Remove(socket)
		config.LCUrls = []url.URL{{Scheme: "unix", Path: socket}}
	} else {
		log.Printf("%s: the path is too long for a socket: etcdctl cannot reach this member; use a shorter -data to make backups", socket)
	}
	if o.Members == "" {
		config.TickMs, config.ElectionMs = 20, 200 // it need not wait for others before it leads
	} else if err := joinMembers(config, o); err != nil {
		return err
	}
	server, err := embed.StartEtcd(config)
	if err != nil {
		return fmt.Errorf("the embedded etcd member: %w", err)
	}
	setEntries(server, mostEntries, mostEntries)
	c.member = server
	c.clients = []*clientv3.Client{v3client.New(server.Server)}
	if o.Members == "" {
		c.problem = "this member starts"
	} else {
		c.setProblem("this member waits for a majority of the members " + o.Members)
	}
	go c.follow(ctx, server, o)
	go c.boundEntries(ctx, server, o.Members == "")
	return nil
}

// follow records why the member does not work.
func (c *Cluster) follow(ctx context.Context, server *embed.Etcd, o Config) {
	defer close(c.closed)
	remind := time.NewTicker(10 * time.Second)
	defer remind.Stop()
	ready := server.Server.ReadyNotify()
	for {
		select {
		case <-ready:
			c.setProblem("")
			ready = nil
		case err := <-server.Err():
			c.setProblem(fmt.Sprintf("the embedded member failed: %v", err))
		case <-server.Server.StopNotify():
			if ctx.Err() == nil {
				c.setProblem("this member stopped: it was removed from the cluster, or its store failed; see " + filepath.Join(o.Folder, "etcd.log"))
			}
			<-ctx.Done()
			return
		case <-remind.C:
			if problem := c.Problem(); problem != "" {
				log.Printf("etcd: still, %s", problem)
			}
		case <-ctx.Done():
			closeInTime(server)
			return
		}
	}
}

// closeInTime stops the member, or gives up after the time that a process has to end.
func closeInTime(server *embed.Etcd) {
	done := make(chan struct{})
	go func() {
		server.Close()
		close(done)
	}()
	select {
	case <-done:
	case <-time.After(3 * time.Second):
	}
}

// joinMembers makes the member one of several.
func joinMembers(config *embed.Config, o Config) error {
	config.InitialCluster, config.PeerTLSInfo, config.APUrls = o.Members, o.security(), nil
	config.TickMs, config.ElectionMs = 50, 600 // a leader that died is missed in about a second
	if o.Joins {
		config.ClusterState = embed.ClusterStateFlagExisting
	}
	for _, member := range strings.Split(o.Members, ",") {
		name, text, _ := strings.Cut(member, "=")
		address, err := url.Parse(text)
		if err != nil || address.Host == "" {
			return fmt.Errorf("-members: %q: expected NAME=URL, such as a=https://a:2380", member)
		}
		if name == o.Name {
			config.APUrls = append(config.APUrls, *address)
		}
	}
	if len(config.APUrls) == 0 {
		return errors.New("-members does not have this gateway's -name")
	}
	config.LPUrls = config.APUrls
	return nil
}
