// The space of etcd's store: callers' batches leave a reserve for snapshots and pruning. Outside the proof.

package oplog

import (
	"context"
	"errors"
	"fmt"
	"log"
	"sync"
	"time"

	"gateway/internal/etcd"

	"go.etcd.io/etcd/clientv3"
	"go.etcd.io/etcd/etcdserver/api/v3rpc/rpctypes"
	"go.etcd.io/etcd/etcdserver/etcdserverpb"
)

// Shares of the quota: a snapshot is due when the messages since the last one take a sixteenth; callers can fill half of it. The rest is for
// snapshots, and for pruned data whose space etcd has not released yet.
const (
	snapshotShare = 16
	callerShare   = 2
)

// Space measures how full etcd's store is.
type Space struct {
	cluster *etcd.Cluster
	quota   int64

	mu   sync.Mutex
	used int64 // bytes of the store that are not free for reuse, when they were last counted
	file int64 // bytes of its file

	// The bytes appended here in this period, and in the one before: etcd counts them once it has written them to its file.
	appended, before int64
	period           time.Time
}

const countAfter = 500 * time.Millisecond // is a period

// NewSpace returns the space of a store with a quota in bytes.
func NewSpace(cluster *etcd.Cluster, quota int64) *Space {
	return &Space{cluster: cluster, quota: quota}
}

// SnapshotBytes returns the size of messages at which a snapshot is due.
func (s *Space) SnapshotBytes() int64 { return s.quota / snapshotShare }

// Usage returns the used bytes of the store, and the quota.
func (s *Space) Usage() (used, quota int64) {
	s.mu.Lock()
	defer s.mu.Unlock()
	return s.used, s.quota
}

// taken returns the used bytes, including those that etcd may not have counted yet. The lock is held.
func (s *Space) taken() int64 { return s.used + s.appended + s.before }

// add counts appended bytes.
func (s *Space) add(bytes int) {
	if s == nil {
		return
	}
	s.mu.Lock()
	defer s.mu.Unlock()
	s.appended += int64(bytes)
}

// IsShort reports whether callers are refused because space is short: it is time to prune.
func (s *Space) IsShort() bool { return s.check() != nil }

// check returns a *FullError if only the reserve is left.
func (s *Space) check() error {
	if s == nil {
		return nil
	}
	s.mu.Lock()
	defer s.mu.Unlock()
	if s.taken() < s.quota/callerShare {
		return nil
	}
	return &FullError{What: fmt.Sprintf("etcd's store has %d of %d MiB (-etcd-quota): the rest is for snapshots and pruning", s.taken()>>20, s.quota>>20)}
}

// Run measures the store until the context ends, and recovers one that became full.
func (s *Space) Run(ctx context.Context) {
	for ; ctx.Err() == nil; time.Sleep(100 * time.Millisecond) {
		if err := s.measure(ctx); err != nil && ctx.Err() == nil {
			log.Printf("etcd's store: %v", err)
			time.Sleep(5 * time.Second)
		}
	}
}

func (s *Space) measure(ctx context.Context) error {
	client, ctx, cancel := s.cluster.Ask(ctx, 5*time.Second)
	defer cancel()
	used, file, err := s.cluster.Size(ctx)
	if err != nil {
		return fmt.Errorf("its size is unknown: %w", err)
	}
	s.mu.Lock()
	s.used, s.file = used, file
	if time.Since(s.period) > countAfter {
		s.appended, s.before, s.period = 0, s.appended, time.Now()
	}
	s.mu.Unlock()
	if file < s.quota/2 || s.cluster.Problem() != "" {
		return nil
	}
	return s.recover(ctx, client, s.cluster.Endpoint())
}

// recover frees the space of what was pruned, and clears etcd's alarm of a full store. Etcd counts the whole file, so a file near the quota is
// rewritten once little of it is in use.
func (s *Space) recover(ctx context.Context, client *clientv3.Client, endpoint string) error {
	alarms, err := client.AlarmList(ctx)
	if err != nil {
		return err
	}
	isFull := false
	for _, alarm := range alarms.Alarms {
		isFull = isFull || alarm.Alarm == etcdserverpb.AlarmType_NOSPACE
	}
	s.mu.Lock()
	used, file := s.used, s.file
	s.mu.Unlock()
	if !isFull && (file < s.quota/10*9 || used > s.quota/2) {
		return nil
	}
	if isFull {
		now, err := client.Get(ctx, "/")
		if err != nil {
			return err
		}
		if _, err := client.Compact(ctx, now.Header.Revision, clientv3.WithCompactPhysical()); err != nil && !errors.Is(err, rpctypes.ErrCompacted) {
			return fmt.Errorf("compacting it: %w", err)
		}
	}
	log.Printf("etcd's store has a file of %d MiB, of which %d are used: it is rewritten", file>>20, used>>20)
	if _, err := client.Defragment(ctx, endpoint); err != nil {
		return fmt.Errorf("rewriting it: %w", err)
	}
	if isFull {
		if _, err := client.AlarmDisarm(ctx, &clientv3.AlarmMember{}); err != nil {
			return fmt.Errorf("clearing its alarm: %w", err)
		}
		log.Print("etcd's store was full, and was made smaller")
	}
	return nil
}

// Compact makes etcd discard the history before a revision, so that the space of pruned messages can be used again.
func (l *Log) Compact(ctx context.Context, revision int64) error {
	_, err := l.cluster.Client().Compact(ctx, revision)
	if err != nil && !errors.Is(err, rpctypes.ErrCompacted) {
		return fmt.Errorf("compacting etcd: %w", err)
	}
	return nil
}
