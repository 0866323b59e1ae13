// How many entries of raft's log the embedded member holds in memory. Outside the proof.

package etcd

import (
	"context"
	"time"

	"go.etcd.io/etcd/embed"
)

const (
	mostEntries  = 1_000    // applied entries after which a member writes a snapshot of its own, and those that it then still holds in memory
	leastEntries = 16       // of large ones
	entryBytes   = 2 << 20  // that the entries until a snapshot have, about
	catchUpBytes = 32 << 20 // and those that are held after it, if other members may need them: one that lacks more gets the whole store
	entryPeriod  = 250 * time.Millisecond
)

// Count is told the size of what was appended. From that, the embedded member knows how large entries are.
func (c *Cluster) Count(bytes int) { c.counted.Add(int64(bytes)) }

// boundEntries adapts the number of entries in memory to their size, until the context ends: an entry is a group of batches, of up to 4 MiB.
func (c *Cluster) boundEntries(ctx context.Context, server *embed.Etcd, isAlone bool) {
	catchUp := float64(catchUpBytes)
	if isAlone {
		catchUp = entryBytes
	}
	average, before := 0.0, server.Server.AppliedIndex()
	for ticks := time.NewTicker(entryPeriod); ; {
		select {
		case <-ticks.C:
		case <-ctx.Done():
			ticks.Stop()
			return
		}
		now := server.Server.AppliedIndex()
		if now > before {
			average = weigh(average, float64(c.counted.Swap(0))/float64(now-before))
			setEntries(server, entriesOf(average, entryBytes), entriesOf(average, catchUp))
		}
		before = now
	}
}

// weigh returns the average size of entries after some more. Large ones count at once, and are forgotten slowly.
func weigh(average, more float64) float64 {
	if more > average {
		return more
	}
	return average*0.9 + more*0.1
}

// entriesOf returns how many entries of an average size have some bytes.
func entriesOf(average, bytes float64) uint64 {
	switch most := bytes / (average + 1); {
	case most < leastEntries:
		return leastEntries
	case most > mostEntries:
		return mostEntries
	default:
		return uint64(most)
	}
}

// setEntries sets the number of entries until a snapshot, and of those that are held after it, for which etcd 3.4 has no call. The server reads it before each snapshot; when it starts, a goroutine
// copies the whole configuration without using it, which is why the race detector must not look.
//
//go:norace
func setEntries(server *embed.Etcd, count, catchUp uint64) {
	server.Server.Cfg.SnapshotCount, server.Server.Cfg.SnapshotCatchUpEntries = count, catchUp
}
