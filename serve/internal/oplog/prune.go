// Pruning: messages that a snapshot contains leave the list, and their keys are kept for a while. Outside the proof.

package oplog

import (
	"context"
	"fmt"
	"sort"

	"go.etcd.io/etcd/clientv3"
	"go.etcd.io/etcd/mvcc/mvccpb"
)

// Prune removes the messages up to a position, and keeps their keys.
func (l *Log) Prune(ctx context.Context, to Position) error {
	answer, err := l.cluster.Client().Get(ctx, l.Kept.guard())
	if err != nil {
		return fmt.Errorf("pruning: %w", err)
	}
	revision := answer.Header.Revision
	index, err := l.index(ctx, revision)
	if err != nil {
		return err
	}
	start := sort.Search(len(index), func(k int) bool { return index[k].ModRevision >= to.Main })
	end := sort.Search(len(index), func(k int) bool { return index[k].ModRevision > to.Main })
	after := 0 // messages of the position's own transaction that come after it
	err = l.fetch(ctx, index[start:end], revision, func(messages []Message) error {
		for _, m := range messages {
			if to.Revision.Before(m.Revision) {
				after++
			}
		}
		return nil
	})
	if err != nil {
		return err
	}
	number := to.Messages - int64(end-after)
	var entries []keptEntry
	var keys []string
	flush := func(first int64) error {
		if len(entries) > 0 || len(keys) > 0 {
			if _, err := l.cluster.Client().Txn(ctx).Then(l.Kept.segmentOps(first, revision, entries)...).Commit(); err != nil {
				return fmt.Errorf("keeping the keys of pruned messages: %w", err)
			}
		}
		for len(keys) > 0 {
			some := min(maxGroup, len(keys))
			ops := make([]clientv3.Op, some)
			for k := range ops {
				ops[k] = clientv3.OpDelete(keys[k])
			}
			if _, err := l.cluster.Client().Txn(ctx).Then(ops...).Commit(); err != nil {
				return fmt.Errorf("pruning: %w", err)
			}
			keys = keys[some:]
		}
		entries, keys = nil, nil
		return nil
	}
	flushMany := func() error {
		if len(keys) < segmentSize-maxGroup {
			return nil
		}
		return flush(number)
	}
	for rest := index[:end]; len(rest) > 0; {
		count, isRead := l.nextToPrune(rest, to.Main)
		if isRead {
			err = l.fetch(ctx, rest[:count], revision, func(messages []Message) error {
				for k := range messages {
					m := &messages[k]
					if to.Revision.Before(m.Revision) {
						continue
					}
					number++
					if keys = append(keys, l.messages(m.Key)); !isAnonymous(m.Key) {
						entries = append(entries, newEntry(m, number))
					}
				}
				return flushMany()
			})
		} else {
			for _, kv := range rest[:count] {
				number, keys = number+1, append(keys, string(kv.Key))
			}
			err = flushMany()
		}
		if err != nil {
			return err
		}
		rest = rest[count:]
	}
	return flush(number)
}

// nextToPrune returns how many messages at the start of an index are pruned in the same way: read, or not. Transactions whose messages all have no
// key of their caller need not be read, as nothing of them is kept. The last one is, because it may have messages that are not pruned.
func (l *Log) nextToPrune(index []*mvccpb.KeyValue, last int64) (count int, isRead bool) {
	for count < len(index) && count < segmentSize-maxGroup {
		end, isNext := count, index[count].ModRevision == last
		for end < len(index) && index[end].ModRevision == index[count].ModRevision {
			isNext = isNext || !isAnonymous(string(index[end].Key[len(l.prefix):]))
			end++
		}
		if count > 0 && isNext != isRead {
			break
		}
		count, isRead = end, isNext
	}
	return count, isRead
}
