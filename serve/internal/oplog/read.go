// Reading the list: all messages after a revision, in order and in bounded memory, and then new ones. Outside the proof.

package oplog

import (
	"context"
	"errors"
	"fmt"
	"sort"
	"time"

	"go.etcd.io/etcd/clientv3"
	"go.etcd.io/etcd/mvcc/mvccpb"
)

// errCompacted reports that etcd has discarded the messages that are to be followed.
var errCompacted = errors.New("etcd no longer has the messages")

const (
	indexPage  = 10_000  // keys of the list that are read at once
	chunkBytes = 4 << 20 // of messages that are read at once, about
)

// Load passes to hand, in order, the messages after a revision that the list has at a revision of etcd.
func (l *Log) Load(ctx context.Context, after Revision, revision int64, hand func([]Message) error) error {
	index, err := l.index(ctx, revision)
	if err != nil {
		return err
	}
	first := sort.Search(len(index), func(k int) bool { return index[k].ModRevision >= after.Main })
	return l.fetch(ctx, index[first:], revision, func(messages []Message) error {
		for len(messages) > 0 && !after.Before(messages[0].Revision) {
			messages = messages[1:]
		}
		if len(messages) == 0 {
			return nil
		}
		return hand(messages)
	})
}

// index returns the keys of all messages, without their values, in order of their transactions.
func (l *Log) index(ctx context.Context, revision int64) (index []*mvccpb.KeyValue, err error) {
	from, end := l.messages(""), clientv3.GetPrefixRangeEnd(l.messages(""))
	for {
		page, err := l.cluster.Client().Get(ctx, from, clientv3.WithRange(end), clientv3.WithLimit(indexPage), clientv3.WithRev(revision), clientv3.WithKeysOnly(), clientv3.WithSerializable())
		if err != nil {
			return nil, fmt.Errorf("reading the list: %w", err)
		}
		index = append(index, page.Kvs...)
		if !page.More {
			break
		}
		from = string(page.Kvs[len(page.Kvs)-1].Key) + "\x00"
	}
	sort.Slice(index, func(i, j int) bool { return index[i].ModRevision < index[j].ModRevision })
	return index, nil
}

// fetch passes the messages of an index to hand, whole transactions at a time.
func (l *Log) fetch(ctx context.Context, index []*mvccpb.KeyValue, revision int64, hand func([]Message) error) error {
	for size := maxGroup; len(index) > 0; {
		count := 0
		for count < len(index) && (count == 0 || index[count].ModRevision == index[count-1].ModRevision || count < size) {
			count++
		}
		for count > maxGroup { // a transaction has maxGroup messages, so a whole one remains
			last := index[count-1].ModRevision
			for count > 0 && index[count-1].ModRevision == last {
				count--
			}
		}
		ops := make([]clientv3.Op, count)
		for k := range ops {
			ops[k] = clientv3.OpGet(string(index[k].Key), clientv3.WithRev(revision), clientv3.WithSerializable())
		}
		answer, err := l.cluster.Client().Txn(ctx).Then(ops...).Commit()
		if err != nil {
			return fmt.Errorf("reading the list: %w", err)
		}
		messages, bytes := make([]Message, 0, count), 1
		for k, response := range answer.Responses {
			found := response.GetResponseRange().Kvs
			if len(found) == 0 {
				return &FatalError{fmt.Errorf("the message %s is not in the list at revision %d", index[k].Key, revision)}
			}
			m, err := l.decode(found[0])
			if err != nil {
				return err
			}
			messages, bytes = append(messages, m), bytes+len(found[0].Value)
		}
		if err := hand(inOrder(messages)); err != nil {
			return err
		}
		index = index[count:]
		size = min(maxGroup, 1+chunkBytes*count/bytes)
	}
	return nil
}

// Follow passes the messages after a revision to hand as they arrive, in order. When a member is left, the following messages are read from the
// next one.
func (l *Log) Follow(ctx context.Context, after int64, hand func([]Message) error) error {
	for ctx.Err() == nil {
		if err := l.watch(ctx, &after, hand); err != nil {
			return err
		}
		time.Sleep(20 * time.Millisecond)
	}
	return ctx.Err()
}

// watch follows the list at one member. It returns an error only if another watch would not help.
func (l *Log) watch(ctx context.Context, after *int64, hand func([]Message) error) error {
	client, ctx, cancel := l.cluster.Ask(ctx, 24*time.Hour)
	defer cancel()
	for answer := range client.Watch(ctx, l.messages(""), clientv3.WithPrefix(), clientv3.WithRev(*after+1), clientv3.WithFilterDelete()) {
		if answer.CompactRevision > 0 {
			return fmt.Errorf("following the list at revision %d: %w", *after, errCompacted)
		}
		if answer.Err() != nil {
			return nil
		}
		var messages []Message
		for _, event := range answer.Events {
			m, err := l.decode(event.Kv)
			if err != nil {
				return err
			}
			messages, *after = append(messages, m), m.Revision.Main
			l.cluster.Count(len(event.Kv.Key) + len(event.Kv.Value))
		}
		if len(messages) == 0 {
			continue
		}
		if err := hand(inOrder(messages)); err != nil { // a watch reports a transaction whole
			return err
		}
	}
	return nil
}

// inOrder sorts messages of whole transactions, and marks the last of each.
func inOrder(messages []Message) []Message {
	sort.Slice(messages, func(i, j int) bool { return messages[i].Revision.Before(messages[j].Revision) })
	for k := range messages {
		messages[k].Last = k+1 == len(messages) || messages[k+1].Revision.Main != messages[k].Revision.Main
	}
	return messages
}
