// Appending to the list: batches that wait at the same time become one transaction. Outside the proof.

package oplog

import (
	"context"
	"errors"
	"fmt"
	"time"

	"gateway/internal/etcd"

	"go.etcd.io/etcd/clientv3"
	"go.etcd.io/etcd/etcdserver/api/v3rpc/rpctypes"
	"go.etcd.io/etcd/mvcc/mvccpb"
	"google.golang.org/grpc/codes"
	"google.golang.org/grpc/status"
)

// Log is the list, as one gateway uses it.
type Log struct {
	Clock *Clock
	Kept  *Kept // the keys of pruned messages
	Space *Space

	// KeepSenders reports whether messages are to name their senders; nil means that they do. If a batch is sent again, a gateway that does not know
	// senders mistakes it for a different batch.
	KeepSenders func() bool

	cluster *etcd.Cluster
	prefix  string
	queue   chan *pending
	owners  *owners
}

// New returns the list whose keys in etcd begin with a prefix. Run must be called for it to append.
func New(cluster *etcd.Cluster, prefix string, clock *Clock, space *Space, maxKept int) *Log {
	l := &Log{Clock: clock, Space: space, cluster: cluster, prefix: prefix, queue: make(chan *pending)}
	l.Kept, l.owners = newKept(cluster, prefix, maxKept), newOwners()
	return l
}

// Cluster returns the etcd cluster that stores the list.
func (l *Log) Cluster() *etcd.Cluster { return l.cluster }

// Path returns the key in etcd of something that is stored beside the list.
func (l *Log) Path(name string) string { return l.prefix + name }

func (l *Log) messages(key string) string { return l.prefix + "m/" + key }

// Condition is what must hold for a batch to be appended.
type Condition struct {
	compare clientv3.Cmp
	touched string // the name that no message may touch, or empty
}

// Unchanged returns the condition that a key of Path was last written at a revision.
func (l *Log) Unchanged(key string, revision int64) Condition {
	return Condition{compare: clientv3.Compare(clientv3.ModRevision(key), "=", revision)}
}

// Untouched returns the condition that no message after a revision touches a name.
func (l *Log) Untouched(name string, revision int64) Condition {
	return Condition{clientv3.Compare(clientv3.ModRevision(l.touched(name)), "<", revision+1), name}
}

func (l *Log) touched(name string) string { return l.prefix + "touched/" + name }

// pending is a batch that is being appended.
type pending struct {
	*Batch
	done     chan struct{}
	hasShare bool  // it is counted among the keys of its owner
	tries    int   // transactions with it that may have been committed
	guard    int64 // the revision of the kept keys at the first of these
	at       Revision
	err      error
}

const (
	maxGroup      = 100     // batches in a transaction
	maxOperations = 128     // of a transaction, for batches and for the names that they touch: etcd's default
	maxGroupBytes = 1 << 20 // of a transaction, unless one batch has more
)

// Append appends a batch, or finds the message that has its key, and returns that message's revision. Errors: *AppliedError,
// *ConflictError, ErrNotDue, *TooLargeError, *FullError, *UnavailableError, *ClockError, *FatalError.
func (l *Log) Append(ctx context.Context, b *Batch) (Revision, error) {
	p := &pending{Batch: b, done: make(chan struct{})}
	select {
	case l.queue <- p:
	case <-ctx.Done():
		return Revision{}, &UnavailableError{}
	}
	select {
	case <-p.done:
		return p.at, p.err
	case <-ctx.Done():
		return Revision{}, &UnavailableError{MayBeApplied: true}
	}
}

// Run appends the batches that wait, those that came together in one transaction, until the context ends.
func (l *Log) Run(ctx context.Context) {
	l.Kept.load(ctx) // so that the first batch need not wait for it
	for next := (*pending)(nil); ; {
		if next == nil {
			select {
			case next = <-l.queue:
			case <-ctx.Done():
				return
			}
		}
		var group []*pending
		group, next = l.gather(next)
		err := l.commit(ctx, group)
		for _, p := range group {
			if err != nil {
				p.err = err
			}
			close(p.done)
		}
	}
}

// gather takes the waiting batches that fit into one transaction, with each key only once, and returns the first batch that does not fit. etcd
// judges all conditions of a transaction before it writes, so a batch does not fit after one that touches a name of the batch's conditions.
func (l *Log) gather(first *pending) (group []*pending, next *pending) {
	keys, touched, size := map[string]bool{}, map[string]bool{}, 0
	for next = first; ; {
		size += next.Size()
		operations := len(group) + 1 + len(touched) + len(next.Touches)
		if len(group) > 0 && (keys[next.Key] || len(group) == maxGroup || operations > maxOperations || size > maxGroupBytes || next.dependsOn(touched)) {
			return group, next
		}
		for _, name := range next.Touches {
			touched[name] = true
		}
		keys[next.Key], group = true, append(group, next)
		select {
		case next = <-l.queue:
		default:
			return group, nil
		}
	}
}

func (b *Batch) dependsOn(touched map[string]bool) bool {
	for _, condition := range b.Conditions {
		if touched[condition.touched] {
			return true
		}
	}
	return false
}

// commit tries a group until it is committed: a member may stop during a transaction, and the keys make it safe to send the transaction again. A
// transaction that a failed leader has is lost without notice, so patience is short at first.
func (l *Log) commit(ctx context.Context, group []*pending) error {
	start, patience := time.Now(), 500*time.Millisecond
	for {
		err := l.tryCommit(ctx, group, patience)
		clock := (*ClockError)(nil)
		switch {
		case err == nil, errors.As(err, &clock), IsFatal(err):
			return err
		case errors.Is(err, errKeptChanged):
			continue
		case err == rpctypes.ErrRequestTooLarge, status.Code(err) == codes.ResourceExhausted:
			return &TooLargeError{}
		case err == rpctypes.ErrNoSpace:
			return &FullError{What: "etcd's store is full"}
		case ctx.Err() != nil, time.Since(start) > 7*time.Second:
			return &UnavailableError{MayBeApplied: true, Err: err}
		case time.Since(start) > 4*time.Second:
			patience = 3 * time.Second
		}
		time.Sleep(20 * time.Millisecond)
	}
}

// errKeptChanged reports that messages were pruned after this gateway last read the kept keys.
var errKeptChanged = errors.New("messages were pruned")

// tryCommit sends one transaction. If its timestamp is within bounds, and no message was pruned whose key this gateway does not know, each batch
// with a new key is put, each in a nested transaction.
func (l *Log) tryCommit(ctx context.Context, group []*pending, patience time.Duration) error {
	kept, err := l.Kept.load(ctx)
	if err != nil {
		return err
	}
	client, ctx, cancel := l.cluster.Ask(ctx, patience)
	defer cancel()
	if err := l.countOwners(ctx, client, kept, group); err != nil {
		return err
	}
	at, keepsSenders := l.Clock.now().UnixMilli(), l.KeepSenders == nil || l.KeepSenders()
	ops := make([]clientv3.Op, 0, len(group)+2)
	for index, p := range group {
		ours := l.messages(p.Key)
		get := []clientv3.Op{clientv3.OpGet(ours)}
		if p.err, err = l.check(kept, p); err != nil {
			return err
		}
		if p.err != nil {
			ops = append(ops, clientv3.OpTxn(nil, get, nil))
			continue
		}
		by := p.Sender
		if !keepsSenders {
			by = Sender{}
		}
		when := []clientv3.Cmp{clientv3.Compare(clientv3.CreateRevision(ours), "=", 0)}
		for _, condition := range p.Conditions {
			when = append(when, condition.compare)
		}
		ops = append(ops, clientv3.OpTxn(when, []clientv3.Op{clientv3.OpPut(ours, p.value(at, index, by))}, get))
	}
	for _, name := range touchedBy(group) {
		ops = append(ops, clientv3.OpPut(l.touched(name), ""))
	}
	clock, isSame := l.Clock.within(at), kept.isCurrent()
	for _, p := range group {
		if p.tries++; p.tries == 1 {
			p.guard = kept.revision
		}
	}
	answer, err := client.Txn(ctx).If(append(clock, isSame)...).Then(ops...).Else(clientv3.OpTxn([]clientv3.Cmp{isSame}, nil, nil)).Commit()
	if err != nil {
		return err
	}
	if !answer.Succeeded {
		for _, p := range group {
			p.tries--
		}
		if !answer.Responses[0].GetResponseTxn().Succeeded {
			l.Kept.forget(kept)
			return errKeptChanged
		}
		return l.Clock.refused()
	}
	for index, p := range group {
		l.settle(p, kept, Revision{answer.Header.Revision, index}, answer.Responses[index].GetResponseTxn().Succeeded,
			answer.Responses[index].GetResponseTxn().Responses[0].GetResponseRange().GetKvs())
	}
	return nil
}

// check returns why a batch cannot be put now, whatever the list has: its key is that of a pruned message, or there is no room. The second error is
// of the kept keys.
func (l *Log) check(kept *keptSet, b *pending) (refused, err error) {
	anonymous := isAnonymous(b.Key)
	if !anonymous {
		if entry, is, err := kept.find(b.Key); err != nil {
			return nil, err
		} else if is {
			return entry.compare(b.Batch), nil
		}
	}
	switch {
	case anonymous && b.tries > 0 && b.guard != kept.revision: // it may have been committed and pruned since then, and its key is not kept
		return &UnavailableError{MayBeApplied: true}, nil
	case b.Internal:
		return nil, nil
	case !anonymous && kept.count() >= l.Kept.max:
		return &FullError{What: fmt.Sprintf("%d idempotency keys are kept, which is -max-kept-keys: send this later, or without a key", kept.count()), Keys: true}, nil
	}
	if err := l.Space.check(); err != nil {
		return err, nil
	}
	if most := l.mostOfOne(); b.isLimited() && !b.hasShare {
		if b.hasShare = l.owners.take(ownerOf(b.Key), most); !b.hasShare {
			return &FullError{What: fmt.Sprintf("this caller has used %d idempotency keys that are still known, half of -max-kept-keys: send this later, or without a key", most), Keys: true}, nil
		}
	}
	return nil, nil
}

// settle records the result for a batch. If the list still has the message, that takes precedence.
func (l *Log) settle(p *pending, kept *keptSet, at Revision, wasPut bool, found []*mvccpb.KeyValue) {
	switch {
	case p.err == nil && wasPut:
		p.at = at
		l.Space.add(p.Size())
	case len(found) > 0:
		p.at, p.err = l.again(p.Batch, found[0])
	case p.err == nil:
		p.err = ErrNotDue
	}
}

// again compares a batch with the message that has its key. It can come from another address.
func (l *Log) again(b *Batch, kv *mvccpb.KeyValue) (Revision, error) {
	m, err := l.decode(kv)
	if err == nil && b.value(m.At, m.Revision.Sub, m.Sender) != string(kv.Value) {
		err = &ConflictError{}
	}
	return m.Revision, err
}

func touchedBy(group []*pending) (names []string) {
	known := map[string]bool{}
	for _, p := range group {
		for _, name := range p.Touches {
			if !known[name] {
				known[name], names = true, append(names, name)
			}
		}
	}
	return names
}
