// The idempotency keys of pruned messages: digests in sorted segments. Segments are dropped as a whole. Outside the proof.

package oplog

import (
	"bytes"
	"context"
	"crypto/sha256"
	"fmt"
	"sync"
	"time"

	"gateway/internal/etcd"

	"go.etcd.io/etcd/clientv3"
)

// keptEntry is the part of a pruned message that is kept.
type keptEntry struct {
	key     [16]byte // digest of its key
	body    [8]byte  // digest of its note and lines
	at      int64
	message int64
	owner   ownerNumber // whose key it is, or 0: an older gateway pruned the message
}

const (
	entrySize    = 40
	segmentSize  = 5000 // entries of a segment, at most
	maxAhead     = time.Minute
	segmentSuite = "kept/"
	loadTime     = 10 * time.Second // for all segments, of which there may be 80 MB
)

func digestOf(text []byte) (digest [16]byte) {
	sum := sha256.Sum256(text)
	copy(digest[:], sum[:])
	return digest
}

func newEntry(m *Message, number int64) keptEntry {
	e := keptEntry{key: digestOf([]byte(m.Key)), at: m.At, message: number, owner: numberOf(ownerOf(m.Key))}
	sum := sha256.New()
	sum.Write(m.Note)
	sum.Write(m.Text)
	copy(e.body[:], sum.Sum(nil))
	return e
}

// compare returns the error for a batch that has the entry's key.
func (e keptEntry) compare(b *Batch) error {
	if digest := digestOf(b.bodyAt(e.at)); !bytes.Equal(digest[:8], e.body[:]) {
		return &ConflictError{e.message}
	}
	return &AppliedError{e.message}
}

// keptSet is all kept keys as of a revision of the guard, a key in etcd that each change of the kept keys writes.
type keptSet struct {
	guard    string
	revision int64
	segments map[string]*heldSegment
	file     *segmentFile
	slots    slots
	entries  int
	owned    map[ownerNumber]int // entries of each owner
}

func (s *keptSet) count() int { return s.entries }

// isCurrent is the condition that no key was added or dropped since then.
func (s *keptSet) isCurrent() clientv3.Cmp {
	return clientv3.Compare(clientv3.ModRevision(s.guard), "=", s.revision)
}

// index makes the set findable: with the slots of an older set, as far as its segments are in this one too, and with the contents of new ones.
func (s *keptSet) index(old *keptSet, new map[string]segment) {
	s.owned = map[ownerNumber]int{}
	stays := map[uint64]bool{}
	for name, one := range s.segments {
		s.entries += one.count
		for owner, count := range one.owned {
			s.owned[owner] += count
		}
		if new[name] == nil {
			for _, block := range one.blocks {
				stays[uint64(block)] = true
			}
		}
	}
	s.slots = newSlots(s.entries)
	for _, slot := range old.slots {
		if slot != 0 && stays[(slot&(1<<placeBits-1)-1)/segmentSize] {
			s.slots.add(slot)
		}
	}
	for name, content := range new {
		for k := 0; k < content.count(); k++ {
			place := uint64(s.segments[name].blocks[k/segmentSize]*segmentSize + k%segmentSize)
			s.slots.add(tagOf(content.entry(k).key)<<placeBits | (place + 1))
		}
	}
}

// find returns the entry of a key. The error is of the file.
func (s *keptSet) find(key string) (found keptEntry, is bool, err error) {
	digest := digestOf([]byte(key))
	s.slots.places(digest, func(place uint64) bool {
		if found, err = s.file.entry(place); err == nil && found.key == digest {
			is = true
		}
		return err == nil && !is
	})
	return found, is, err
}

// Kept is this gateway's copy of the kept keys. A transaction that appends messages fails when the copy is out of date.
type Kept struct {
	cluster *etcd.Cluster
	prefix  string
	max     int
	file    segmentFile

	mu  sync.Mutex
	set *keptSet // nil before it is read
	old *keptSet // whose segments need not be read again
}

func newKept(cluster *etcd.Cluster, prefix string, max int) *Kept {
	return &Kept{cluster: cluster, prefix: prefix, max: max, old: &keptSet{}}
}

// SetFolder sets where the keys are held beside memory. It is called before the list is used.
func (k *Kept) SetFolder(folder string) { k.file.folder = folder }

func (k *Kept) guard() string { return k.prefix + "kept" }

// Count returns the number of kept keys.
func (k *Kept) Count() int {
	k.mu.Lock()
	defer k.mu.Unlock()
	if k.set == nil {
		return k.old.entries
	}
	return k.set.entries
}

// Find returns the number of the pruned message that had a key.
func (k *Kept) Find(ctx context.Context, key string) (message int64, is bool, err error) {
	k.forget(nil)
	set, err := k.load(ctx)
	if err != nil {
		return 0, false, err
	}
	e, is, err := set.find(key)
	return e.message, is, err
}

// forget drops a copy that is out of date or, for nil, whatever copy there is.
func (k *Kept) forget(set *keptSet) {
	k.mu.Lock()
	defer k.mu.Unlock()
	if k.set != nil && (set == nil || k.set == set) {
		k.set, k.old = nil, k.set
	}
}

// load returns the copy, which it reads from etcd if there is none.
func (k *Kept) load(ctx context.Context) (*keptSet, error) {
	k.mu.Lock()
	defer k.mu.Unlock()
	if k.set != nil {
		return k.set, nil
	}
	client, ctx, cancel := k.cluster.Ask(ctx, loadTime)
	defer cancel()
	answer, err := client.Txn(ctx).Then(clientv3.OpGet(k.guard()), clientv3.OpGet(k.prefix+segmentSuite, clientv3.WithPrefix(), clientv3.WithKeysOnly())).Commit()
	if err != nil {
		return nil, err
	}
	set := &keptSet{guard: k.guard(), segments: map[string]*heldSegment{}, file: &k.file}
	if found := answer.Responses[0].GetResponseRange().Kvs; len(found) > 0 {
		set.revision = found[0].ModRevision
	}
	new := map[string]segment{}
	for _, kv := range answer.Responses[1].GetResponseRange().Kvs {
		name := string(kv.Key)
		if known, is := k.old.segments[name]; is { // a segment never changes
			set.segments[name] = known
			continue
		}
		one, err := client.Get(ctx, name, clientv3.WithRev(answer.Header.Revision))
		if err == nil && (len(one.Kvs) == 0 || len(one.Kvs[0].Value)%entrySize != 0) {
			err = &FatalError{fmt.Errorf("the segment of kept keys %s is damaged", name)}
		}
		if err == nil {
			new[name] = one.Kvs[0].Value
			set.segments[name], err = k.file.add(new[name])
		}
		if err != nil {
			for name := range new {
				if held := set.segments[name]; held != nil {
					k.file.remove(held)
				}
			}
			return nil, err
		}
	}
	set.index(k.old, new)
	for name, held := range k.old.segments {
		if set.segments[name] == nil {
			k.file.remove(held)
		}
	}
	k.set, k.old = set, &keptSet{}
	return set, nil
}

// segmentOps returns the operations that add a segment, and let all gateways notice that messages are pruned.
func (k *Kept) segmentOps(first, revision int64, entries []keptEntry) []clientv3.Op {
	if len(entries) == 0 {
		return []clientv3.Op{clientv3.OpPut(k.guard(), "")}
	}
	name := fmt.Sprintf("%s%s%016d-%d", k.prefix, segmentSuite, first, revision)
	return []clientv3.Op{clientv3.OpPut(k.guard(), ""), clientv3.OpPut(name, string(encodeSegment(entries)))}
}

// DropExpired drops segments whose newest key is older than a window.
func (k *Kept) DropExpired(ctx context.Context, now time.Time, window time.Duration) error {
	client, ctx, cancel := k.cluster.Ask(ctx, 10*time.Second)
	defer cancel()
	set, err := k.load(ctx)
	if err != nil {
		return fmt.Errorf("reading the kept keys: %w", err)
	}
	var ops []clientv3.Op
	for name, one := range set.segments {
		if one.newest < now.Add(-window-maxAhead).UnixMilli() && len(ops) < maxGroup {
			ops = append(ops, clientv3.OpDelete(name))
		}
	}
	if len(ops) == 0 {
		return nil
	}
	if _, err := client.Txn(ctx).Then(append(ops, clientv3.OpPut(k.guard(), ""))...).Commit(); err != nil {
		return fmt.Errorf("dropping old keys: %w", err)
	}
	k.forget(set)
	return nil
}
