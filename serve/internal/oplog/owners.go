// The number of idempotency keys that each owner has: one caller must not use up all the keys that can be kept. Outside the proof.

package oplog

import (
	"context"
	"hash/fnv"
	"strings"
	"sync"
	"time"

	"go.etcd.io/etcd/clientv3"
)

// ownerNumber represents an owner's name in a kept entry, where it shares 8 bytes with the number of the message. Two names have the same number in
// one of 524,287 cases; then they share a limit.
type ownerNumber uint32

const (
	messageBits = 44 // 10,000 messages a second for 55 years
	ownerBits   = 63 - messageBits
)

// ownerOf returns the OWNER of a key OWNER/KEY. No owner has a slash.
func ownerOf(key string) string {
	owner, _, _ := strings.Cut(key, "/")
	return owner
}

// numberOf returns an owner's number, which is never 0.
func numberOf(owner string) ownerNumber {
	sum := fnv.New64a()
	sum.Write([]byte(owner))
	return ownerNumber(sum.Sum64()%(1<<ownerBits-1)) + 1
}

// isLimited reports whether a batch needs a key of its owner's share.
func (b *Batch) isLimited() bool { return b.Limited && !b.Internal && !isAnonymous(b.Key) }

// mostOfOne returns how many keys one owner can have, in the list and kept.
func (l *Log) mostOfOne() int { return (l.Kept.max + 1) / 2 }

const (
	ownerFresh   = 10 * time.Second // after which an owner's keys are counted again
	refusedFresh = time.Second      // while the owner is refused
)

// owners is what this gateway knows of the owners' keys. Other gateways append too, so it counts again before it has appended a quarter of what an
// owner has left. Transactions that run at the same time do not count each other's keys, so an owner can have a few hundred more.
type owners struct {
	mu     sync.Mutex
	byName map[string]*ownedKeys
}

type ownedKeys struct {
	keys     int       // in the list and kept, when they were counted
	counted  time.Time // when that was
	revision int64     // of the kept keys then
	added    int       // here since then
}

func newOwners() *owners { return &owners{byName: map[string]*ownedKeys{}} }

// due reports whether an owner's keys are to be counted before more are added. They are also counted again if the kept keys changed, because
// messages may have left the list.
func (o *owners) due(name string, more, most int, revision int64, now time.Time) bool {
	o.mu.Lock()
	defer o.mu.Unlock()
	known := o.byName[name]
	if known == nil || known.revision != revision {
		return true
	}
	age := now.Sub(known.counted)
	if known.keys+known.added >= most {
		return age >= refusedFresh
	}
	return age >= ownerFresh || known.added+more > (most-known.keys)/4
}

// set records how many keys an owner has.
func (o *owners) set(name string, keys int, revision int64, now time.Time) {
	o.mu.Lock()
	defer o.mu.Unlock()
	o.byName[name] = &ownedKeys{keys: keys, counted: now, revision: revision}
}

// take adds a key of an owner, unless the owner has as many as it can have.
func (o *owners) take(name string, most int) bool {
	o.mu.Lock()
	defer o.mu.Unlock()
	known := o.byName[name]
	if known == nil || known.keys+known.added >= most {
		return false
	}
	known.added++
	return true
}

// countOwners counts the keys of the owners of a group where that is due. Etcd counts those in the list.
func (l *Log) countOwners(ctx context.Context, client *clientv3.Client, kept *keptSet, group []*pending) error {
	more := map[string]int{}
	for _, p := range group {
		if p.isLimited() {
			more[ownerOf(p.Key)]++
		}
	}
	var names []string
	var ops []clientv3.Op
	now := time.Now()
	for name, some := range more {
		if l.owners.due(name, some, l.mostOfOne(), kept.revision, now) {
			from, end := l.messages(name+"/!"), l.messages(name+"0") // without anonymous keys, which begin with a space; 0 comes after the slash
			names, ops = append(names, name), append(ops, clientv3.OpGet(from, clientv3.WithRange(end), clientv3.WithCountOnly()))
		}
	}
	if len(ops) == 0 {
		return nil
	}
	answer, err := client.Txn(ctx).Then(ops...).Commit()
	if err != nil {
		return err
	}
	for k, name := range names {
		l.owners.set(name, int(answer.Responses[k].GetResponseRange().Count)+kept.owned[numberOf(name)], kept.revision, now)
	}
	return nil
}
