// Conversion of the keys in etcd from the older format. It is done once, after a backup. Outside the proof.

package oplog

import (
	"context"
	"encoding/hex"
	"encoding/json"
	"errors"
	"fmt"
	"log"
	"os"
	"path/filepath"
	"strings"
	"time"

	"gateway/internal/disk"

	"go.etcd.io/etcd/clientv3"
)

// Older gateways kept each snapshot, with its text, under `s/`, each key of a pruned message under `k/`, and their clock under `clock`. The key
// that names the new format is under `s/` too, where older gateways cannot read it: one that is started by mistake never becomes ready.
const (
	formatKey  = "s/format"
	formatText = "2: this list needs a newer gateway"
	oldPause   = 3 * time.Second // an older gateway renews its clock twice a second
	backupName = "backup-1"
)

// ErrOlderGateway reports that another gateway is too old to share a list with this one.
var ErrOlderGateway = errors.New("a gateway of an older version runs: stop all of them before a newer one starts")

// Prepare brings the keys in etcd into this format: it marks a new list, and converts an older one after writing a backup to a folder. It returns
// ErrOlderGateway while an older gateway runs.
func (l *Log) Prepare(ctx context.Context, folder string, alone bool) error {
	for {
		isCurrent, isOld, err := l.format(ctx)
		if err != nil || isCurrent {
			return err
		}
		if isOld && !alone {
			if err := l.waitForOlder(ctx); err != nil {
				return err
			}
		}
		lease, err := l.cluster.Client().Grant(ctx, 60)
		if err != nil {
			return err
		}
		lock := clientv3.OpPut(l.prefix+"converting", "", clientv3.WithLease(lease.ID))
		answer, err := l.cluster.Client().Txn(ctx).If(clientv3.Compare(clientv3.CreateRevision(l.prefix+"converting"), "=", 0)).Then(lock).Commit()
		if err != nil {
			return err
		}
		if answer.Succeeded {
			err := l.prepareLocked(ctx, folder, isOld, lease.ID)
			l.cluster.Client().Revoke(ctx, lease.ID)
			return err
		}
		l.cluster.Client().Revoke(ctx, lease.ID)
		select { // another gateway does it
		case <-time.After(time.Second):
		case <-ctx.Done():
			return ctx.Err()
		}
	}
}

// format reports whether the keys are of this format, or of the one before.
func (l *Log) format(ctx context.Context) (isCurrent, isOld bool, err error) {
	exists := func(key string, options ...clientv3.OpOption) clientv3.Op {
		return clientv3.OpGet(l.prefix+key, append(options, clientv3.WithLimit(1), clientv3.WithKeysOnly())...)
	}
	answer, err := l.cluster.Client().Txn(ctx).Then(exists(formatKey), exists("m/", clientv3.WithPrefix()), exists("s/", clientv3.WithPrefix()),
		exists("k/", clientv3.WithPrefix()), exists("clock")).Commit()
	if err != nil {
		return false, false, err
	}
	for k, response := range answer.Responses {
		if len(response.GetResponseRange().Kvs) > 0 {
			isCurrent, isOld = isCurrent || k == 0, true
		}
	}
	return isCurrent, isOld, nil
}

// waitForOlder returns ErrOlderGateway if the older gateways' clock advances.
func (l *Log) waitForOlder(ctx context.Context) error {
	revision := int64(-1)
	for start := time.Now(); time.Since(start) < oldPause; {
		answer, err := l.cluster.Client().Get(ctx, l.prefix+"clock")
		if err != nil {
			return err
		}
		if len(answer.Kvs) == 0 {
			return nil
		}
		if revision >= 0 && answer.Kvs[0].ModRevision != revision {
			return ErrOlderGateway
		}
		revision = answer.Kvs[0].ModRevision
		select {
		case <-time.After(200 * time.Millisecond):
		case <-ctx.Done():
			return ctx.Err()
		}
	}
	return nil
}

func (l *Log) prepareLocked(ctx context.Context, folder string, isOld bool, lease clientv3.LeaseID) error {
	ctx, cancel := context.WithCancel(ctx)
	defer cancel()
	alive, err := l.cluster.Client().KeepAlive(ctx, lease)
	if err != nil {
		return err
	}
	go func() {
		for range alive { // until the context ends
		}
	}()
	if isOld {
		log.Print("the list is of an older gateway: it is converted")
		for _, step := range []func() error{
			func() error { return l.backup(ctx, folder) },
			func() error { return l.convertKept(ctx) },
			func() error { return l.convertSnapshots(ctx) },
			func() error { return l.convertClock(ctx) },
			func() error { return l.dropOld(ctx) },
		} {
			if err := step(); err != nil {
				return fmt.Errorf("converting the list: %w", err)
			}
		}
		log.Printf("the list is converted; %s has a backup of the old list", filepath.Join(folder, backupName))
	}
	_, err = l.cluster.Client().Put(ctx, l.prefix+formatKey, formatText)
	return err
}

// backup writes etcd's whole store, as `etcdctl snapshot save` does, and the small files of the data folder.
func (l *Log) backup(ctx context.Context, folder string) error {
	to := filepath.Join(folder, backupName)
	if err := os.MkdirAll(to, 0o700); err != nil {
		return err
	}
	part, err := os.OpenFile(filepath.Join(to, "etcd.snapshot.part"), os.O_WRONLY|os.O_CREATE|os.O_TRUNC, 0o600)
	if err != nil {
		return err
	}
	if err = l.cluster.WriteSnapshot(ctx, part); err == nil {
		err = part.Sync()
	}
	if closed := part.Close(); err == nil {
		err = closed
	}
	if err == nil {
		err = os.Rename(part.Name(), strings.TrimSuffix(part.Name(), ".part"))
	}
	if err != nil {
		return err
	}
	files, _ := filepath.Glob(filepath.Join(folder, "state.*"))
	for _, path := range append(files, filepath.Join(folder, "answered"), filepath.Join(folder, "tokens.json")) {
		text, err := os.ReadFile(path)
		if errors.Is(err, os.ErrNotExist) {
			continue
		}
		if err == nil {
			err = disk.WriteFile(filepath.Join(to, filepath.Base(path)), text)
		}
		if err != nil {
			return err
		}
	}
	return nil
}

// convertKept puts the kept keys into segments.
func (l *Log) convertKept(ctx context.Context) error {
	prefix := l.prefix + "k/"
	for from, number := prefix, int64(0); ; number++ {
		page, err := l.cluster.Client().Get(ctx, from, clientv3.WithRange(clientv3.GetPrefixRangeEnd(prefix)), clientv3.WithLimit(segmentSize))
		if err != nil {
			return err
		}
		var entries []keptEntry
		for _, kv := range page.Kvs {
			var old struct {
				Message, At int64
				Sha256      string
			}
			err := json.Unmarshal(kv.Value, &old)
			sum, broken := hex.DecodeString(old.Sha256)
			if err != nil || broken != nil || len(sum) < 8 {
				return &FatalError{fmt.Errorf("the kept key %s is damaged", kv.Key)}
			}
			key := kv.Key[len(prefix):]
			e := keptEntry{key: digestOf(key), at: old.At, message: old.Message, owner: numberOf(ownerOf(string(key)))}
			copy(e.body[:], sum)
			entries = append(entries, e)
		}
		if len(entries) > 0 {
			if _, err := l.cluster.Client().Txn(ctx).Then(l.Kept.segmentOps(number, 0, entries)...).Commit(); err != nil {
				return err
			}
			from = string(page.Kvs[len(page.Kvs)-1].Key) + "\x00"
		}
		if !page.More {
			return nil
		}
	}
}

// convertSnapshots splits the snapshots into parts.
func (l *Log) convertSnapshots(ctx context.Context) error {
	answer, err := l.cluster.Client().Get(ctx, l.prefix+"s/", clientv3.WithPrefix())
	if err != nil {
		return err
	}
	for _, kv := range answer.Kvs {
		var old struct {
			Snapshot
			Text []byte `json:"text"`
		}
		if err := json.Unmarshal(kv.Value, &old); err != nil {
			return &FatalError{fmt.Errorf("the snapshot %s is damaged: %w", kv.Key, err)}
		}
		state, err := gunzip(old.Text)
		if err != nil || disk.Digest(state) != old.Sha256 {
			return &FatalError{fmt.Errorf("the snapshot %s is damaged: its digest is wrong (%v)", kv.Key, err)}
		}
		if _, err := l.Publish(ctx, old.Snapshot, Content{State: state}); err != nil {
			return err
		}
	}
	return nil
}

func (l *Log) convertClock(ctx context.Context) error {
	answer, err := l.cluster.Client().Get(ctx, l.prefix+"clock")
	if err == nil && len(answer.Kvs) > 0 {
		_, err = l.cluster.Client().Put(ctx, l.Clock.key(), string(answer.Kvs[0].Value))
	}
	return err
}

// dropOld removes the older keys. Sessions start again with the next heartbeats.
func (l *Log) dropOld(ctx context.Context) error {
	for _, old := range []string{"k/", "s/", "watched/", "alive/"} {
		if _, err := l.cluster.Client().Delete(ctx, l.prefix+old, clientv3.WithPrefix()); err != nil {
			return err
		}
	}
	_, err := l.cluster.Client().Delete(ctx, l.prefix+"clock")
	return err
}
