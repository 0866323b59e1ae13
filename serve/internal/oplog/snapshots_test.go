// Tests of snapshots in etcd. Outside the proof.

package oplog

import (
	"context"
	"testing"

	"go.etcd.io/etcd/clientv3"
)

func TestSnapshotsInParts(t *testing.T) {
	t.Parallel()
	ctx := context.Background()
	l := withList(t, &machine{})
	state := make([]byte, 3<<20)
	for n, x := 0, uint32(1); n < len(state); n++ { // which does not compress
		x ^= x << 13
		x ^= x >> 17
		x ^= x << 5
		state[n] = byte(x)
	}
	content := Content{State: state, Registry: []byte("{}")}
	s := Snapshot{Position: Position{Messages: 5}, Number: 1, Sha256: digestText(state), Registry: digestText(content.Registry)}
	if isFirst, err := l.Publish(ctx, s, content); !isFirst || err != nil {
		t.Fatal(isFirst, err)
	}
	parts, err := l.cluster.Client().Get(ctx, "drf/parts/", clientv3.WithPrefix())
	if err != nil || len(parts.Kvs) != 4 {
		t.Fatal(len(parts.Kvs), err)
	}
	for _, kv := range parts.Kvs {
		if len(kv.Value) > 1<<20 {
			t.Errorf("%s has %d bytes", kv.Key, len(kv.Value))
		}
	}
	back, err := l.Content(ctx, s)
	if err != nil || string(back.State) != string(state) || string(back.Registry) != "{}" {
		t.Error(len(back.State), err)
	}
	if isFirst, err := l.Publish(ctx, s, content); isFirst || err != nil {
		t.Error("the same snapshot again:", isFirst, err)
	}
	other := s
	other.Messages++
	if _, err := l.Publish(ctx, other, content); !IsFatal(err) {
		t.Error("another snapshot under its number:", err)
	}
	if _, err := l.cluster.Client().Put(ctx, string(parts.Kvs[1].Key), "x"); err != nil {
		t.Fatal(err)
	}
	if _, err := l.Content(ctx, s); !IsFatal(err) {
		t.Error("a damaged part was not noticed:", err)
	}
	if err := l.DropSnapshots(ctx, 2); err != nil {
		t.Fatal(err)
	}
	if left, err := l.cluster.Client().Get(ctx, "drf/", clientv3.WithPrefix(), clientv3.WithKeysOnly()); err != nil || len(left.Kvs) > 2 { // the clock's two
		t.Error(left.Kvs, err)
	}
}
