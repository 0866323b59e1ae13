// Tests of the store's space and of what a kept key takes. Outside the proof.

package oplog

import (
	"context"
	"encoding/binary"
	"errors"
	"fmt"
	"runtime"
	"testing"
	"time"

	"gateway/internal/etcdtest"

	"go.etcd.io/etcd/etcdserver/api/v3rpc/rpctypes"
)

// A store that became full recovers by itself once the data that fill it are only history.
func TestFullStoreRecovers(t *testing.T) {
	const quota = 16 << 20
	ctx, cluster := context.Background(), etcdtest.Start(t, quota)
	value := string(make([]byte, 1<<20))
	var err error
	for n := 0; err == nil; n++ {
		if _, err = cluster.Client().Put(ctx, "x", value); n > 100 {
			t.Fatal("the store does not become full")
		}
	}
	if !errors.Is(err, rpctypes.ErrNoSpace) {
		t.Fatal(err)
	}
	s := NewSpace(cluster, quota)
	if err := s.measure(ctx); err != nil {
		t.Fatal(err)
	}
	if _, err := cluster.Client().Put(ctx, "x", value); err != nil {
		t.Error("after the recovery:", err)
	}
}

// Callers are refused while half of the store is used, and gateways are not.
func TestSpaceIsReserved(t *testing.T) {
	ctx := context.Background()
	l := withList(t, &machine{})
	l.Space = NewSpace(l.cluster, 64<<20)
	l.Space.add(33 << 20)
	full := (*FullError)(nil)
	if _, err := l.Append(ctx, batchOf("a/1", "x")); !errors.As(err, &full) || full.Keys {
		t.Error(err)
	}
	marker := &Batch{Key: "state/1", Marker: MarkerSnapshot, Internal: true}
	if _, err := l.Append(ctx, marker); err != nil {
		t.Error(err)
	}
	if err := l.Space.measure(ctx); err != nil {
		t.Fatal(err)
	}
	if _, err := l.Append(ctx, batchOf("a/1", "x")); !errors.As(err, &full) {
		t.Error("before etcd has counted what was appended:", err)
	}
	for n := 0; n < 2; n++ {
		l.Space.period = time.Time{}
		if err := l.Space.measure(ctx); err != nil {
			t.Fatal(err)
		}
	}
	if _, err := l.Append(ctx, batchOf("a/1", "x")); err != nil {
		t.Error("when there is space:", err)
	}
}

func heap() uint64 {
	var stats runtime.MemStats
	runtime.GC()
	runtime.ReadMemStats(&stats)
	return stats.HeapAlloc
}

// A kept key takes at most 64 bytes of memory, and of etcd's store.
func TestKeptKeysAreSmall(t *testing.T) {
	const count = 300_000
	ctx, cluster := context.Background(), etcdtest.Start(t, 1<<30)
	k := newKept(cluster, "drf/", count)
	before, _, err := cluster.Size(ctx)
	if err != nil {
		t.Fatal(err)
	}
	for first := 0; first < count; first += segmentSize {
		entries := make([]keptEntry, segmentSize)
		for n := range entries {
			entries[n] = keptEntry{key: digestOf([]byte(fmt.Sprint("a/", first+n))), at: 1, message: int64(first + n)}
			binary.BigEndian.PutUint64(entries[n].body[:], uint64(first+n))
		}
		if _, err := cluster.Client().Txn(ctx).Then(k.segmentOps(int64(first), 1, entries)...).Commit(); err != nil {
			t.Fatal(err)
		}
	}
	after, _, err := cluster.Size(ctx)
	if each := float64(after-before) / count; err != nil || each > 64 {
		t.Errorf("%.1f bytes of the store each, %v", each, err)
	}
	start := heap()
	set, err := k.load(ctx)
	if err != nil || set.count() != count {
		t.Fatal(set.count(), err)
	}
	if each := float64(heap()-start) / count; each > 32 {
		t.Errorf("%.1f bytes of memory each", each)
	}
	for _, n := range []int{0, 1, 77_777, count - 1} {
		if e, is, err := set.find(fmt.Sprint("a/", n)); err != nil || !is || e.message != int64(n) {
			t.Errorf("key %d: %v %v %v", n, e, is, err)
		}
	}
	for n := 0; n < 10_000; n++ {
		if _, is, err := set.find(fmt.Sprint("b/", n)); err != nil || is {
			t.Errorf("b/%d was found", n)
		}
	}
	runtime.KeepAlive(set)
}

func BenchmarkNewKey(b *testing.B) {
	set, contents := &keptSet{segments: map[string]*heldSegment{}, file: &segmentFile{}}, map[string]segment{}
	for first := 0; first < 1_000_000; first += segmentSize {
		entries := make([]keptEntry, segmentSize)
		for n := range entries {
			entries[n].key = digestOf([]byte(fmt.Sprint("a/", first+n)))
		}
		name, err := fmt.Sprint(first), error(nil)
		contents[name] = encodeSegment(entries)
		if set.segments[name], err = set.file.add(contents[name]); err != nil {
			b.Fatal(err)
		}
	}
	set.index(&keptSet{}, contents)
	b.ResetTimer()
	for n := 0; n < b.N; n++ {
		if _, is, err := set.find("b/new"); err != nil || is {
			b.Fatal("it was found", err)
		}
	}
}
