// Snapshots in etcd: the states of the allocator and the registry at a position, in parts of at most 1 MiB. Outside the proof.

package oplog

import (
	"bytes"
	"compress/gzip"
	"context"
	"encoding/json"
	"fmt"
	"io"
	"reflect"

	"gateway/internal/disk"

	"go.etcd.io/etcd/clientv3"
)

const partSize = 1 << 20

// Snapshot describes a snapshot. Number 0 is the beginning, which has no content.
type Snapshot struct {
	Position
	Number   int    `json:"number"`
	At       int64  `json:"at"`
	Epoch    int    `json:"epoch"`
	Since    int64  `json:"since"`    // lines before the epoch
	Sum      []byte `json:"sum"`      // the journal's digest so far, in a form that can be continued
	Sha256   string `json:"sha256"`   // of the allocator's state
	Registry string `json:"registry"` // digest of the registry's state, or empty where the snapshot has none
}

// Content is the content of a snapshot: the allocator's state as `drf save` writes it, and the registry's state.
type Content struct{ State, Registry []byte }

// stored is a description in etcd.
type stored struct {
	Snapshot
	Parts  int    `json:"parts"`
	Sizes  [2]int `json:"sizes"` // of the contents
	Packed string `json:"packed"`
}

func (l *Log) snapshots(number int) string { return fmt.Sprintf("%ssnapshots/%08d", l.prefix, number) }

func (l *Log) part(number int, packed string, part int) string {
	return fmt.Sprintf("%sparts/%08d/%.16s/%04d", l.prefix, number, packed, part)
}

// Snapshots returns the snapshots in etcd, in order, and a revision of etcd at which these are all.
func (l *Log) Snapshots(ctx context.Context) ([]Snapshot, int64, error) {
	found, revision, err := l.stored(ctx)
	if err != nil {
		return nil, 0, err
	}
	snapshots := make([]Snapshot, len(found))
	for k := range found {
		snapshots[k] = found[k].Snapshot
	}
	return snapshots, revision, nil
}

func (l *Log) stored(ctx context.Context) ([]stored, int64, error) {
	answer, err := l.cluster.Client().Get(ctx, l.prefix+"snapshots/", clientv3.WithPrefix())
	if err != nil {
		return nil, 0, fmt.Errorf("reading the snapshots in etcd: %w", err)
	}
	found := make([]stored, len(answer.Kvs))
	for k, kv := range answer.Kvs {
		if err := json.Unmarshal(kv.Value, &found[k]); err != nil {
			return nil, 0, &FatalError{fmt.Errorf("the snapshot %s in etcd is damaged: %w", kv.Key, err)}
		}
	}
	return found, answer.Header.Revision, nil
}

// Content reads the content of a snapshot from etcd. A *FatalError reports that its digest is wrong.
func (l *Log) Content(ctx context.Context, s Snapshot) (Content, error) {
	found, revision, err := l.stored(ctx)
	if err != nil {
		return Content{}, err
	}
	for _, one := range found {
		if one.Number == s.Number {
			return l.unpack(ctx, one, revision)
		}
	}
	return Content{}, fmt.Errorf("snapshot %d is no longer in etcd", s.Number)
}

func (l *Log) unpack(ctx context.Context, s stored, revision int64) (c Content, err error) {
	var packed []byte
	for part := 0; part < s.Parts; part++ {
		answer, err := l.cluster.Client().Get(ctx, l.part(s.Number, s.Packed, part), clientv3.WithRev(revision))
		if err != nil {
			return c, fmt.Errorf("reading snapshot %d: %w", s.Number, err)
		}
		if len(answer.Kvs) > 0 {
			packed = append(packed, answer.Kvs[0].Value...)
		}
	}
	text, err := gunzip(packed)
	if err == nil && len(text) == s.Sizes[0]+s.Sizes[1] {
		c = Content{text[:s.Sizes[0]], text[s.Sizes[0]:]}
	}
	if err != nil || disk.Digest(c.State) != s.Sha256 || s.Registry != "" && disk.Digest(c.Registry) != s.Registry {
		return c, &FatalError{fmt.Errorf("snapshot %d in etcd is damaged: its digest is wrong (%v)", s.Number, err)}
	}
	return c, nil
}

func gunzip(packed []byte) ([]byte, error) {
	in, err := gzip.NewReader(bytes.NewReader(packed))
	if err != nil {
		return nil, err
	}
	return io.ReadAll(in)
}

// Publish puts a snapshot into etcd, or compares it with the one that another gateway put under its number, and reports whether it was the
// first. A *FatalError reports that the two differ.
func (l *Log) Publish(ctx context.Context, s Snapshot, c Content) (isFirst bool, err error) {
	var packed bytes.Buffer
	out := gzip.NewWriter(&packed)
	out.Write(c.State)
	out.Write(c.Registry)
	out.Close()
	whole := stored{s, 0, [2]int{len(c.State), len(c.Registry)}, disk.Digest(packed.Bytes())}
	key, client := l.snapshots(s.Number), l.cluster.Client()
	there, err := client.Get(ctx, key)
	if err == nil && len(there.Kvs) == 0 {
		for rest := packed.Bytes(); len(rest) > 0 && err == nil; whole.Parts++ {
			size := min(partSize, len(rest))
			_, err = client.Put(ctx, l.part(s.Number, whole.Packed, whole.Parts), string(rest[:size]))
			rest = rest[size:]
		}
	}
	if err != nil {
		return false, fmt.Errorf("publishing snapshot %d: %w", s.Number, err)
	}
	value, _ := json.Marshal(whole)
	answer, err := client.Txn(ctx).If(clientv3.Compare(clientv3.CreateRevision(key), "=", 0)).
		Then(clientv3.OpPut(key, string(value))).Else(clientv3.OpGet(key)).Commit()
	if err != nil {
		return false, fmt.Errorf("publishing snapshot %d: %w", s.Number, err)
	}
	if answer.Succeeded {
		return true, nil
	}
	theirs := stored{}
	err = json.Unmarshal(answer.Responses[0].GetResponseRange().Kvs[0].Value, &theirs)
	if theirs.Registry == "" { // it was converted, and has no registry
		s.Registry = ""
	}
	if err != nil || !reflect.DeepEqual(theirs.Snapshot, s) {
		return false, &FatalError{fmt.Errorf("snapshot %d differs from another gateway's: %+v here, %+v there (%v)", s.Number, s, theirs.Snapshot, err)}
	}
	return false, nil
}

// DropSnapshots removes the snapshots below a number, and parts that nothing refers to.
func (l *Log) DropSnapshots(ctx context.Context, number int) error {
	client := l.cluster.Client()
	_, err := client.Delete(ctx, l.prefix+"snapshots/", clientv3.WithRange(l.snapshots(number)))
	if err == nil {
		_, err = client.Delete(ctx, l.prefix+"parts/", clientv3.WithRange(fmt.Sprintf("%sparts/%08d/", l.prefix, number)))
	}
	if err != nil {
		return fmt.Errorf("removing old snapshots: %w", err)
	}
	return nil
}
