// Tests of segments of kept keys. Outside the proof.

package oplog

import (
	"fmt"
	"testing"
)

// A set that is made from an older one finds the keys of the segments that stay and of those that came, and none of those that were dropped.
func TestSegmentsComeAndGo(t *testing.T) {
	file, old := &segmentFile{folder: t.TempDir()}, &keptSet{}
	keys := map[string]int{} // of each segment
	for step := 0; step < 12; step++ {
		set, new := &keptSet{segments: map[string]*heldSegment{}, file: file}, map[string]segment{}
		for name, held := range old.segments {
			if name != fmt.Sprint("s", step-5) {
				set.segments[name] = held
			}
		}
		name, size := fmt.Sprint("s", step), []int{1, 10, segmentSize, 2*segmentSize + 3}[step%4]
		entries := make([]keptEntry, size)
		for k := range entries {
			entries[k] = keptEntry{key: digestOf([]byte(fmt.Sprint(name, "/", k))), at: int64(step), message: int64(k), owner: ownerNumber(step + 1)}
		}
		held, err := file.add(encodeSegment(entries))
		if err != nil {
			t.Fatal(err)
		}
		set.segments[name], new[name], keys[name] = held, encodeSegment(entries), size
		set.index(old, new)
		for name, held := range old.segments {
			if set.segments[name] == nil {
				file.remove(held)
			}
		}
		total := 0
		for name, size := range keys {
			stays := set.segments[name] != nil
			if stays {
				total += size
			}
			for _, k := range []int{0, size / 2, size - 1} {
				e, is, err := set.find(fmt.Sprint(name, "/", k))
				if err != nil || is != stays || is && e.message != int64(k) {
					t.Fatalf("step %d: %s/%d: %+v %v %v", step, name, k, e, is, err)
				}
			}
		}
		if set.count() != total || held.newest != int64(step) || set.owned[ownerNumber(step+1)] != size {
			t.Errorf("step %d: %d entries, want %d: %+v", step, set.count(), total, held)
		}
		old = set
	}
	if file.blocks > 20 {
		t.Errorf("%d blocks: those of dropped segments are not used again", file.blocks)
	}
}
