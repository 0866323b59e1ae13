// Segments of kept keys as a gateway holds them: the entries in a file, and in memory 8 bytes for each, to find it. Outside the proof.

package oplog

import (
	"bytes"
	"encoding/binary"
	"fmt"
	"os"
	"sort"
	"sync"
)

// segment is an encoded segment.
type segment []byte

// encodeSegment sorts entries by their digests and writes them one after another.
func encodeSegment(entries []keptEntry) segment {
	sort.Slice(entries, func(i, j int) bool { return bytes.Compare(entries[i].key[:], entries[j].key[:]) < 0 })
	text := make(segment, 0, len(entries)*entrySize)
	for _, e := range entries {
		text = append(append(text, e.key[:]...), e.body[:]...)
		text = binary.BigEndian.AppendUint64(text, uint64(e.at))
		text = binary.BigEndian.AppendUint64(text, uint64(e.owner)<<messageBits|uint64(e.message))
	}
	return text
}

func (s segment) count() int { return len(s) / entrySize }

func (s segment) entry(k int) (e keptEntry) {
	text := s[k*entrySize : (k+1)*entrySize]
	copy(e.key[:], text)
	copy(e.body[:], text[16:])
	last := binary.BigEndian.Uint64(text[32:])
	e.at, e.message, e.owner = int64(binary.BigEndian.Uint64(text[24:])), int64(last&(1<<messageBits-1)), ownerNumber(last>>messageBits)
	return e
}

// heldSegment is what a gateway holds of a segment in memory.
type heldSegment struct {
	blocks []int // of the file
	count  int
	newest int64 // the latest timestamp
	owned  map[ownerNumber]int
}

// segmentFile has the entries of segments, in blocks of segmentSize. Its file has no name, so it ends with the process. A block that is reused
// while somebody looks for an entry gives another one, with another digest: the set of keys is out of date then, as its transaction notices.
type segmentFile struct {
	folder string // or empty: that of temporary files

	mu     sync.Mutex
	file   *os.File
	blocks int
	free   []int
}

// add writes a segment.
func (f *segmentFile) add(s segment) (*heldSegment, error) {
	f.mu.Lock()
	defer f.mu.Unlock()
	if f.file == nil {
		file, err := os.CreateTemp(f.folder, "kept-*")
		if err != nil {
			return nil, fmt.Errorf("the file of kept keys: %w", err)
		}
		os.Remove(file.Name())
		f.file = file
	}
	held := &heldSegment{count: s.count(), owned: map[ownerNumber]int{}}
	for k := 0; k < held.count; k++ {
		e := s.entry(k)
		held.owned[e.owner]++
		if e.at > held.newest {
			held.newest = e.at
		}
	}
	for rest := s; len(rest) > 0; {
		some := rest[:min(len(rest), segmentSize*entrySize)]
		block := f.blocks
		if last := len(f.free) - 1; last >= 0 {
			block, f.free = f.free[last], f.free[:last]
		} else {
			f.blocks++
		}
		held.blocks, rest = append(held.blocks, block), rest[len(some):]
		if _, err := f.file.WriteAt(some, int64(block)*segmentSize*entrySize); err != nil {
			f.free = append(f.free, held.blocks...)
			return nil, fmt.Errorf("the file of kept keys: %w", err)
		}
	}
	return held, nil
}

// remove lets the blocks of a segment be used again.
func (f *segmentFile) remove(held *heldSegment) {
	f.mu.Lock()
	defer f.mu.Unlock()
	f.free = append(f.free, held.blocks...)
}

// entry reads the entry at a place of the file.
func (f *segmentFile) entry(place uint64) (keptEntry, error) {
	text := make(segment, entrySize)
	if _, err := f.file.ReadAt(text, int64(place)*entrySize); err != nil {
		return keptEntry{}, fmt.Errorf("the file of kept keys: %w", err)
	}
	return text.entry(0), nil
}

// placeBits of a slot are the place of an entry in the file, plus 1. The others are the first bits of its digest.
const placeBits = 31

func tagOf(digest [16]byte) uint64 { return binary.BigEndian.Uint64(digest[:8]) >> placeBits }

// slots is a hash table with open addressing. A free slot is 0.
type slots []uint64

// newSlots returns a table for a number of entries.
func newSlots(entries int) slots {
	size := 16
	for size < entries+entries/2 {
		size *= 2
	}
	return make(slots, size)
}

func (s slots) add(slot uint64) {
	at := slot >> placeBits
	for s[at&uint64(len(s)-1)] != 0 {
		at++
	}
	s[at&uint64(len(s)-1)] = slot
}

// places calls a function with each place that may have a digest, until it returns false.
func (s slots) places(digest [16]byte, try func(place uint64) bool) {
	tag := tagOf(digest)
	for at := tag; len(s) > 0; at++ {
		slot := s[at&uint64(len(s)-1)]
		if slot == 0 || slot>>placeBits == tag && !try(slot&(1<<placeBits-1)-1) {
			return
		}
	}
}
