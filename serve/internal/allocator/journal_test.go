// Tests of the journal. Outside the proof.

package allocator

import (
	"crypto/sha256"
	"encoding/hex"
	"errors"
	"io"
	"strings"
	"testing"

	"gateway/internal/oplog"

	"golang.org/x/sys/unix"
)

func opened(t *testing.T, folder string, from oplog.Snapshot) *Journal {
	j, err := OpenJournal(folder)
	if err == nil {
		err = j.begin(from)
	}
	if err != nil {
		t.Fatal(err)
	}
	return j
}

func TestJournalComesAgain(t *testing.T) {
	folder := t.TempDir()
	first := opened(t, folder, oplog.Snapshot{})
	for _, step := range []error{first.write([]byte("a\nA\n")), first.write([]byte("b\nB\n")), first.checkWhole(), first.Mark(), first.write([]byte("c\nC\n"))} {
		if step != nil {
			t.Fatal(step)
		}
	}
	text := make([]byte, 6)
	if n, err := first.ReadAt(text, 6); n != 6 || err != nil || string(text) != "B\nc\nC\n" {
		t.Error(n, err, string(text))
	}
	later := oplog.Snapshot{Position: oplog.Position{Bytes: 4}, Number: 1, Sum: opened(t, t.TempDir(), oplog.Snapshot{}).sumSoFar()} // a digest of other bytes
	for name, c := range map[string]struct {
		from   oplog.Snapshot
		blocks []string
		want   string // of the error
	}{
		"the same":             {oplog.Snapshot{}, []string{"a\nA\nb\nB\nc\nC\n"}, ""},
		"what was not marked":  {oplog.Snapshot{}, []string{"a\nA\n", "b\nB\ne\nE\n"}, ""},
		"less than was marked": {oplog.Snapshot{}, []string{"a\nA\n"}, "has lost messages"},
		"other replies":        {oplog.Snapshot{}, []string{"a\nA\nb", "\nX\n"}, "first 8 bytes differ"},
		"another snapshot":     {later, []string{"b\nB\n"}, "first 8 bytes differ"},
	} {
		again := opened(t, folder, c.from)
		var err error
		for _, block := range c.blocks {
			if err == nil {
				err = again.write([]byte(block))
			}
		}
		if err == nil {
			err = again.checkWhole()
		}
		if (err == nil) != (c.want == "") || err != nil && (!strings.Contains(err.Error(), c.want) || !oplog.IsFatal(err)) {
			t.Errorf("%s: %v", name, err)
		}
	}
}

func TestJournalFromSnapshot(t *testing.T) {
	j := opened(t, t.TempDir(), oplog.Snapshot{})
	block := []byte(strings.Repeat("x", 1<<16))
	var snapshots []oplog.Snapshot
	for n := 1; n < 4; n++ {
		if err := j.write(block); err != nil {
			t.Fatal(err)
		}
		snapshots = append(snapshots, oplog.Snapshot{Position: oplog.Position{Bytes: int64(n) << 16}, Number: n, Sum: j.sumSoFar()})
	}
	if err := j.prune(2 << 16); err != nil && !errors.Is(err, unix.EOPNOTSUPP) {
		t.Fatal(err)
	}
	start, end, sum := j.Bounds()
	if start != 2<<16 || end != 3<<16 {
		t.Error(start, end)
	}
	if _, err := j.ReadAt(make([]byte, 4), 4); err == nil {
		t.Error("what was pruned was read")
	}
	text := make([]byte, 1<<16)
	if n, err := j.ReadAt(text, 2<<16); n != 1<<16 || err != nil || string(text) != string(block) {
		t.Error("what is kept was not read", n, err)
	}
	if n, err := j.ReadAt(make([]byte, 4), 3<<16-2); n != 2 || err != io.ErrUnexpectedEOF {
		t.Error("an early end was no error", n, err)
	}
	other := opened(t, t.TempDir(), snapshots[1])
	if err := other.write(block); err != nil {
		t.Fatal(err)
	}
	whole := sha256.Sum256([]byte(strings.Repeat(string(block), 3)))
	if _, _, theirs := other.Bounds(); theirs != sum || theirs != hex.EncodeToString(whole[:]) {
		t.Error("a journal from a snapshot has another digest", theirs, sum)
	}
}

func TestEverySecondLine(t *testing.T) {
	if got := string(everySecondLine([]byte("a\nA\n\nB\n"))); got != "A\nB\n" {
		t.Errorf("%q", got)
	}
}
