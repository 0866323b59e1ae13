// Searching the archive. Outside the proof.

package archive

import (
	"fmt"
	"os"
	"path/filepath"

	"gateway/internal/audit"
)

// Blocks returns the archived records of messages before one, a block for each segment.
func (a *Archiver) Blocks(before int64) (blocks []audit.Block) {
	a.mu.RLock()
	defer a.mu.RUnlock()
	for _, one := range a.segments {
		if one.From.Messages+1 >= before {
			break
		}
		one, last := one, one.To.Messages
		if last >= before {
			last = before - 1
		}
		path := filepath.Join(a.config.Folder, Name(one.Segment))
		blocks = append(blocks, audit.Block{First: one.From.Messages + 1, Last: last, Until: one.LastAt, Size: one.Audit, Journal: journalOf(one, path),
			Read: func() ([]byte, error) { return readPart(path, one.header+one.State, one.Audit) }})
	}
	return blocks
}

// archivedJournal is the part of the journal in a segment.
type archivedJournal struct {
	path     string
	from, to int64 // bytes of the journal
	offset   int64 // of the first in the file
}

func journalOf(one kept, path string) audit.Journal {
	return archivedJournal{path, one.From.Bytes, one.To.Bytes, one.header + one.State + one.Audit}
}

// ReadAt reads at a byte of the whole journal.
func (j archivedJournal) ReadAt(text []byte, at int64) (int, error) {
	if at < j.from || at+int64(len(text)) > j.to {
		return 0, fmt.Errorf("byte %d of the journal is not in %s", at, j.path)
	}
	found, err := readPart(j.path, j.offset+at-j.from, int64(len(text)))
	return copy(text, found), err
}

// readPart reads a part of a file. Retention may have removed it.
func readPart(path string, at, size int64) ([]byte, error) {
	file, err := os.Open(path)
	if os.IsNotExist(err) {
		return nil, fmt.Errorf("%s is %w", path, audit.ErrNotKept)
	}
	if err != nil {
		return nil, err
	}
	defer file.Close()
	text := make([]byte, size)
	_, err = file.ReadAt(text, at)
	return text, err
}
