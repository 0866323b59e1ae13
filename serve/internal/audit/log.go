// The records beside the journal, in one file. Outside the proof.

package audit

import (
	"bytes"
	"encoding/json"
	"fmt"
	"os"
	"path/filepath"
	"sort"
	"sync"

	"golang.org/x/sys/unix"
)

// Log is made from the list alone, as the journal is: each child of the allocator writes it again, from a snapshot on.
type Log struct {
	path string

	mu     sync.RWMutex
	file   *os.File
	end    int64  // of what is written
	pruned int64  // the last message whose record is dropped
	marks  []mark // the oldest first
}

// mark is a part of the file: whole records.
type mark struct {
	from, to    int64 // bytes
	first, last int64 // messages
	until       int64 // the greatest timestamp
}

const markBytes = 64 << 10 // of a part, about

// NewLog returns the log in a data folder. It has no records before Begin.
func NewLog(folder string) *Log { return &Log{path: filepath.Join(folder, "audit")} }

// Begin starts a new file. Readers of the old one get an error.
func (l *Log) Begin() error {
	l.mu.Lock()
	defer l.mu.Unlock()
	if l.file != nil {
		l.file.Close()
	}
	os.Remove(l.path)
	file, err := os.OpenFile(l.path, os.O_RDWR|os.O_CREATE|os.O_EXCL, 0o600)
	if err != nil {
		return fmt.Errorf("the audit: %w", err)
	}
	l.file, l.end, l.pruned, l.marks = file, 0, 0, nil
	return nil
}

// Write appends records, which come in order.
func (l *Log) Write(records []Record) error {
	if len(records) == 0 {
		return nil
	}
	text := encode(nil, records)
	l.mu.Lock()
	defer l.mu.Unlock()
	if _, err := l.file.WriteAt(text, l.end); err != nil {
		return fmt.Errorf("the audit cannot be written: %w", err)
	}
	new := mark{l.end, l.end + int64(len(text)), records[0].Message, records[len(records)-1].Message, 0}
	for _, r := range records {
		if r.At > new.until {
			new.until = r.At
		}
	}
	l.end = new.to
	if n := len(l.marks) - 1; n >= 0 && l.marks[n].to-l.marks[n].from < markBytes {
		old := &l.marks[n]
		old.to, old.last = new.to, new.last
		if new.until > old.until {
			old.until = new.until
		}
		return nil
	}
	l.marks = append(l.marks, new)
	return nil
}

// Prune drops records of messages up to a number. Whole parts give their space back to the disk.
func (l *Log) Prune(message int64) error {
	l.mu.Lock()
	defer l.mu.Unlock()
	if message > l.pruned {
		l.pruned = message
	}
	k := sort.Search(len(l.marks), func(k int) bool { return l.marks[k].last > message })
	if k == 0 {
		return nil
	}
	to := l.marks[k-1].to
	l.marks = append([]mark(nil), l.marks[k:]...)
	return unix.Fallocate(int(l.file.Fd()), unix.FALLOC_FL_PUNCH_HOLE|unix.FALLOC_FL_KEEP_SIZE, 0, to)
}

// Blocks returns the parts, whose lines are in a journal.
func (l *Log) Blocks(journal Journal) []Block {
	l.mu.RLock()
	defer l.mu.RUnlock()
	var blocks []Block
	for _, m := range l.marks {
		m, file := m, l.file
		b := Block{First: m.first, Last: m.last, Until: m.until, Size: m.to - m.from, Journal: journal, Read: func() ([]byte, error) { return l.read(file, m) }}
		if b.First <= l.pruned {
			b.First = l.pruned + 1
		}
		if b.First <= b.Last {
			blocks = append(blocks, b)
		}
	}
	return blocks
}

// Records returns some records after a message, in order.
func (l *Log) Records(after int64, max int) (records []Record, err error) {
	for _, b := range l.Blocks(nil) {
		if b.Last <= after || len(records) >= max {
			continue
		}
		text, err := b.Read()
		if err != nil {
			return nil, err
		}
		for _, line := range bytes.Split(bytes.TrimSuffix(text, []byte("\n")), []byte("\n")) {
			var r Record
			if err := json.Unmarshal(line, &r); err != nil {
				return nil, fmt.Errorf("a record after message %d is damaged: %w", after, err)
			}
			if r.Message > after && r.Message >= b.First && len(records) < max {
				records = append(records, r)
			}
		}
	}
	return records, nil
}

// read reads a part, unless the file was replaced or the part is pruned.
func (l *Log) read(file *os.File, m mark) ([]byte, error) {
	l.mu.RLock()
	defer l.mu.RUnlock()
	if l.file != file || len(l.marks) == 0 || m.first < l.marks[0].first {
		return nil, fmt.Errorf("the records of messages %d to %d are %w", m.first, m.last, ErrNotKept)
	}
	text := make([]byte, m.to-m.from)
	_, err := file.ReadAt(text, m.from)
	return text, err
}
