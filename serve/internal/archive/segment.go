// Package archive, outside the proof, keeps the journal and the audit in a folder, in segments that form a chain: each names the digest of the
// one before. A segment is written once, and whole: under another name, synced, and then renamed.
package archive

import (
	"bytes"
	"crypto/sha256"
	"encoding/hex"
	"encoding/json"
	"fmt"
	"os"
	"path/filepath"
	"sort"
	"strconv"
	"strings"
)

// Position is a place between two messages of the list: the number of messages, event lines and journal bytes before it.
type Position struct {
	Messages int64 `json:"messages"`
	Lines    int64 `json:"lines"`
	Bytes    int64 `json:"bytes"`
}

// Header is the first line of a segment. The state, the records and the part of the journal come after it, and the digest last.
type Header struct {
	Archive  int      `json:"archive"` // version of the format
	Segment  int      `json:"segment"`
	Previous string   `json:"previous"` // SHA-256 of the segment before, or empty for the first one
	Kept     int      `json:"kept"`     // the first segment that was kept when this one was written
	From     Position `json:"from"`
	To       Position `json:"to"`
	FirstAt  int64    `json:"first_at"` // the least and the greatest timestamp of its messages
	LastAt   int64    `json:"last_at"`
	Epoch    int      `json:"epoch"`
	Ends     bool     `json:"ends_epoch"` // an epoch begins after it
	State    int64    `json:"state_bytes"`
	Audit    int64    `json:"audit_bytes"`
	Journal  int64    `json:"journal_bytes"`
	Chunks   []string `json:"chunks"` // digests of each 64 KiB after this line, shortened: they say where damage is
}

const (
	format    = 1
	chunkSize = 64 << 10
	suffix    = ".segment"
	part      = ".part" // of the name, until a segment is whole
)

// Segment is a segment in memory.
type Segment struct {
	Header
	Sha256                            string // of its whole file
	StateText, AuditText, JournalText []byte

	head int64 // bytes of its first line
}

// Name returns the name of the file of a segment.
func Name(number int) string { return fmt.Sprintf("%08d%s", number, suffix) }

// DamageError reports the first segment that is damaged or missing.
type DamageError struct {
	Name   string // of the file
	Offset int64  // of the damage, as far as it is known
	Reason string
}

func (e *DamageError) Error() string {
	return fmt.Sprintf("%s is damaged at byte %d: %s", e.Name, e.Offset, e.Reason)
}

func digest(text []byte) string {
	sum := sha256.Sum256(text)
	return hex.EncodeToString(sum[:])
}

// chunksOf returns the shortened digests of the chunks of a body.
func chunksOf(body []byte) []string {
	chunks := []string{}
	for len(body) > 0 {
		size := chunkSize
		if len(body) < size {
			size = len(body)
		}
		chunks = append(chunks, digest(body[:size])[:8])
		body = body[size:]
	}
	return chunks
}

func trailer(text []byte) []byte { return []byte(`{"sha256":"` + digest(text) + "\"}\n") }

// encode returns the file of a segment, and sets what the header says of its content.
func (s *Segment) encode() []byte {
	body := append(append(append([]byte(nil), s.StateText...), s.AuditText...), s.JournalText...)
	s.Archive, s.State, s.Audit, s.Journal, s.Chunks = format, int64(len(s.StateText)), int64(len(s.AuditText)), int64(len(s.JournalText)), chunksOf(body)
	head, _ := json.Marshal(s.Header) // it has numbers and digests alone
	s.head = int64(len(head) + 1)
	text := append(append(head, '\n'), body...)
	text = append(text, trailer(text)...)
	s.Sha256 = digest(text)
	return text
}

// decode reads the file of a segment. The error is a *DamageError.
func decode(name string, text []byte) (*Segment, error) {
	damaged := func(offset int, format string, values ...interface{}) error {
		return &DamageError{name, int64(offset), fmt.Sprintf(format, values...)}
	}
	s := &Segment{Sha256: digest(text)}
	head, rest, isWhole := bytes.Cut(text, []byte("\n"))
	if err := json.Unmarshal(head, &s.Header); !isWhole || err != nil {
		return nil, damaged(0, "the header cannot be read (%v)", err)
	}
	if s.Archive != format {
		return nil, damaged(0, "the format %d is not known", s.Archive)
	}
	s.head = int64(len(head) + 1)
	size, last := s.State+s.Audit+s.Journal, len(trailer(nil))
	if s.State < 0 || s.Audit < 0 || s.Journal < 0 || size != int64(len(rest)-last) {
		return nil, damaged(0, "the header says that %d bytes and a last line follow, and there are %d bytes", size, len(rest))
	}
	start, body := len(head)+1, rest[:size]
	found := chunksOf(body)
	for k := range found {
		if k >= len(s.Chunks) || found[k] != s.Chunks[k] {
			return nil, damaged(start+k*chunkSize, "the digest of the next %d KiB is wrong", chunkSize>>10)
		}
	}
	if !bytes.Equal(rest[size:], trailer(text[:len(text)-last])) {
		return nil, damaged(0, "its digest is wrong, and its content is right: the header or the last line is damaged")
	}
	s.StateText, s.AuditText, s.JournalText = body[:s.State], body[s.State:s.State+s.Audit], body[s.State+s.Audit:]
	if name != Name(s.Segment) {
		return nil, damaged(0, "it is segment %d: its file was renamed", s.Segment)
	}
	return s, nil
}

// read reads a segment of a folder.
func read(folder string, number int) (*Segment, error) {
	text, err := os.ReadFile(filepath.Join(folder, Name(number)))
	if err != nil {
		return nil, err
	}
	return decode(Name(number), text)
}

// list returns the numbers of the segments in a folder, in order.
func list(folder string) (numbers []int, err error) {
	entries, err := os.ReadDir(folder)
	if err != nil {
		return nil, err
	}
	for _, entry := range entries {
		text := strings.TrimSuffix(entry.Name(), suffix)
		if number, err := strconv.Atoi(text); err == nil && number > 0 && entry.Name() == Name(number) {
			numbers = append(numbers, number)
		}
	}
	sort.Ints(numbers)
	return numbers, nil
}
