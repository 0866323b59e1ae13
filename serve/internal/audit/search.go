// Searching the records, the newest first. Outside the proof.

package audit

import (
	"bytes"
	"context"
	"encoding/json"
	"errors"
	"fmt"

	"gateway/internal/auth"
	"gateway/internal/registry"
)

// ErrNotKept reports that records or lines are no longer kept, or were not written again yet.
var ErrNotKept = errors.New("no longer kept")

// Journal gives the lines of records. Bytes are counted from the beginning of the first journal. ReadAt returns ErrNotKept for bytes that are
// pruned.
type Journal interface {
	ReadAt(text []byte, at int64) (int, error)
}

// Block is some records that are read together.
type Block struct {
	First, Last int64 // messages: records of others are passed over
	Until       int64 // the greatest timestamp
	Size        int64 // bytes of its records
	Journal     Journal
	Read        func() ([]byte, error) // returns a line for each record
}

// Filter says which records are searched for. Empty fields do not restrict the search.
type Filter struct {
	Before        int64 // messages with smaller numbers alone; 0: all
	From, To      int64 // timestamps in milliseconds, the second one excluded
	Name, Address string
	Cause         string            // without one, and without an event, cycles and messages that say nothing are left out
	Event         string            // a line has this kind
	Fields        map[string]string // and these fields
	Refused       bool              // a line was refused
	Limit         int               // records of a page
}

// Line is a matching line and its reply.
type Line struct {
	Number int64           `json:"line"`
	Text   string          `json:"text"`
	Reply  json.RawMessage `json:"reply"`
}

// Found is a matching record. If events or fields were asked for, it has only the lines that match them.
type Found struct {
	Record
	Matches []Line `json:"matches,omitempty"`
}

// Page is a part of the result, the newest first.
type Page struct {
	Records []Found `json:"records"`
	Next    int64   `json:"next,omitempty"` // Before of the next page; 0: this is the last one
}

const (
	maxBytes   = 32 << 20 // of records and lines that are read for a page
	maxMatches = 1_000    // lines of a page, unless one record has more
	skew       = 60_000   // milliseconds by which timestamps may go back from message to message
)

// Search returns a page of the records in some blocks, which are in order, the oldest first. A page may have fewer records than its limit, or
// none, and still not be the last one.
func Search(ctx context.Context, blocks []Block, f Filter) (Page, error) {
	s := &search{Filter: f, page: Page{Records: []Found{}}}
	for k := len(blocks) - 1; k >= 0; k-- {
		b := blocks[k]
		if f.Before != 0 && b.First >= f.Before {
			continue
		}
		if f.From != 0 && b.Until < f.From-skew {
			break
		}
		if s.isFull() || ctx.Err() != nil {
			return s.page, ctx.Err()
		}
		if err := s.add(b); err != nil {
			return s.page, err
		}
	}
	if !s.isFull() {
		s.page.Next = 0
	}
	return s.page, nil
}

// search is a page that is being filled.
type search struct {
	Filter
	page    Page
	bytes   int64 // that were read
	matches int
}

func (s *search) isFull() bool {
	return len(s.page.Records) >= s.Limit || s.bytes >= maxBytes || s.matches >= maxMatches
}

// add adds the records of a block that are looked for, until the page is full.
func (s *search) add(b Block) error {
	text, err := b.Read()
	if err != nil {
		return err
	}
	s.bytes += b.Size
	lines := bytes.Split(bytes.TrimSuffix(text, []byte("\n")), []byte("\n"))
	for k := len(lines) - 1; k >= 0; k-- {
		var r Record
		if err := json.Unmarshal(lines[k], &r); err != nil {
			return fmt.Errorf("a record of messages %d to %d is damaged: %w", b.First, b.Last, err)
		}
		if r.Message < b.First || r.Message > b.Last || s.Before != 0 && r.Message >= s.Before || !s.takes(&r) {
			continue
		}
		if err := s.addRecord(b.Journal, &r); err != nil {
			return err
		}
		if s.page.Next = r.Message; s.isFull() {
			return nil
		}
	}
	s.page.Next = b.First
	return nil
}

// addRecord adds a record, if its lines are looked for.
func (s *search) addRecord(journal Journal, r *Record) error {
	found := Found{Record: *r}
	if s.Event != "" || len(s.Fields) > 0 {
		var err error
		found.Matches, err = s.linesOf(journal, r)
		if err != nil && !errors.Is(err, ErrNotKept) { // the record is about to go too
			return err
		}
		if len(found.Matches) == 0 {
			return nil
		}
	}
	s.page.Records = append(s.page.Records, found)
	return nil
}

// takes reports whether a record can match, as far as the record itself shows.
func (s *search) takes(r *Record) bool {
	switch {
	case s.From != 0 && r.At < s.From, s.To != 0 && r.At >= s.To, s.Name != "" && r.Name != s.Name, s.Address != "" && r.Address != s.Address:
		return false
	case s.Cause != "" && r.Cause != s.Cause:
		return false
	case s.Cause == "" && s.Event == "" && (r.Cause == "cycle" || r.Cause == "state" || r.Lines == 0 && r.Call == ""):
		return false
	case s.Event != "" && r.Events[s.Event] == 0, len(s.Fields) > 0 && r.Lines == 0, s.Refused && r.Refused == 0:
		return false
	}
	return true
}

// linesOf returns the lines of a record that have the event and the fields.
func (s *search) linesOf(journal Journal, r *Record) (matches []Line, err error) {
	text := make([]byte, r.Bytes)
	s.bytes += r.Bytes
	if _, err := journal.ReadAt(text, r.Byte); err != nil {
		return nil, fmt.Errorf("the lines of message %d: %w", r.Message, err)
	}
	for number := r.Line; len(text) > 0; number++ {
		var line, reply []byte
		line, text, _ = bytes.Cut(text, []byte("\n"))
		reply, text, _ = bytes.Cut(text, []byte("\n"))
		if s.matchesLine(line) && (!s.Refused || registry.AnswerOf(reply) != "ok") {
			matches = append(matches, Line{number, string(line), append(json.RawMessage(nil), reply...)})
		}
	}
	s.matches += len(matches)
	return matches, nil
}

func (s *search) matchesLine(line []byte) bool {
	if kind := registry.Kind(line); s.Event != "" && kind != s.Event && (s.Event != "other" || auth.IsEvent(kind)) {
		return false
	}
	if len(s.Fields) == 0 {
		return true
	}
	object := registry.Fields(line)
	for key, want := range s.Fields {
		if object == nil || !hasText(object[key], want) {
			return false
		}
	}
	return true
}

// hasText reports whether a field is a text, or a list with it: a framework's roles.
func hasText(field json.RawMessage, want string) bool {
	var text string
	if json.Unmarshal(field, &text) == nil {
		return text == want
	}
	var list []string
	json.Unmarshal(field, &list)
	for _, one := range list {
		if one == want {
			return true
		}
	}
	return false
}
