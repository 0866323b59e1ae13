// Verifying an archive. Outside the proof.

package archive

import (
	"bytes"
	"encoding/json"
	"errors"
	"fmt"
	"os"

	"gateway/internal/audit"
)

// Gap is a number of messages that were never archived: the archive was not written while the service ran, for longer than it kept them.
type Gap struct{ After, Before int64 }

// Report says what an archive has.
type Report struct {
	Segments    int
	First, Last int // segments
	From, To    Position
	Gaps        []Gap
	Sha256      string // of the last segment
}

// Verify checks the segments of a folder one after another, and calls visit with each. The error is a *DamageError for the first segment that is
// damaged or missing, a read error, or visit's. If the last segments are missing, this can be noticed only by comparing with a known digest.
func Verify(folder string, visit func(*Segment) error) (Report, error) {
	numbers, err := list(folder)
	if err != nil {
		return Report{}, err
	}
	if len(numbers) == 0 {
		return Report{}, fmt.Errorf("%s: not an archive: expected files such as 00000001.segment", folder)
	}
	r := Report{First: numbers[0]}
	if newest, err := read(folder, numbers[len(numbers)-1]); err == nil && newest.Kept < numbers[0] {
		return r, &DamageError{Name(newest.Kept), 0, fmt.Sprintf("it is missing: the archive was kept from it on when segment %d was written", newest.Segment)}
	}
	previous := (*Segment)(nil)
	for _, number := range numbers {
		s, err := read(folder, number)
		if errors.Is(err, os.ErrNotExist) { // retention removed it meanwhile
			continue
		}
		if err == nil {
			err = s.check(previous)
		}
		if err == nil {
			err = visit(s)
		}
		if err != nil {
			return r, err
		}
		if previous == nil {
			r.First, r.From = s.Segment, s.From
		} else if s.From != previous.To {
			r.Gaps = append(r.Gaps, Gap{previous.To.Messages, s.From.Messages + 1})
		}
		r.Segments, r.Last, r.To, r.Sha256, previous = r.Segments+1, s.Segment, s.To, s.Sha256, s
	}
	return r, nil
}

// check checks that a segment follows another one, and that its parts belong together.
func (s *Segment) check(previous *Segment) error {
	damaged := func(offset int64, format string, values ...interface{}) error {
		return &DamageError{Name(s.Segment), offset, fmt.Sprintf(format, values...)}
	}
	if previous != nil {
		switch {
		case s.Segment != previous.Segment+1:
			return &DamageError{Name(previous.Segment + 1), 0, "it is missing"}
		case s.Previous != previous.Sha256:
			return damaged(0, "it follows a segment with the SHA-256 %.16s.., and the one before it has %.16s..", s.Previous, previous.Sha256)
		case s.From.Messages < previous.To.Messages:
			return damaged(0, "it begins after message %d, and the one before it has messages up to %d", s.From.Messages, previous.To.Messages)
		}
	}
	now, at := s.From, s.head+s.State
	for _, line := range bytes.SplitAfter(s.AuditText, []byte("\n")) {
		if len(line) == 0 {
			break
		}
		var r audit.Record
		if err := json.Unmarshal(line, &r); err != nil || r.Message != now.Messages+1 || r.Line != now.Lines+1 || r.Byte != now.Bytes {
			return damaged(at, "the record after message %d is not that of the next message (%v)", now.Messages, err)
		}
		now, at = Position{r.Message, now.Lines + int64(r.Lines), now.Bytes + r.Bytes}, at+int64(len(line))
	}
	if now != s.To || s.Journal != s.To.Bytes-s.From.Bytes {
		return damaged(at, "its records and its part of the journal do not belong together")
	}
	if lines := int64(bytes.Count(s.JournalText, []byte("\n"))); lines != 2*(s.To.Lines-s.From.Lines) {
		return damaged(at, "its part of the journal has %d lines, and its records have %d events", lines, s.To.Lines-s.From.Lines)
	}
	return nil
}
