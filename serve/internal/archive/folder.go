// The folder of an archive: reading it at a start, adding a segment, and removing old ones. Outside the proof.

package archive

import (
	"bufio"
	"context"
	"encoding/json"
	"errors"
	"fmt"
	"io"
	"log"
	"os"
	"path/filepath"
	"strings"

	"gateway/internal/audit"
	"gateway/internal/disk"
)

// archived is the file in the data folder that has the last segment's number and digest.
type archived struct {
	Segment int    `json:"segment"`
	Sha256  string `json:"sha256"`
}

func (a *Archiver) knownPath() string { return filepath.Join(a.config.Data, "archived") }

// openFolder takes ownership of the folder, and reads its segments.
func (a *Archiver) openFolder() error {
	folder := a.config.Folder
	if _, err := disk.PrivateFolder(folder); err != nil {
		return err
	}
	unlock, err := disk.TryLock(filepath.Join(folder, "lock"))
	if err != nil {
		return fmt.Errorf("%s/lock: %w", folder, err)
	}
	if err := a.readFolder(); err != nil {
		unlock()
		return err
	}
	a.unlock = unlock
	return nil
}

// readFolder reads the segments of the folder: the next segment follows the last one. In an empty folder the chain continues that of another
// folder.
func (a *Archiver) readFolder() error {
	folder := a.config.Folder
	parts, _ := filepath.Glob(filepath.Join(folder, "*"+suffix+part))
	for _, path := range parts { // a crash left it; the segment is written again
		os.Remove(path)
	}
	known := archived{}
	text, err := os.ReadFile(a.knownPath())
	if err == nil {
		err = json.Unmarshal(text, &known)
	}
	if err != nil && !errors.Is(err, os.ErrNotExist) {
		return fmt.Errorf("%s: %w", a.knownPath(), err)
	}
	numbers, err := list(folder)
	if err != nil {
		return err
	}
	needs := Position{}
	status, n := Status{Folder: folder, Segment: known.Segment, Sha256: known.Sha256}, len(numbers)
	var segments []kept
	for _, number := range numbers {
		one, err := readHeader(folder, number)
		if err != nil { // verify-archive reports it; it cannot be searched
			log.Printf("archive: %v", err)
			continue
		}
		segments, status.Bytes = append(segments, one), status.Bytes+one.size
	}
	a.last = nil
	if n > 0 {
		if numbers[n-1] < known.Segment {
			return fmt.Errorf("the archive has lost segments: the last one is %d, and segment %d was written: move %s away, and a new archive begins", numbers[n-1], known.Segment, folder)
		}
		s, err := read(folder, numbers[n-1])
		if err != nil {
			return fmt.Errorf("the archive cannot be continued: %w: move %s away, and a new archive begins", err, folder)
		}
		status.Segment, status.Sha256, status.Messages, status.At, needs = s.Segment, s.Sha256, s.To.Messages, s.LastAt, s.To
		if lines := strings.Split(string(s.AuditText), "\n"); len(lines) > 1 {
			a.last = &audit.Record{}
			if err := json.Unmarshal([]byte(lines[len(lines)-2]), a.last); err != nil {
				return fmt.Errorf("the archive cannot be continued: the last record of %s: %w", Name(s.Segment), err)
			}
		}
	}
	a.mu.Lock()
	defer a.mu.Unlock()
	a.segments, a.status, a.needs = segments, status, needs
	return nil
}

// readHeader reads the first line of a segment.
func readHeader(folder string, number int) (one kept, err error) {
	file, err := os.Open(filepath.Join(folder, Name(number)))
	if err != nil {
		return one, err
	}
	defer file.Close()
	about, err := file.Stat()
	if err != nil {
		return one, err
	}
	line, err := bufio.NewReader(io.LimitReader(file, 16<<20)).ReadBytes('\n')
	if err == nil {
		err = json.Unmarshal(line, &one.Header)
	}
	if err == nil && one.Segment != number {
		err = fmt.Errorf("it is segment %d", one.Segment)
	}
	if err != nil {
		return one, fmt.Errorf("%s: its header cannot be read: %w", Name(number), err)
	}
	one.size, one.header = about.Size(), int64(len(line))
	return one, nil
}

// maxHeader is the size of a header and a last line, but for the digests of chunks, of which each takes 11 bytes.
const maxHeader = 800

// close writes the open segment.
func (a *Archiver) close(ctx context.Context) error {
	s, err := a.segment(ctx)
	if _, isWhole := a.source.Last(); errors.Is(err, audit.ErrNotKept) && isWhole { // the lines were pruned meanwhile: a gap
		a.open, a.size = nil, 0
		return errPruned
	}
	if err != nil {
		return err
	}
	size := a.size + int64(len(s.StateText))
	s.Kept = a.firstKept(size+maxHeader+size/chunkSize*11, len(s.StateText) > 0)
	text := s.encode()
	if err := checkSpace(a.config.Folder, len(text)); err != nil {
		return err
	}
	path := filepath.Join(a.config.Folder, Name(s.Segment))
	if err := a.write(path, text); err != nil {
		os.Remove(path + part) // it would take space
		return err
	}
	a.last, a.open, a.size = &a.open[len(a.open)-1], nil, 0
	a.mu.Lock()
	a.segments = append(a.segments, kept{s.Header, int64(len(text)), s.head})
	a.status.Segment, a.status.Sha256, a.status.Messages, a.status.At = s.Segment, s.Sha256, s.To.Messages, s.LastAt
	a.status.Bytes, a.needs = a.status.Bytes+int64(len(text)), s.To
	a.mu.Unlock()
	known, _ := json.Marshal(archived{s.Segment, s.Sha256})
	if err := disk.WriteFile(a.knownPath(), known); err != nil {
		return err
	}
	return a.removeBelow(s.Kept)
}

// segment returns what the next segment is made of.
func (a *Archiver) segment(ctx context.Context) (*Segment, error) {
	first, last := a.open[0], a.open[len(a.open)-1]
	s, status := &Segment{}, a.Status()
	s.Segment, s.Previous = status.Segment+1, status.Sha256
	s.From = Position{first.Message - 1, first.Line - 1, first.Byte}
	s.To = Position{last.Message, last.Line - 1 + int64(last.Lines), last.Byte + last.Bytes}
	s.Epoch, s.Ends = a.epoch(), last.Cause == "epoch"
	s.FirstAt, s.LastAt = first.At, first.At
	for _, r := range a.open {
		s.AuditText = append(s.AuditText, encodeRecord(r)...)
		if r.At < s.FirstAt {
			s.FirstAt = r.At
		}
		if r.At > s.LastAt {
			s.LastAt = r.At
		}
	}
	s.JournalText = make([]byte, s.To.Bytes-s.From.Bytes)
	if _, err := a.source.ReadAt(s.JournalText, s.From.Bytes); err != nil && len(s.JournalText) > 0 {
		return nil, err
	}
	var err error
	if s.From.Messages > 0 {
		s.StateText, err = a.source.State(ctx, s.From.Messages)
	}
	return s, err
}

// epoch returns the number of the epoch of the next segment, counted from the first one.
func (a *Archiver) epoch() int {
	a.mu.RLock()
	defer a.mu.RUnlock()
	n := len(a.segments)
	if n == 0 {
		return 0
	}
	if a.segments[n-1].Ends {
		return a.segments[n-1].Epoch + 1
	}
	return a.segments[n-1].Epoch
}

func checkSpace(folder string, size int) error {
	free, err := disk.Free(folder)
	if err != nil {
		return err
	}
	if free < minFree+uint64(size) {
		return fmt.Errorf("the disk of %s has %d MiB left: nothing is archived", folder, free>>20)
	}
	return nil
}

// firstKept returns the first segment that is kept when one of this size is added. Segments are removed up to one that begins with a state, so that
// the replies in those that are kept can be checked.
func (a *Archiver) firstKept(size int64, hasState bool) int {
	a.mu.RLock()
	defer a.mu.RUnlock()
	next := a.status.Segment + 1
	if len(a.segments) == 0 {
		return next
	}
	total, oldest, first := a.status.Bytes+size, a.now().Add(-a.config.MaxAge).UnixMilli(), 0
	for first < len(a.segments) {
		group, after := int64(0), first
		for after == first || after < len(a.segments) && a.segments[after].State == 0 {
			group, after = group+a.segments[after].size, after+1
		}
		isTooMuch := a.config.MaxSize > 0 && total > a.config.MaxSize
		isTooOld := a.config.MaxAge > 0 && a.segments[after-1].LastAt < oldest
		if !isTooMuch && !isTooOld || after == len(a.segments) && !hasState {
			break
		}
		total, first = total-group, after
	}
	if first == len(a.segments) {
		return next
	}
	return a.segments[first].Segment
}

// removeBelow removes the segments before one, the oldest first.
func (a *Archiver) removeBelow(number int) error {
	for {
		a.mu.Lock()
		if len(a.segments) == 0 || a.segments[0].Segment >= number {
			a.mu.Unlock()
			return nil
		}
		one := a.segments[0]
		a.segments = append([]kept(nil), a.segments[1:]...)
		a.status.Bytes -= one.size
		a.mu.Unlock()
		if err := os.Remove(filepath.Join(a.config.Folder, Name(one.Segment))); err != nil && !errors.Is(err, os.ErrNotExist) {
			return err
		}
	}
}
