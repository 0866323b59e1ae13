// Writing the archive as messages arrive. Outside the proof.

package archive

import (
	"context"
	"encoding/json"
	"errors"
	"fmt"
	"log"
	"sync"
	"time"

	"gateway/internal/audit"
	"gateway/internal/disk"
)

// Config says where the archive is, and how much of it is kept.
type Config struct {
	Folder  string        // of the segments; nobody else writes there
	Data    string        // the data folder, which knows the last segment
	Bytes   int64         // of records and journal after which a segment ends
	Every   time.Duration // after which a segment ends
	MaxSize int64         // bytes of all segments; 0: no limit
	MaxAge  time.Duration // of messages; 0: no limit
}

// Source is where messages are read from.
type Source interface {
	audit.Journal
	// Records returns some records after a message, in order.
	Records(after int64, max int) ([]audit.Record, error)
	// State returns the allocator's state after a message, as `drf save` writes it, or nil where there is no snapshot of it.
	State(ctx context.Context, message int64) ([]byte, error)
	// Last returns the number of the last message, once all are there that the list had.
	Last() (message int64, is bool)
}

// Status is how far an archive has got.
type Status struct {
	Folder   string `json:"folder"`
	Segment  int    `json:"segment"`  // the last one
	Sha256   string `json:"sha256"`   // of its file
	Messages int64  `json:"messages"` // up to which all are archived
	At       int64  `json:"at"`       // of the last of these
	Bytes    int64  `json:"bytes"`    // of all segments
	Gaps     int    `json:"gaps"`     // since the gateway started
	Fault    string `json:"fault"`    // why nothing is archived at present, or empty
}

// kept is a segment that is in the folder.
type kept struct {
	Header
	size   int64
	header int64 // bytes of its first line
}

// Archiver writes an archive. One goroutine runs it.
type Archiver struct {
	config Config
	source Source
	now    func() time.Time
	write  func(path string, text []byte) error
	wake   chan struct{}
	unlock func()         // the folder; nil while it is not open
	last   *audit.Record  // that is archived, until it is compared with the list's
	open   []audit.Record // of the segment that is not written yet
	size   int64          // of their lines and records

	mu       sync.RWMutex
	segments []kept
	status   Status
	needs    Position // from where messages are not archived
}

const (
	batch      = 4096             // records that are read at once
	pause      = time.Second      // between looks for new messages
	retryAfter = 10 * time.Second // after a fault
	minFree    = 2 * disk.MinFree // on the archive's disk, so that it never takes the service's last space
)

// New returns an archiver. It needs a source, and Run must be called for it to write.
func New(config Config) *Archiver {
	return &Archiver{config: config, now: time.Now, write: disk.WriteFile, wake: make(chan struct{}, 1), status: Status{Folder: config.Folder, Fault: "it starts"}}
}

// Status returns how far the archive has got.
func (a *Archiver) Status() Status {
	a.mu.RLock()
	defer a.mu.RUnlock()
	return a.status
}

// SetSource says where messages are read from. It must be called before Run.
func (a *Archiver) SetSource(source Source) { a.source = source }

// Needed returns the position from which messages are not archived yet, and are still needed.
func (a *Archiver) Needed() (messages, bytes int64) {
	a.mu.RLock()
	defer a.mu.RUnlock()
	return a.needs.Messages, a.needs.Bytes
}

func (a *Archiver) setNeeds(from Position) {
	a.mu.Lock()
	defer a.mu.Unlock()
	a.needs = from
}

// Run writes segments until the context ends.
func (a *Archiver) Run(ctx context.Context) {
	for ctx.Err() == nil {
		err := a.step(ctx)
		if errors.Is(err, audit.ErrNotKept) { // the allocator was restarted meanwhile, and writes it again
			err = nil
		}
		a.setFault(err)
		wait := pause
		if err != nil {
			wait = retryAfter
		}
		select {
		case <-time.After(wait):
		case <-a.wake:
		case <-ctx.Done():
		}
	}
}

// WaitFor waits until messages up to one are archived, unless that fails, because messages before a snapshot are about to be pruned.
func (a *Archiver) WaitFor(ctx context.Context, message int64) {
	for ctx.Err() == nil && a.Status().Fault == "" {
		if archived, _ := a.Needed(); archived >= message {
			return
		}
		select {
		case a.wake <- struct{}{}:
		default:
		}
		select {
		case <-time.After(20 * time.Millisecond):
		case <-ctx.Done():
		}
	}
}

func (a *Archiver) setFault(err error) {
	a.mu.Lock()
	defer a.mu.Unlock()
	text := ""
	if err != nil {
		text = err.Error()
	}
	if text != a.status.Fault && text != "" {
		log.Printf("archive: %s", text)
	}
	a.status.Fault = text
}

// errPruned reports that lines of the open segment were pruned. It is empty then.
var errPruned = errors.New("lines were pruned before they were archived")

// step archives the messages that arrived since the last step.
func (a *Archiver) step(ctx context.Context) error {
	if a.unlock == nil {
		if err := a.openFolder(); err != nil {
			return err
		}
	}
	if err := a.checkList(); err != nil {
		return err
	}
	for ctx.Err() == nil {
		if a.isDue() {
			if err := a.close(ctx); err != nil && !errors.Is(err, errPruned) {
				return err
			}
		}
		records, err := a.source.Records(a.seen(), batch)
		if err != nil {
			return err
		}
		if len(records) == 0 {
			if len(a.open) > 0 && a.now().UnixMilli()-a.open[0].At >= a.config.Every.Milliseconds() {
				if err := a.close(ctx); err != nil && !errors.Is(err, errPruned) {
					return err
				}
			}
			return nil
		}
		for _, r := range records {
			if r.Message != a.seen()+1 && len(a.open) > 0 || a.isDue() {
				if err := a.close(ctx); errors.Is(err, errPruned) {
					break // the kept segments are read again
				} else if err != nil {
					return err
				}
			}
			if r.Message != a.seen()+1 && a.Status().Messages > 0 {
				a.countGap(r.Message)
			}
			if len(a.open) == 0 {
				a.setNeeds(Position{r.Message - 1, r.Line - 1, r.Byte})
			}
			a.open, a.size = append(a.open, r), a.size+r.Bytes+int64(len(encodeRecord(r)))
		}
	}
	return nil
}

// countGap records that messages before one are lost to the archive.
func (a *Archiver) countGap(before int64) {
	a.mu.Lock()
	defer a.mu.Unlock()
	a.status.Gaps++
	log.Printf("archive: messages %d to %d are not archived: they were pruned before", a.status.Messages+1, before-1)
}

// seen returns the last message that is archived or in the open segment.
func (a *Archiver) seen() int64 {
	if n := len(a.open); n > 0 {
		return a.open[n-1].Message
	}
	return a.Status().Messages
}

// isDue reports whether the open segment is to end: at a snapshot, so that the next segment can be checked from its state, or because of its size
// or age.
func (a *Archiver) isDue() bool {
	n := len(a.open)
	if n == 0 {
		return false
	}
	last := a.open[n-1]
	return last.Cause == "state" || last.Cause == "epoch" || a.size >= a.config.Bytes || last.At-a.open[0].At >= a.config.Every.Milliseconds()
}

// checkList returns an error if the list is not the one that was archived, for example after an old backup was restored.
func (a *Archiver) checkList() error {
	s := a.Status()
	if s.Messages == 0 {
		return nil
	}
	advice := fmt.Sprintf("move %s away, and a new archive begins", a.config.Folder)
	if last, is := a.source.Last(); is && last < s.Messages {
		return fmt.Errorf("the archive has %d messages, and the list has %d: %s", s.Messages, last, advice)
	}
	if a.last == nil {
		return nil
	}
	records, err := a.source.Records(s.Messages-1, 1)
	if err != nil || len(records) == 0 || records[0].Message != s.Messages {
		return err
	}
	if r := records[0]; r.At != a.last.At || r.Line != a.last.Line || r.Byte != a.last.Byte || r.Bytes != a.last.Bytes || r.Name != a.last.Name {
		return fmt.Errorf("message %d of the list is not the one in the archive: %s", s.Messages, advice)
	}
	a.last = nil
	return nil
}

func encodeRecord(r audit.Record) string {
	line, _ := json.Marshal(r)
	return string(line) + "\n"
}
