// What an archive is made from. Outside the proof.

package allocator

import (
	"context"
	"errors"
	"fmt"
	"io"
	"time"

	"gateway/internal/audit"
	"gateway/internal/oplog"
)

// Archive receives messages from the journal, which is kept until they are archived.
type Archive interface {
	// Needed returns the position from which messages are not archived.
	Needed() (messages, bytes int64)
	// WaitFor waits until messages up to one are archived, unless that fails.
	WaitFor(ctx context.Context, message int64)
}

// Source gives an archive its content: the journal, the senders of the messages, and the states at snapshots.
type Source struct{ allocator *Allocator }

// Source returns the source for an archive.
func (a *Allocator) Source() Source { return Source{a} }

// ReadAt reads from the journal at a byte. It returns audit.ErrNotKept if that byte is pruned, or was not written again yet after a restart.
func (s Source) ReadAt(text []byte, at int64) (int, error) {
	n, err := s.allocator.journal.ReadAt(text, at)
	if errors.Is(err, io.ErrUnexpectedEOF) {
		err = fmt.Errorf("byte %d of the journal is %w", at, audit.ErrNotKept)
	}
	return n, err
}

// Records returns some records after a message whose lines are kept.
func (s Source) Records(after int64, max int) ([]audit.Record, error) {
	records, err := s.allocator.journal.Audit.Records(after, max)
	from, _, _ := s.allocator.journal.Bounds()
	for len(records) > 0 && records[0].Byte < from {
		records = records[1:]
	}
	return records, err
}

// State returns the state after a message, or nil where there is no snapshot of it.
func (s Source) State(ctx context.Context, message int64) ([]byte, error) {
	found, _, err := s.allocator.log.Snapshots(ctx)
	if err != nil {
		return nil, err
	}
	for _, one := range found {
		if one.Messages == message {
			content, err := s.allocator.log.Content(ctx, one)
			return content.State, err
		}
	}
	return nil, nil
}

// Last returns the number of the last message, once all messages are present that the list had at the start.
func (s Source) Last() (message int64, is bool) {
	return s.allocator.positions.last().Messages, s.allocator.Ready() == nil
}

const (
	maxHeld     = 1 << 30         // bytes of the journal that are kept for an archive that is not written
	archiveTime = 5 * time.Second // for which a snapshot waits for the archive
)

// waitForArchive waits until the archive has the messages that are pruned with the next snapshot: after that, they could not be replayed.
func (a *Allocator) waitForArchive(ctx context.Context, upTo oplog.Position) {
	if a.config.Archive == nil {
		return
	}
	ctx, cancel := context.WithTimeout(ctx, archiveTime)
	defer cancel()
	a.config.Archive.WaitFor(ctx, upTo.Messages)
}

// prunable returns the position up to which the journal can be pruned, at most a snapshot's. What the archive still needs is kept, up to a size.
func (a *Allocator) prunable(to oplog.Position) (messages, bytes int64) {
	if a.config.Archive != nil {
		messages, bytes := a.config.Archive.Needed()
		if bytes < to.Bytes && to.Bytes-bytes <= maxHeld {
			return messages, bytes
		}
	}
	return to.Messages, to.Bytes
}
