// Package allocator, outside the proof, runs the proved program as a child: it feeds it the lines of the list in order, compares their echoes,
// writes the replies to the journal, and makes snapshots. It computes no reply itself.
package allocator

import (
	"context"
	"errors"
	"fmt"
	"log"
	"sync"
	"sync/atomic"
	"time"

	"gateway/internal/oplog"
	"gateway/internal/registry"
)

// Config says how an allocator runs.
type Config struct {
	Program string // drf
	Folder  string // of the journal and the snapshots

	SnapshotMessages int64         // messages between snapshots
	SnapshotBytes    int64         // bytes of the journal between snapshots, at which one is due whatever else
	SnapshotApart    time.Duration // the least time between snapshots, unless one is due by bytes or by SnapshotMost; replies are kept for that long
	SnapshotMost     int64         // messages between snapshots, at which one is due whatever the time
	EpochLines       int64         // lines of an epoch

	Archive Archive // or nil
}

// Allocator follows the list with a child of its own. There is no leader: each gateway has an allocator, and all give the same replies.
type Allocator struct {
	config    Config
	log       *oplog.Log
	journal   *Journal
	registry  *registry.Registry
	snapshots *snapshots
	positions *positions
	fail      func(error)
	waiting   atomic.Int64 // messages that the child was fed, and whose replies are not applied

	mu       sync.Mutex
	pid      int
	restarts int
	events   []string // newer ones that the program knows
}

// New returns an allocator. Run must be called for it to reply. Fail is called when the gateway must stop.
func New(config Config, log *oplog.Log, journal *Journal, registry *registry.Registry, fail func(error)) *Allocator {
	a := &Allocator{config: config, log: log, journal: journal, registry: registry, positions: newPositions(), fail: fail}
	a.snapshots = &snapshots{allocator: a}
	return a
}

// epochError ends a generation: the next one resumes from a snapshot in which numbers begin again.
type epochError struct{ from oplog.Snapshot }

func (epochError) Error() string { return "an epoch begins" }

// Run keeps a child running until the context ends, or until its data contradict the list.
func (a *Allocator) Run(ctx context.Context) error {
	for ctx.Err() == nil {
		started := time.Now()
		a.adoptSettings(ctx)
		from, revision, err := a.snapshots.start(ctx)
		if err == nil {
			err = a.journal.begin(from)
		}
		if err == nil {
			a.positions.begin(from.Position)
			err = a.generation(ctx, from, revision)
		}
		for next := (epochError{}); errors.As(err, &next); {
			if _, revision, err = a.log.Snapshots(ctx); err == nil { // the marker's own revision may be compacted
				err = a.generation(ctx, next.from, revision)
			}
		}
		a.positions.setFault(err.Error())
		a.mu.Lock()
		a.restarts++
		a.mu.Unlock()
		if oplog.IsFatal(err) {
			return err
		}
		if ctx.Err() == nil {
			log.Printf("the allocator is restarted: %v", err)
			select {
			case <-time.After(time.Until(started.Add(time.Second))):
			case <-ctx.Done():
			}
		}
	}
	return nil
}

// Status is what the allocator reports of itself.
type Status struct {
	oplog.Position
	Fault    string
	Snapshot int // the newest that was made here
	Pid      int
	Restarts int
	Lag      int64 // messages that came, and whose replies are not applied
}

// Status returns how far the allocator has got.
func (a *Allocator) Status() Status {
	a.mu.Lock()
	s := Status{Pid: a.pid, Restarts: a.restarts, Lag: a.waiting.Load()}
	a.mu.Unlock()
	s.Position, s.Fault, s.Snapshot = a.positions.last(), a.positions.getFault(), a.snapshots.newest().Number
	return s
}

// NotReadyError reports that the allocator has not caught up with the list.
type NotReadyError struct{ Reason string }

func (e *NotReadyError) Error() string { return "this gateway is not ready: " + e.Reason }

// Ready returns a *NotReadyError unless the allocator has caught up with the list.
func (a *Allocator) Ready() error {
	if fault := a.positions.getFault(); fault != "" {
		return &NotReadyError{fault}
	}
	return nil
}

// WaitReady waits a few seconds for a child that was just restarted.
func (a *Allocator) WaitReady(ctx context.Context) error {
	if a.Ready() == nil {
		return nil
	}
	ctx, cancel := context.WithTimeout(ctx, 3*time.Second)
	defer cancel()
	a.positions.waitReady(ctx)
	return a.Ready()
}

// Reply is what the allocator replied to a message.
type Reply struct {
	Message   int64
	FirstLine int64
	Lines     []byte
}

// ErrDue reports that the message is in the list, and that its replies did not come in time.
var ErrDue = errors.New("the replies are due")

// ErrForgotten reports that the message is in the list or was, and that its replies are no longer kept here.
var ErrForgotten = errors.New("the replies are no longer kept here")

// Reply waits for the replies to the message at a revision. Errors: ErrDue, ErrForgotten.
func (a *Allocator) Reply(ctx context.Context, at oplog.Revision) (Reply, error) {
	before, after, err := a.positions.wait(ctx, at)
	if err != nil {
		return Reply{}, err
	}
	return a.read(before, after)
}

// ReplyTo returns the replies to the message with a number, which may have left the list. Error: ErrForgotten.
func (a *Allocator) ReplyTo(message int64) (Reply, error) {
	before, after, is := a.positions.ofMessage(message)
	if !is {
		return Reply{}, ErrForgotten
	}
	return a.read(before, after)
}

// read reads the replies between two positions.
func (a *Allocator) read(before, after oplog.Position) (Reply, error) {
	text := make([]byte, after.Bytes-before.Bytes)
	if _, err := a.journal.ReadAt(text, before.Bytes); err != nil {
		return Reply{}, fmt.Errorf("%w: %v", ErrForgotten, err)
	}
	return Reply{after.Messages, before.Lines + 1, everySecondLine(text)}, nil
}

// everySecondLine returns the replies of a part of the journal.
func everySecondLine(text []byte) (replies []byte) {
	isReply := false
	for start, k := 0, 0; k < len(text); k++ {
		if text[k] == '\n' {
			if isReply {
				replies = append(replies, text[start:k+1]...)
			}
			isReply, start = !isReply, k+1
		}
	}
	return replies
}

// Marker returns the marker that is due now, if one is.
func (a *Allocator) Marker(now time.Time) (*oplog.Batch, bool) {
	return a.snapshots.due(a.positions.last(), now)
}
