// The positions of the messages that were answered, and the callers that wait for them. Outside the proof.

package allocator

import (
	"context"
	"encoding/binary"
	"sort"
	"sync"

	"gateway/internal/oplog"
)

// positions has the position after each message, in about 5 bytes each: replies are kept for a minute, which may be a million messages.
type positions struct {
	mu      sync.Mutex
	fault   string         // why the allocator is not ready
	changed chan struct{}  // closed when the fault changes
	end     oplog.Position // after the last message
	chunks  []chunk        // the oldest first
	waiting map[oplog.Revision]chan struct{}
}

const chunkSize = 64 // messages

// chunk has the positions after some messages that follow one another.
type chunk struct {
	start oplog.Position // before its first message
	count int
	steps []byte // for each message, how far it goes
}

func newPositions() *positions {
	return &positions{fault: "starting", chunks: []chunk{{}}, changed: make(chan struct{}), waiting: map[oplog.Revision]chan struct{}{}}
}

// begin starts again from a position. Those who wait look again.
func (p *positions) begin(from oplog.Position) {
	p.mu.Lock()
	defer p.mu.Unlock()
	p.end, p.chunks = from, []chunk{{start: from}}
	p.wakeAll()
	p.setFaultLocked("replaying")
}

func (p *positions) setFault(fault string) {
	p.mu.Lock()
	defer p.mu.Unlock()
	p.setFaultLocked(fault)
}

func (p *positions) setFaultLocked(fault string) {
	p.fault = fault
	close(p.changed)
	p.changed = make(chan struct{})
}

func (p *positions) getFault() string {
	p.mu.Lock()
	defer p.mu.Unlock()
	return p.fault
}

// add adds positions, and ends the replay when the list was read to its end.
func (p *positions) add(new []oplog.Position, isWhole bool) {
	p.mu.Lock()
	defer p.mu.Unlock()
	for _, next := range new {
		if p.chunks[len(p.chunks)-1].count == chunkSize {
			p.chunks = append(p.chunks, chunk{start: p.end})
		}
		p.chunks[len(p.chunks)-1].add(p.end, next)
		p.end = next
		if w, is := p.waiting[next.Revision]; is {
			close(w)
			delete(p.waiting, next.Revision)
		}
	}
	if isWhole {
		p.wakeAll()
		p.setFaultLocked("")
	}
}

func (p *positions) wakeAll() {
	for at, w := range p.waiting {
		close(w)
		delete(p.waiting, at)
	}
}

func (p *positions) last() oplog.Position {
	p.mu.Lock()
	defer p.mu.Unlock()
	return p.end
}

// waitReady waits until there is no fault, or the context ends.
func (p *positions) waitReady(ctx context.Context) {
	for {
		p.mu.Lock()
		fault, changed := p.fault, p.changed
		p.mu.Unlock()
		if fault == "" {
			return
		}
		select {
		case <-changed:
		case <-ctx.Done():
			return
		}
	}
}

// wait waits for the message at a revision, and returns the positions before and after it. Errors: ErrDue, ErrForgotten.
func (p *positions) wait(ctx context.Context, at oplog.Revision) (before, after oplog.Position, err error) {
	for {
		p.mu.Lock()
		if !p.end.Before(at) {
			before, after, is := p.at(at)
			p.mu.Unlock()
			if !is {
				return before, after, ErrForgotten
			}
			return before, after, nil
		}
		w, is := p.waiting[at]
		if !is {
			w = make(chan struct{})
			p.waiting[at] = w
		}
		p.mu.Unlock()
		select {
		case <-w:
		case <-ctx.Done():
			return before, after, ErrDue
		}
	}
}

// at returns the positions before and after the message at a revision. The lock is held.
func (p *positions) at(revision oplog.Revision) (before, after oplog.Position, is bool) {
	k := sort.Search(len(p.chunks), func(k int) bool { return !p.chunks[k].start.Before(revision) }) - 1
	if k < 0 {
		return before, after, false
	}
	return p.chunks[k].find(func(one oplog.Position) bool { return one.Revision == revision })
}

// ofMessage returns the positions before and after the message with a number.
func (p *positions) ofMessage(number int64) (before, after oplog.Position, is bool) {
	p.mu.Lock()
	defer p.mu.Unlock()
	k := sort.Search(len(p.chunks), func(k int) bool { return p.chunks[k].start.Messages >= number }) - 1
	if k < 0 {
		return before, after, false
	}
	return p.chunks[k].find(func(one oplog.Position) bool { return one.Messages == number })
}

// forget drops the positions before a snapshot's, but for some that share a chunk with later ones.
func (p *positions) forget(from oplog.Revision) {
	p.mu.Lock()
	defer p.mu.Unlock()
	k := 0
	for k+1 < len(p.chunks) && !from.Before(p.chunks[k+1].start.Revision) {
		k++
	}
	p.chunks = append([]chunk(nil), p.chunks[k:]...)
}

// add adds the position after the message that follows one at a position.
func (c *chunk) add(now, next oplog.Position) {
	for _, step := range [...]int64{next.Main - now.Main, int64(next.Sub), next.Lines - now.Lines, next.Bytes - now.Bytes} {
		c.steps = binary.AppendUvarint(c.steps, uint64(step))
	}
	if c.count++; c.count == chunkSize {
		c.steps = append([]byte(nil), c.steps...) // without the room for more
	}
}

// find returns the first position that is the wanted one, and the position before it.
func (c *chunk) find(isWanted func(oplog.Position) bool) (before, after oplog.Position, is bool) {
	after = c.start
	for k, rest := 0, c.steps; k < c.count && !is; k++ {
		before = after
		after, rest = stepFrom(before, rest)
		is = isWanted(after)
	}
	return before, after, is
}

// stepFrom returns the position after the message that follows one at a position, and the steps after it.
func stepFrom(now oplog.Position, steps []byte) (next oplog.Position, rest []byte) {
	var by [4]int64
	for k := range by {
		step, size := binary.Uvarint(steps)
		by[k], steps = int64(step), steps[size:]
	}
	next = oplog.Position{Revision: oplog.Revision{Main: now.Main + by[0], Sub: int(by[1])}, Messages: now.Messages + 1, Lines: now.Lines + by[2], Bytes: now.Bytes + by[3]}
	return next, steps
}
