// The space that the frameworks of one principal can use in the replicated state. Without a limit, a principal that acknowledges nothing could fill
// it for all. Outside the proof.

package server

import (
	"sync"
	"time"
)

const countAgain = time.Second // in which the bytes of a principal are estimated from its calls to this gateway

// budget limits bytes of the state by principal.
type budget struct {
	max   int64 // or 0 for no limit
	count func(principal string) int64

	mu   sync.Mutex
	held map[string]*held
}

// held is the space that a principal uses: as counted at a time, and what was added here since then.
type held struct {
	at    time.Time
	bytes int64
}

// take reports whether a principal may add this many bytes, and counts them if so.
func (b *budget) take(principal string, bytes int64) bool {
	if b.max == 0 {
		return true
	}
	b.mu.Lock()
	defer b.mu.Unlock()
	h := b.held[principal]
	if h == nil {
		h = &held{}
		b.held[principal] = h
	}
	if time.Since(h.at) > countAgain {
		h.at, h.bytes = time.Now(), b.count(principal)
	}
	if h.bytes+bytes > b.max {
		return false
	}
	h.bytes += bytes
	return true
}
