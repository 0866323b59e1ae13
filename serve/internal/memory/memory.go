// Package memory, outside the proof, bounds the memory of this process: it collects garbage seldom while little of the heap is in use, and more
// often when much is.
package memory

import (
	"context"
	"os"
	"runtime"
	"runtime/debug"
	"runtime/metrics"
)

const (
	room         = 52 << 20 // bytes up to which the heap may grow before garbage is collected
	leastPercent = 40       // of what is in use, that may be garbage: with less, collecting takes too much processor time
	mostPercent  = 600
)

// Run adapts the percentage of garbage after each collection, until the context ends. It does nothing where GOGC is set.
func Run(ctx context.Context) {
	if os.Getenv("GOGC") != "" {
		return
	}
	percent, collected := leastPercent, make(chan struct{}, 1)
	debug.SetGCPercent(percent)
	watch(ctx, collected)
	for {
		select {
		case <-collected:
		case <-ctx.Done():
			return
		}
		if next := percentFor(inUse(percent)); next < percent || next > percent+percent/8 {
			percent = next
			debug.SetGCPercent(percent)
		}
	}
}

// percentFor returns the percentage of garbage for a number of bytes in use.
func percentFor(used uint64) int {
	if used == 0 || used > room {
		return leastPercent
	}
	percent := int((room - used) * 100 / used)
	switch {
	case percent < leastPercent:
		return leastPercent
	case percent > mostPercent:
		return mostPercent
	}
	return percent
}

// inUse returns about how many bytes were in use after the last collection, which had a percentage.
func inUse(percent int) uint64 {
	goal := []metrics.Sample{{Name: "/gc/heap/goal:bytes"}}
	metrics.Read(goal)
	if goal[0].Value.Kind() != metrics.KindUint64 {
		return 0
	}
	return goal[0].Value.Uint64() * 100 / uint64(100+percent)
}

// sentinel is garbage whose collection is noticed.
type sentinel struct{ collected chan<- struct{} }

// watch makes each collection be reported, until the context ends.
func watch(ctx context.Context, collected chan<- struct{}) {
	runtime.SetFinalizer(&sentinel{collected}, func(s *sentinel) {
		if ctx.Err() != nil {
			return
		}
		select {
		case s.collected <- struct{}{}:
		default:
		}
		watch(ctx, s.collected)
	})
}
