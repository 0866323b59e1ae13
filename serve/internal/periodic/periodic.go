// Package periodic, outside the proof, appends the messages that gateways add by themselves: cycles, rescinds of late offers, and markers of
// snapshots.
package periodic

import (
	"context"
	"encoding/json"
	"errors"
	"fmt"
	"log"
	"time"

	"gateway/internal/allocator"
	"gateway/internal/oplog"
	"gateway/internal/registry"
)

// Config says which messages are appended, and when.
type Config struct {
	Cycle        time.Duration // between cycles; 0: callers send them
	OfferTimeout time.Duration // after which an offer is rescinded; 0: never
	Window       time.Duration // for which keys of pruned messages are kept
}

// Runner appends messages under keys that name their cause. So each gateway can append a message, and it is in the list only once.
type Runner struct {
	config    Config
	log       *oplog.Log
	allocator *allocator.Allocator
	registry  *registry.Registry
	ready     func() error // nil while this gateway may append
}

// New returns a runner.
func New(config Config, log *oplog.Log, allocator *allocator.Allocator, registry *registry.Registry, ready func() error) *Runner {
	return &Runner{config, log, allocator, registry, ready}
}

// append appends an event, unless another gateway has done so.
func (r *Runner) append(ctx context.Context, key string, event map[string]interface{}) {
	line, err := json.Marshal(event)
	if err == nil {
		b := &oplog.Batch{Key: key}
		b.Add(line, event["event"] == "cycle")
		err = r.put(ctx, b)
	}
	if err != nil && ctx.Err() == nil {
		log.Printf("appending %s: %v", key, err)
	}
}

func (r *Runner) put(ctx context.Context, b *oplog.Batch) error {
	ctx, cancel := context.WithTimeout(ctx, 10*time.Second)
	defer cancel()
	_, err := r.log.Append(ctx, b)
	wasApplied, full := (*oplog.AppliedError)(nil), (*oplog.FullError)(nil)
	if errors.As(err, &wasApplied) || errors.Is(err, oplog.ErrNotDue) || errors.As(err, &full) { // callers get an error that says that the store is full
		return nil
	}
	return err
}

// RunCycles appends a cycle in each slot of time. While nothing happens, one slot in ten is enough, for filters that expire.
func (r *Runner) RunCycles(ctx context.Context) {
	for ctx.Err() == nil {
		now := r.log.Clock.Now().UnixNano()
		slot := now/int64(r.config.Cycle) + 1
		select {
		case <-time.After(time.Duration(slot*int64(r.config.Cycle) - now)):
		case <-ctx.Done():
			return
		}
		if r.ready() == nil && (slot%10 == 0 || !r.registry.Info().Idle) {
			r.append(ctx, fmt.Sprintf("cycle/%d", slot), map[string]interface{}{"event": "cycle"})
		}
	}
}

const ticks = 4 // of Run, a second

// Run looks for due calls until the context ends.
func (r *Runner) Run(ctx context.Context) {
	for tick := 0; ctx.Err() == nil; tick++ {
		if r.ready() == nil {
			if tick%ticks == 0 {
				r.rescindLate(ctx)
			}
			if b, is := r.allocator.Marker(r.log.Clock.Now()); is {
				if err := r.put(ctx, b); err != nil && ctx.Err() == nil {
					log.Printf("appending %s: %v", b.Key, err)
				}
			}
			if tick%(30*ticks) == 0 {
				if err := r.log.Kept.DropExpired(ctx, r.log.Clock.Now(), r.config.Window); err != nil && ctx.Err() == nil {
					log.Print(err)
				}
			}
		}
		select {
		case <-time.After(time.Second / ticks):
		case <-ctx.Done():
		}
	}
}

func (r *Runner) rescindLate(ctx context.Context) {
	if r.config.OfferTimeout == 0 {
		return
	}
	late, epoch := r.registry.LateOffers(r.log.Clock.Now().Add(-r.config.OfferTimeout).UnixMilli())
	for _, offer := range late {
		r.append(ctx, fmt.Sprintf("rescind/%d/%d", epoch, offer), map[string]interface{}{"event": "rescind", "offer": offer})
	}
}
