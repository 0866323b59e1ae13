// Many launches: each task runs, ends, and is acknowledged. Outside the proof.

package main

import (
	"context"
	"fmt"
	"sync"
	"sync/atomic"
	"time"

	"gateway/internal/mesos/codec"
)

// perOffer is how many tasks are launched on an offer, at most.
const perOffer = 15

// pace gives out launches at a rate.
type pace struct {
	start time.Time
	given int64
}

// take returns how many of some launches are due.
func (p *pace) take(most int64) int64 {
	for {
		given := atomic.LoadInt64(&p.given)
		due := int64(*rate*time.Since(p.start).Seconds()) - given
		if due > most {
			due = most
		}
		if due <= 0 {
			return 0
		}
		if atomic.CompareAndSwapInt64(&p.given, given, given+due) {
			return due
		}
	}
}

// launch lets frameworks launch tasks at a rate, and counts those that ended, and how long each took from its ACCEPT to the framework's
// knowledge of its end.
func launch(ctx context.Context, c *client) error {
	var a *agents
	type step struct {
		ran
		state string
	}
	steps := make(chan step, 1<<20)
	a = &agents{client: c, onRun: func(agent string, task codec.Message) { steps <- step{ran{agent, task}, "TASK_RUNNING"} }}
	for k := 0; k < 128; k++ { // statuses of agents under way at once
		go func() {
			for one := range steps {
				check(a.report(ctx, one.agent, one.task, one.state))
				if one.state == "TASK_RUNNING" {
					steps <- step{one.ran, "TASK_FINISHED"}
				}
			}
		}()
	}
	if err := a.start(ctx, *agentCount); err != nil {
		return err
	}
	var launched, finished, lost int64
	var mu sync.Mutex
	sent, took, reasons := map[string]time.Time{}, []time.Duration{}, map[string]int{}
	paced := &pace{start: time.Now()}
	for k := 0; k < *count; k++ {
		acks, offers := make(chan codec.Message, 1<<20), make(chan codec.Message, 1<<16)
		var f *framework
		f = &framework{client: c, role: fmt.Sprintf("load%d", k), onOffer: func(o codec.Message) { offers <- o }, onUpdate: func(s codec.Message) {
			switch s.Enum("state") {
			case "TASK_RUNNING":
			case "TASK_FINISHED":
				atomic.AddInt64(&finished, 1)
				mu.Lock()
				took = append(took, time.Since(sent[s.Text("task_id.value")]))
				delete(sent, s.Text("task_id.value"))
				mu.Unlock()
			default:
				atomic.AddInt64(&lost, 1)
				mu.Lock()
				reasons[s.Text("message")]++
				mu.Unlock()
			}
			acks <- s
		}}
		check(f.subscribe(ctx))
		for n := 0; n < 8; n++ {
			go func() {
				for s := range acks {
					check(f.acknowledge(ctx, s))
				}
			}()
		}
		for n := 0; n < 4; n++ {
			go func() {
				for o := range offers {
					var ids []string
					room := int64(perOffer)
					for _, r := range o.List("resources") {
						if each := needs[r.Text("name")]; each > 0 && int64(r.Float("scalar.value")/each) < room {
							room = int64(r.Float("scalar.value") / each)
						}
					}
					mu.Lock()
					for i := paced.take(room); i > 0; i-- {
						ids = append(ids, fmt.Sprintf("t%d", atomic.AddInt64(&launched, 1)))
						sent[ids[len(ids)-1]] = time.Now()
					}
					mu.Unlock()
					if len(ids) == 0 {
						check(f.decline(ctx, o, 0.2))
						continue
					}
					check(f.accept(ctx, o, ids))
				}
			}()
		}
	}
	time.Sleep(3 * time.Second)
	began, from, before := time.Now(), atomic.LoadInt64(&finished), atomic.LoadInt64(&launched)
	mu.Lock()
	took = nil
	mu.Unlock()
	time.Sleep(*seconds)
	during := time.Since(began).Seconds()
	mu.Lock()
	defer mu.Unlock()
	fmt.Printf("%d frameworks on %d agents, each second: %.0f tasks launched, %.0f ended; %d under way, %d lost %v\n", *count, *agentCount, float64(atomic.LoadInt64(&launched)-before)/during,
		float64(atomic.LoadInt64(&finished)-from)/during, launched-finished-lost, lost, reasons)
	fmt.Printf("from ACCEPT to TASK_FINISHED: %s\n", quantiles(took))
	return nil
}
