// Command mesos measures the scheduler API and the link of agents, over a gateway that runs. Agents are simulated. Outside the proof.
//
//	mesos -url URL -token TOKEN -agents 4096 -tasks 5000 scale      how long a subscription, its offers and a reconciliation take
//	mesos -url URL -token TOKEN -agents 100 -rate 500 status        how long statuses take from agents to a framework
//	mesos -url URL -token TOKEN -agents 100 -frameworks 10 -rate 1000 launch   how many tasks a second are launched, run and end
//
// Start the gateway with -limit-streams 10000 and a short -cycle. Figures of a machine that does other work say little.
package main

import (
	"context"
	"flag"
	"fmt"
	"log"
	"os"
	"sort"
	"strings"
	"sync"
	"sync/atomic"
	"time"

	"gateway/internal/mesos/codec"
)

var (
	url        = flag.String("url", "http://127.0.0.1:8450", "the gateway")
	token      = flag.String("token", "", "a token with the right admin")
	principal  = flag.String("principal", "admin", "its name")
	agentCount = flag.Int("agents", 100, "simulated agents")
	taskCount  = flag.Int("tasks", 5000, "live tasks of scale")
	rate       = flag.Float64("rate", 500, "statuses a second of status, tasks a second of launch")
	count      = flag.Int("frameworks", 10, "frameworks of launch")
	seconds    = flag.Duration("for", 20*time.Second, "time that status and launch take")
)

func main() {
	flag.Parse()
	c := newClient(*url, *principal, *token)
	measure := map[string]func(context.Context, *client) error{"scale": scale, "status": status, "launch": launch}[flag.Arg(0)]
	if measure == nil {
		log.Fatal("expected scale, status or launch")
	}
	text, _ := os.ReadFile("/proc/loadavg")
	fmt.Printf("load before: %s", text)
	if err := measure(context.Background(), c); err != nil {
		log.Fatal(err)
	}
}

func check(err error) {
	if err != nil {
		log.Fatal(err)
	}
}

// tasksOf is a set of tasks that run, with what their agents need to report of them.
type tasksOf struct {
	sync.Mutex
	list []ran
}

type ran struct {
	agent string
	task  codec.Message
}

func (t *tasksOf) add(agent string, task codec.Message) {
	t.Lock()
	defer t.Unlock()
	t.list = append(t.list, ran{agent, task})
}

func (t *tasksOf) count() int {
	t.Lock()
	defer t.Unlock()
	return len(t.list)
}

// fill launches tasks until there are as many as wanted, a few on each agent.
func fill(ctx context.Context, f *framework, running *tasksOf, wanted, each int) error {
	var mu sync.Mutex
	offered := map[string]codec.Message{}
	f.onOffer = func(o codec.Message) {
		mu.Lock()
		offered[o.Text("agent_id.value")] = o
		mu.Unlock()
	}
	if err := f.subscribe(ctx); err != nil {
		return err
	}
	launched := 0
	for end := time.Now().Add(5 * time.Minute); launched < wanted; time.Sleep(10 * time.Millisecond) {
		mu.Lock()
		taken := offered
		offered = map[string]codec.Message{}
		mu.Unlock()
		for _, o := range taken {
			var ids []string
			for ; len(ids) < each && launched < wanted; launched++ {
				ids = append(ids, fmt.Sprintf("task-%d", launched))
			}
			if len(ids) == 0 {
				if err := f.decline(ctx, o, 3600); err != nil {
					return err
				}
			} else if err := f.accept(ctx, o, ids); err != nil {
				return err
			}
		}
		if time.Now().After(end) {
			return fmt.Errorf("only %d tasks were launched", launched)
		}
	}
	_, err := wait("tasks", time.Minute, func() bool { return running.count() == wanted })
	return err
}

// scale measures a subscription with many agents and tasks.
func scale(ctx context.Context, c *client) error {
	running := &tasksOf{}
	a := &agents{client: c, onRun: running.add}
	start := time.Now()
	if err := a.start(ctx, *agentCount); err != nil {
		return err
	}
	fmt.Printf("%d agents registered in %v\n", *agentCount, time.Since(start).Round(time.Millisecond))
	var f *framework
	f = &framework{client: c, role: "load", onUpdate: func(s codec.Message) { check(f.acknowledge(ctx, s)) }}
	if err := fill(ctx, f, running, *taskCount, 1 + *taskCount / *agentCount); err != nil {
		return err
	}
	for from := 0; from < len(running.list); from += 64 {
		var group sync.WaitGroup
		for k := from; k < from+64 && k < len(running.list); k++ {
			group.Add(1)
			go func(one ran) {
				defer group.Done()
				check(a.report(ctx, one.agent, one.task, "TASK_RUNNING"))
			}(running.list[k])
		}
		group.Wait()
	}
	if _, err := wait("statuses", time.Minute, func() bool { return atomic.LoadInt64(&f.updates) >= int64(*taskCount) }); err != nil {
		return err
	}
	time.Sleep(3 * time.Second)
	f.cancel()
	<-f.done
	time.Sleep(3 * time.Second) // until its offers have ended
	for round := 0; round < 3; round++ {
		again := &framework{client: c, role: f.role, id: f.id, onOffer: func(codec.Message) {}}
		states := map[string]bool{}
		var known int64
		again.onUpdate = func(s codec.Message) {
			if states[s.Text("task_id.value")] = true; s.Enum("reason") == "REASON_RECONCILIATION" {
				atomic.AddInt64(&known, 1)
			}
		}
		start = time.Now()
		check(again.subscribe(ctx))
		subscribed := time.Since(start)
		check(again.send(ctx, again.newCall("RECONCILE").Set("reconcile", codec.New("mesos.scheduler.Call.Reconcile"))))
		_, err := wait("reconciliation", time.Minute, func() bool { return atomic.LoadInt64(&known) >= int64(*taskCount) })
		check(err)
		reconciled := time.Since(start)
		_, err = wait("offers", time.Minute, func() bool { return atomic.LoadInt64(&again.offers) >= int64(*agentCount) })
		check(err)
		fmt.Printf("subscribed after %v, %d tasks reconciled after %v, %d offers after %v\n", subscribed.Round(time.Millisecond), *taskCount, reconciled.Round(time.Millisecond), again.offers, time.Since(start).Round(time.Millisecond))
		again.cancel()
		<-again.done
		time.Sleep(3 * time.Second)
	}
	return nil
}

// status sends statuses at a rate, whatever becomes of them, and measures when the framework has each.
func status(ctx context.Context, c *client) error {
	running := &tasksOf{}
	a := &agents{client: c, onRun: running.add}
	if err := a.start(ctx, *agentCount); err != nil {
		return err
	}
	var mu sync.Mutex
	sent, took := map[string]time.Time{}, []time.Duration{}
	var f *framework
	acks := make(chan codec.Message, 100000)
	f = &framework{client: c, role: "load", onUpdate: func(s codec.Message) {
		now, uuid := time.Now(), string(s.Bytes("uuid"))
		mu.Lock()
		if at, is := sent[s.Text("task_id.value")]; is && s.Enum("state") == "TASK_RUNNING" {
			took = append(took, now.Sub(at))
			delete(sent, s.Text("task_id.value"))
		}
		mu.Unlock()
		if uuid != "" {
			acks <- s
		}
	}}
	for k := 0; k < 16; k++ {
		go func() {
			for s := range acks {
				check(f.acknowledge(ctx, s))
			}
		}()
	}
	wanted := int(*rate * seconds.Seconds())
	if err := fill(ctx, f, running, wanted, 1 + wanted / *agentCount); err != nil {
		return err
	}
	time.Sleep(2 * time.Second)
	ticks := time.NewTicker(time.Duration(float64(time.Second) / *rate))
	defer ticks.Stop()
	for _, one := range running.list {
		<-ticks.C
		go func(one ran) {
			mu.Lock()
			sent[one.task.Text("task_info.task_id.value")] = time.Now()
			mu.Unlock()
			check(a.report(ctx, one.agent, one.task, "TASK_RUNNING"))
		}(one)
	}
	if _, err := wait("statuses", time.Minute, func() bool { mu.Lock(); defer mu.Unlock(); return len(took) >= wanted }); err != nil {
		return err
	}
	fmt.Printf("%d statuses at %.0f a second: %s\n", wanted, *rate, quantiles(took))
	return nil
}

func quantiles(took []time.Duration) string {
	sort.Slice(took, func(i, j int) bool { return took[i] < took[j] })
	var texts []string
	for _, q := range []float64{0.5, 0.9, 0.99, 1} {
		at := int(q * float64(len(took)))
		if at >= len(took) {
			at = len(took) - 1
		}
		texts = append(texts, fmt.Sprintf("%g%%: %.1f ms", 100*q, float64(took[at].Microseconds())/1000))
	}
	return strings.Join(texts, ", ")
}
