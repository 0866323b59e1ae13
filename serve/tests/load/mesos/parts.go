// Simulated agents and frameworks. Outside the proof.

package main

import (
	"context"
	"crypto/rand"
	"fmt"
	"log"
	"sync"
	"sync/atomic"
	"time"

	"gateway/internal/mesos/codec"
)

// agents are simulated: what a task does is what onRun says.
type agents struct {
	*client
	registered int64
	onRun      func(agent string, task codec.Message)
}

// start registers agents, and returns when all are registered.
func (a *agents) start(ctx context.Context, count int) error {
	slots := make(chan bool, 64) // registering at once
	for k := 0; k < count; k++ {
		id := fmt.Sprintf("n%d", k)
		info := codec.New("mesos.AgentInfo").Set("hostname", id).Set("port", 5051)
		for _, r := range []codec.Message{scalar("cpus", 64), scalar("mem", 262144)} {
			info.Add("resources", r)
		}
		for _, name := range []string{"rack", "zone"} {
			info.Add("attributes", codec.New("mesos.Attribute").Set("name", name).Set("type", "TEXT").Set("text.value", fmt.Sprint(k%40)))
		}
		call := codec.New("durzhanok.link.Call").Set("type", "REGISTER").Set("agent_id.value", id).Set("agent_info", info)
		slots <- true
		go func() {
			var once sync.Once
			err := a.listen(ctx, linkPath, "durzhanok.link.Event", call, func(string) {}, func(e codec.Message) {
				switch e.Enum("type") {
				case "REGISTERED":
					atomic.AddInt64(&a.registered, 1)
					once.Do(func() { <-slots })
				case "RUN":
					for _, t := range e.List("tasks") {
						a.onRun(id, t)
					}
				}
			})
			if ctx.Err() == nil {
				log.Fatalf("agent %s: %v", id, err)
			}
		}()
	}
	_, err := wait("registration", 5*time.Minute, func() bool { return atomic.LoadInt64(&a.registered) == int64(count) })
	return err
}

// report sends a status.
func (a *agents) report(ctx context.Context, agent string, task codec.Message, state string) error {
	uuid := make([]byte, 16)
	rand.Read(uuid)
	status := codec.New("mesos.TaskStatus").Set("task_id.value", task.Text("task_info.task_id.value")).Set("state", state).Set("uuid", uuid).
		Set("source", "SOURCE_EXECUTOR").Set("timestamp", float64(time.Now().UnixMilli())/1000)
	call := codec.New("durzhanok.link.Call").Set("type", "UPDATE").Set("agent_id.value", agent).Set("framework_id.value", task.Text("framework_id.value")).
		Set("launch", task.Int("launch")).Set("status", status)
	return a.call(ctx, linkPath, "", call)
}

// framework is a subscribed framework. Its events come one after another.
type framework struct {
	*client
	id, stream string
	role       string
	onOffer    func(offer codec.Message)
	onUpdate   func(status codec.Message)
	offers     int64
	updates    int64
	done       chan struct{}
	cancel     func()
}

// subscribe returns a framework as soon as it has SUBSCRIBED.
func (f *framework) subscribe(ctx context.Context) error {
	ctx, f.cancel = context.WithCancel(ctx)
	f.done = make(chan struct{})
	info := codec.New("mesos.FrameworkInfo").Set("user", "root").Set("name", "load").Set("failover_timeout", 3600.0)
	info.Add("roles", f.role).Add("capabilities", codec.New("mesos.FrameworkInfo.Capability").Set("type", "MULTI_ROLE"))
	call := codec.New("mesos.scheduler.Call").Set("type", "SUBSCRIBE")
	if f.id != "" {
		info.Set("id.value", f.id)
		call.Set("framework_id.value", f.id)
	}
	call.Set("subscribe.framework_info", info)
	subscribed := make(chan bool)
	stream := ""
	go func() {
		err := f.listen(ctx, schedulerPath, "mesos.scheduler.Event", call, func(id string) { stream = id }, func(e codec.Message) {
			switch e.Enum("type") {
			case "SUBSCRIBED":
				f.id, f.stream = e.Text("subscribed.framework_id.value"), stream
				close(subscribed)
			case "OFFERS":
				for _, o := range e.List("offers.offers") {
					atomic.AddInt64(&f.offers, 1)
					f.onOffer(o)
				}
			case "UPDATE":
				atomic.AddInt64(&f.updates, 1)
				f.onUpdate(e.Sub("update.status"))
			case "ERROR":
				log.Fatal(e.Text("error.message"))
			}
		})
		if ctx.Err() == nil {
			log.Fatalf("the stream of a framework: %v", err)
		}
		close(f.done)
	}()
	select {
	case <-subscribed:
		return nil
	case <-time.After(time.Minute):
		return fmt.Errorf("not subscribed within a minute")
	}
}

func (f *framework) newCall(kind string) codec.Message {
	return codec.New("mesos.scheduler.Call").Set("type", kind).Set("framework_id.value", f.id)
}

func (f *framework) send(ctx context.Context, call codec.Message) error {
	return f.call(ctx, schedulerPath, f.stream, call)
}

func (f *framework) acknowledge(ctx context.Context, status codec.Message) error {
	if len(status.Bytes("uuid")) == 0 {
		return nil
	}
	call := f.newCall("ACKNOWLEDGE").Set("acknowledge.agent_id", status.Sub("agent_id")).Set("acknowledge.task_id", status.Sub("task_id")).Set("acknowledge.uuid", status.Bytes("uuid"))
	return f.send(ctx, call)
}

// needs is what each task uses.
var needs = map[string]float64{"cpus": 0.125, "mem": 32}

// accept launches tasks on an offer.
func (f *framework) accept(ctx context.Context, offer codec.Message, ids []string) error {
	launch := codec.New("mesos.Offer.Operation").Set("type", "LAUNCH")
	infos := codec.New("mesos.Offer.Operation.Launch")
	for _, id := range ids {
		info := codec.New("mesos.TaskInfo").Set("name", "t").Set("task_id.value", id).Set("agent_id", offer.Sub("agent_id")).Set("command.value", "true")
		for _, name := range []string{"cpus", "mem"} {
			info.Add("resources", scalar(name, needs[name]))
		}
		infos.Add("task_infos", info)
	}
	launch.Set("launch", infos)
	accept := codec.New("mesos.scheduler.Call.Accept").Add("offer_ids", offer.Sub("id")).Add("operations", launch).Set("filters.refuse_seconds", 0.0)
	return f.send(ctx, f.newCall("ACCEPT").Set("accept", accept))
}

func (f *framework) decline(ctx context.Context, offer codec.Message, seconds float64) error {
	decline := codec.New("mesos.scheduler.Call.Decline").Add("offer_ids", offer.Sub("id")).Set("filters.refuse_seconds", seconds)
	return f.send(ctx, f.newCall("DECLINE").Set("decline", decline))
}
