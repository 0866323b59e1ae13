// Tests of the registry: against a slow definition, and of its subscriptions. Outside the proof.

package registry

import (
	"encoding/json"
	"fmt"
	"math/rand"
	"reflect"
	"runtime"
	"sort"
	"strings"
	"testing"
	"time"

	"golang.org/x/sys/unix"
)

type counts struct{ lines, made, ended int }

func (c *counts) Line(string, string, time.Duration) { c.lines++ }
func (c *counts) OfferMade(string)                   { c.made++ }
func (c *counts) OfferEnded(string, string)          { c.ended++ }
func (c *counts) FrameworkRemoved(string)            {}

func TestTextOf(t *testing.T) {
	for line, want := range map[string]string{
		`{"agent":"n1","event":"add_agent"}`: "n1", `{"event":"add_agent", "agent" : "n1"}`: "n1", `{"event":"x","role":"agent"}`: "", `{"event":"x","role":"agent","agent":"n1"}`: "n1",
		`{"agent":"a","agent":"b"}`: "b", `{"agent":"\u006e1"}`: "n1", `{"agent":7}`: "", `{"agent":["n1"]}`: "", `{}`: "", `x`: "", `{"agent`: "", `{"agent":`: "", "{\"agent\":\t\"n1\"}": "n1", `{"agent":""}`: "",
	} {
		if text := TextOf([]byte(line), "agent"); text != want {
			t.Errorf("%s: %q, want %q", line, text, want)
		}
	}
}

func TestKind(t *testing.T) {
	for line, want := range map[string]string{`{"event":"cycle"}`: "cycle", `{"event" : "cycle"}`: "cycle", `{"x":{"event":"a"},"event": "cycle"}`: "cycle", `{"event":"a","event":"cycle"}`: "cycle",
		`{"\u0065vent":"cycle"}`: "cycle", `{"\u0065vent":"cycle","x":{"event":"accept"}}`: "cycle", `{"x":"\"event\":\"a\"","event":"cycle"}`: "cycle", `{"event":7}`: "", `"event":"`: "", "": ""} {
		if kind := Kind([]byte(line)); kind != want {
			t.Errorf("%s: %s", line, kind)
		}
	}
}

// history makes random messages, whose replies are as an allocator's may be: some are refused.
type history struct {
	*rand.Rand
	next uint64
}

func (h *history) message(number int64) *Message {
	m := &Message{Number: number, Revision: number * 2, Last: true, At: number * 10}
	for n := 1 + h.Intn(3); n > 0; n-- {
		agent, framework, offer := fmt.Sprintf("n%d", h.Intn(4)), fmt.Sprintf("f%d", h.Intn(3)), uint64(h.Intn(int(h.next)+2))
		line, reply := "", `{"ok":true}`
		switch h.Intn(10) {
		case 0:
			var made []string
			for k := h.Intn(3); k > 0; k-- {
				h.next++
				made = append(made, fmt.Sprintf(`{"agent":"n%d","framework":"f%d","offer":%d,"resources":"cpus:1","role":"web"}`, h.Intn(4), h.Intn(3), h.next))
			}
			line, reply = `{"event":"cycle"}`, `{"offers":[`+strings.Join(made, ",")+`]}`
		case 1:
			line = fmt.Sprintf(`{"event":"accept","framework":"%s","offer":%d,"tasks":[{"task":"t%d","use":"cpus:1"},{"task":"u%d","use":"cpus:1"}]}`, framework, offer, number*4+int64(n), number*4+int64(n))
		case 2:
			line = fmt.Sprintf(`{"event":"decline","framework":"%s","offer":%d}`, framework, offer)
		case 3:
			line = fmt.Sprintf(`{"event":"rescind","offer":%d}`, offer)
		case 4:
			line = fmt.Sprintf(`{"event":"%s","agent":"%s"}`, []string{"add_agent", "remove_agent", "deactivate_agent"}[h.Intn(3)], agent)
		case 5:
			line = fmt.Sprintf(`{"event":"%s","framework":"%s"}`, []string{"add_framework", "remove_framework"}[h.Intn(2)], framework)
		case 6:
			line = fmt.Sprintf(`{"event":"finish","framework":"%s","task":"t%d"}`, framework, h.Int63n(number*4+4))
		case 7:
			line = `{"event":"set_weight","role":"web","weight":"2"}`
		case 8:
			line, reply = fmt.Sprintf(`{"event":"remove_framework","framework":"%s"}`, framework), `{"name":"UnknownFramework","refused":3}`
		case 9: // what exists stays as it is
			line = fmt.Sprintf(`{"event":"set_framework","framework":"%s","roles":["web","ops"]}`, framework)
		}
		m.Lines, m.Replies = append(m.Lines, []byte(line)), append(m.Replies, []byte(reply+"\n"))
	}
	return m
}

// defined is the expected state of the registry, found by searching the whole history.
type defined struct {
	offers     []uint64
	agents     map[string]int64
	frameworks map[string]int64
	tasks      []string
}

// define computes it slowly: each item exists when some line made it and no later one ended it.
func define(messages []*Message) (d defined) {
	d.agents, d.frameworks = map[string]int64{}, map[string]int64{}
	type item struct {
		offer            Offer
		framework, agent string
		task             string
	}
	var offers, tasks []item
	keep := func(items []item, holds func(item) bool) (kept []item) {
		for _, one := range items {
			if holds(one) {
				kept = append(kept, one)
			}
		}
		return kept
	}
	for _, m := range messages {
		for k, line := range m.Lines {
			var l struct {
				Event, Agent, Framework, Task string
				Offer                         uint64
				Tasks                         []struct{ Task string }
			}
			var reply struct {
				Name   string
				Offers []Offer
			}
			json.Unmarshal(line, &l)
			json.Unmarshal(m.Replies[k], &reply)
			if reply.Name != "" {
				continue
			}
			for _, o := range reply.Offers {
				offers = append(offers, item{offer: o, framework: o.Framework, agent: o.Agent})
			}
			switch l.Event {
			case "accept", "decline", "rescind":
				for _, o := range offers {
					for _, task := range l.Tasks {
						if l.Event == "accept" && o.offer.Offer == l.Offer {
							tasks = append(tasks, item{framework: o.framework, agent: o.agent, task: task.Task})
						}
					}
				}
				offers = keep(offers, func(o item) bool { return o.offer.Offer != l.Offer })
			case "finish":
				tasks = keep(tasks, func(o item) bool { return o.framework != l.Framework || o.task != l.Task })
			case "add_agent":
				d.agents[l.Agent] = m.Number
			case "add_framework":
				d.frameworks[l.Framework] = m.Number
			case "deactivate_agent", "remove_agent":
				offers = keep(offers, func(o item) bool { return o.agent != l.Agent })
				if l.Event == "remove_agent" {
					delete(d.agents, l.Agent)
					tasks = keep(tasks, func(o item) bool { return o.agent != l.Agent })
				}
			case "remove_framework":
				offers = keep(offers, func(o item) bool { return o.framework != l.Framework })
				tasks = keep(tasks, func(o item) bool { return o.framework != l.Framework })
				delete(d.frameworks, l.Framework)
			}
		}
	}
	for _, o := range offers {
		d.offers = append(d.offers, o.offer.Offer)
	}
	names := map[string]bool{}
	for _, o := range tasks {
		names[o.framework+"/"+o.task+"@"+o.agent] = true
	}
	for name := range names {
		d.tasks = append(d.tasks, name)
	}
	sort.Slice(d.offers, func(i, j int) bool { return d.offers[i] < d.offers[j] })
	sort.Strings(d.tasks)
	return d
}

func has(r *Registry) (d defined) {
	d.agents, d.frameworks = r.cluster.agents, r.cluster.frameworks
	for number := range r.cluster.offers {
		d.offers = append(d.offers, number)
	}
	for framework, tasks := range r.cluster.tasks {
		for name, agent := range tasks {
			d.tasks = append(d.tasks, framework+"/"+name+"@"+agent)
		}
	}
	sort.Slice(d.offers, func(i, j int) bool { return d.offers[i] < d.offers[j] })
	sort.Strings(d.tasks)
	return d
}

// A registry has the state that the definition gives, after any messages; so has one that was restored from a snapshot in between, or that gets
// messages again, as after a restart of the allocator.
func TestRegistryIsAsDefined(t *testing.T) {
	for seed := int64(1); seed <= 25; seed++ {
		h := &history{rand.New(rand.NewSource(seed)), 0}
		var messages []*Message
		first, restored := New(&counts{}), (*Registry)(nil)
		cut := 1 + h.Int63n(59)
		for number := int64(1); number <= 60; number++ {
			m := h.message(number)
			messages = append(messages, m)
			first.Apply(m)
			if number%7 == 0 {
				first.Apply(messages[h.Intn(len(messages))])
			}
			if restored != nil {
				restored.Apply(m)
			}
			if number == cut {
				snapshot, is := first.Snapshot(number)
				if !is {
					t.Fatal("there is no snapshot at the last message")
				}
				if _, is := first.Snapshot(number - 1); is {
					t.Fatal("there is a snapshot at another message than the last")
				}
				restored = New(&counts{})
				if err := restored.Restore(snapshot, nil, number, m.At, 0); err != nil {
					t.Fatal(err)
				}
			}
			if want := define(messages); !reflect.DeepEqual(has(first), want) {
				t.Fatalf("seed %d, message %d: %+v, want %+v", seed, number, has(first), want)
			}
		}
		one, _ := first.Snapshot(60)
		other, is := restored.Snapshot(60)
		if !is || string(one) != string(other) || !reflect.DeepEqual(first.Info(), restored.Info()) {
			t.Fatalf("seed %d, restored at %d: %s, want %s", seed, cut, other, one)
		}
		checkIndexes(t, first)
		checkIndexes(t, restored)
	}
}

func checkIndexes(t *testing.T, r *Registry) {
	byFramework, byAgent := map[string]numbers{}, map[string]numbers{}
	for number, o := range r.cluster.offers {
		put(byFramework, o.Framework, number)
		put(byAgent, o.Agent, number)
	}
	if !reflect.DeepEqual(byFramework, r.cluster.byFramework) || !reflect.DeepEqual(byAgent, r.cluster.byAgent) {
		t.Error("an index differs from the offers")
	}
}

func TestRestoreFromRows(t *testing.T) {
	r := New(&counts{})
	rows := `{"clock":1,"events":4,"next_offer":3,"row":"state"}
{"active":true,"agent":"n1","row":"agent","total":"cpus:4"}
{"clients":[],"framework":"site","row":"framework"}
{"agent":"n1","framework":"site","offer":2,"resources":"cpus:4","role":"web","row":"offer"}
{"agent":"n1","framework":"site","role":"web","row":"task","task":"t","use":"cpus:1"}
{"row":"end","rows":4,"sha256":"x"}
`
	if err := r.Restore(nil, []byte(rows), 9, 77, 0); err != nil {
		t.Fatal(err)
	}
	want := defined{[]uint64{2}, map[string]int64{"n1": 0}, map[string]int64{"site": 0}, []string{"site/t@n1"}}
	if !reflect.DeepEqual(has(r), want) {
		t.Errorf("%+v", has(r))
	}
	if late, _ := r.LateOffers(78); len(late) != 1 {
		t.Error("an offer has no time", late)
	}
}

func TestSubscriptionsAreOfOneFramework(t *testing.T) {
	r := New(&counts{})
	cycle := func(number int64, framework string) *Message {
		return &Message{Number: number, Lines: [][]byte{[]byte(`{"event":"cycle"}`)},
			Replies: [][]byte{[]byte(fmt.Sprintf(`{"offers":[{"agent":"n","framework":"%s","offer":%d,"resources":"cpus:1","role":"web"}]}`+"\n", framework, number))}}
	}
	r.Apply(cycle(1, "a"))
	a, existing := r.SubscribeOffers("a")
	b, none := r.SubscribeOffers("b")
	all := r.SubscribeReplies()
	if strings.Count(string(existing), "event: offer") != 1 || none != nil {
		t.Errorf("%q %q", existing, none)
	}
	r.Apply(cycle(2, "a"))
	r.Apply(&Message{Number: 3, Lines: [][]byte{[]byte(`{"event":"remove_framework","framework":"a"}`)}, Replies: [][]byte{[]byte(`{"ok":true}` + "\n")}})
	if len(a.Events) != 3 || len(b.Events) != 0 || len(all.Events) != 2 {
		t.Error(len(a.Events), len(b.Events), len(all.Events))
	}
	for n := int64(4); n < 4+maxWaiting+5; n++ {
		r.Apply(cycle(n, "b"))
	}
	for range b.Events { // it ends, as the subscriber was too slow
	}
	a.Close()
	all.Close()
	if len(r.hub.topics) != 0 {
		t.Error("topics stay", r.hub.topics)
	}
}

// processorTime returns the time for which processors ran the calling thread. Unlike the time of a clock, it does not grow while others run.
func processorTime(t *testing.T) time.Duration {
	spent := unix.Timespec{}
	if err := unix.ClockGettime(unix.CLOCK_THREAD_CPUTIME_ID, &spent); err != nil {
		t.Fatal(err)
	}
	return time.Duration(spent.Nano())
}

// Subscribers to other frameworks add almost nothing to the cost of a message.
func TestIdleSubscriptionsAreCheap(t *testing.T) {
	runtime.LockOSThread()
	defer runtime.UnlockOSThread()
	took := func(listeners int) time.Duration {
		r := New(&counts{})
		for k := 0; k < listeners; k++ {
			r.SubscribeOffers(fmt.Sprintf("f%d", k))
		}
		line, reply := []byte(`{"event":"rescind","offer":1}`), []byte(`{"name":"UnknownOffer","refused":7}`+"\n")
		best := time.Hour
		for round := 0; round < 5; round++ {
			start := processorTime(t)
			for n := 1; n <= 2000; n++ {
				r.Apply(&Message{Number: int64(2000*round + n), Lines: [][]byte{line}, Replies: [][]byte{reply}})
			}
			if spent := processorTime(t) - start; spent < best {
				best = spent
			}
		}
		return best
	}
	if none, many := took(0), took(2000); many > 3*none {
		t.Errorf("%v with 2,000 idle listeners, %v with none", many, none)
	}
}
