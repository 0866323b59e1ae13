// A simulated cluster: machines, teams, and tasks that come and go. It reads no clock, so a test can let a day pass. Outside the proof.

package demo

import (
	"fmt"
	"math"
	"math/rand"
	"sort"
	"strconv"
	"strings"
	"time"
)

const (
	racks   = 4
	perRack = 10

	inRepair = "rack4-9" // is inactive
	isMute   = "rack3-7" // sends one heartbeat only
)

// team is a framework with the tasks that it wants.
type team struct {
	framework, role string
	cpus, mem, gpus float64       // of one task
	least, most     float64       // tasks that it wants, over time
	wave            time.Duration // in which it goes from least to most and back
	lasts           time.Duration // a task, on average
}

var teams = []team{
	{"site", "web/front", 2, 4096, 0, 44, 64, 9 * time.Minute, 5 * time.Minute},
	{"shop", "web/front", 2, 6144, 0, 24, 40, 7 * time.Minute, 4 * time.Minute},
	{"search", "web/search", 4, 24576, 0, 16, 26, 11 * time.Minute, 6 * time.Minute},
	{"loads", "data/etl", 4, 16384, 0, 6, 22, 5 * time.Minute, 70 * time.Second},
	{"sums", "data/etl", 2, 12288, 0, 6, 16, 6 * time.Minute, 90 * time.Second},
	{"query", "data/adhoc", 3, 12288, 0, 4, 18, 4 * time.Minute, 40 * time.Second},
	{"notebooks", "data/adhoc", 1, 6144, 0, 8, 14, 13 * time.Minute, 8 * time.Minute},
	{"models", "ml/train", 8, 32768, 1, 6, 9, 15 * time.Minute, 10 * time.Minute},
	{"predict", "ml/serve", 2, 16384, 0, 10, 18, 8 * time.Minute, 5 * time.Minute},
	{"builds", "ci", 4, 6144, 0, 2, 14, 3 * time.Minute, 45 * time.Second},
	{"tests", "ci", 1, 2048, 0, 4, 24, 3 * time.Minute, 30 * time.Second},
	{"backup", "ops", 1, 2048, 0, 4, 10, 10 * time.Minute, 2 * time.Minute},
}

// machine returns the k-th agent.
func machine(k int) (name, total string) {
	name = fmt.Sprintf("rack%d-%d", k/perRack+1, k%perRack)
	total = fmt.Sprintf("cpus:%d;mem:%d;ports:[31000-31999]", []int{8, 16, 32}[k%3], []int{32768, 65536, 131072}[k%3])
	if k%8 == 4 {
		total += ";gpus:4"
	}
	return name, total
}

// setUp returns the events that register everything.
func setUp() (events []Event) {
	for k := 0; k < racks*perRack; k++ {
		name, total := machine(k)
		events = append(events, Event{"event": "add_agent", "agent": name, "total": total})
	}
	for _, t := range teams {
		events = append(events, Event{"event": "add_framework", "framework": t.framework, "roles": []string{t.role}})
	}
	return append(events,
		Event{"event": "set_weight", "role": "web", "weight": "2"}, Event{"event": "set_weight", "role": "ml", "weight": "1.5"},
		Event{"event": "set_limit", "role": "data", "limit": "cpus:280;mem:1400000"}, Event{"event": "set_limit", "role": "ci", "limit": "cpus:48"},
		Event{"event": "reserve", "agent": "rack1-1", "role": "ops", "resources": "cpus:4;mem:8192"},
		Event{"event": "deactivate_agent", "agent": inRepair})
}

// task is a task that runs.
type task struct {
	framework, name string
	ends            time.Duration
}

// held is an offer that its framework has not answered yet.
type held struct {
	Offer
	answered time.Duration
}

// Cluster has the tasks and offers of the teams. Times are since it began.
type Cluster struct {
	random *rand.Rand
	tasks  []task
	offers []held
	count  map[string]int // tasks that run, by framework
	number int
}

// NewCluster returns a cluster without tasks. Clusters of the same seed behave alike.
func NewCluster(seed int64) *Cluster {
	return &Cluster{random: rand.New(rand.NewSource(seed)), count: map[string]int{}}
}

// Take notes the offers of a cycle, which are answered after some seconds.
func (c *Cluster) Take(offers []Offer, now time.Duration) {
	for _, o := range offers {
		c.offers = append(c.offers, held{o, now + time.Duration(c.random.Int63n(int64(2500*time.Millisecond)))})
	}
}

// Due returns what the frameworks send by a time: tasks that finish, and answers to offers.
func (c *Cluster) Due(now time.Duration) (events []Event) {
	running := c.tasks[:0]
	for _, t := range c.tasks {
		if t.ends > now {
			running = append(running, t)
			continue
		}
		c.count[t.framework]--
		events = append(events, Event{"event": "finish", "framework": t.framework, "task": t.name})
	}
	c.tasks = running
	waiting := c.offers[:0]
	for _, o := range c.offers {
		if o.answered > now {
			waiting = append(waiting, o)
			continue
		}
		events = append(events, c.answer(o.Offer, now))
	}
	c.offers = waiting
	return events
}

// Lost forgets the tasks of events that were refused: an operator may have removed their agent or framework.
func (c *Cluster) Lost(event Event) {
	if event["event"] != "accept" {
		return
	}
	names := map[string]bool{}
	for _, one := range event["tasks"].([]Event) {
		names[one["task"].(string)] = true
	}
	running := c.tasks[:0]
	for _, t := range c.tasks {
		if t.framework == event["framework"] && names[t.name] {
			c.count[t.framework]--
			continue
		}
		running = append(running, t)
	}
	c.tasks = running
}

// Tasks returns how many tasks run.
func (c *Cluster) Tasks() int { return len(c.tasks) }

// wants returns how many tasks a team wants at a time.
func (t team) wants(now time.Duration) int {
	phase := 2 * math.Pi * (now.Seconds()/t.wave.Seconds() + float64(len(t.framework))/7)
	return int(t.least + (t.most-t.least)*(1+math.Sin(phase))/2)
}

// answer accepts an offer for as many tasks as fit and are wanted, or declines it.
func (c *Cluster) answer(o Offer, now time.Duration) Event {
	t, is := teamOf(o.Framework)
	wanted := t.wants(now) - c.count[o.Framework]
	has, launched := amounts(o.Resources), []Event{}
	for is && len(launched) < wanted && len(launched) < 4 && has["cpus"] >= t.cpus && has["mem"] >= t.mem && has["gpus"] >= t.gpus {
		has["cpus"], has["mem"], has["gpus"] = has["cpus"]-t.cpus, has["mem"]-t.mem, has["gpus"]-t.gpus
		c.number++
		name := fmt.Sprintf("%s-%d", t.framework, c.number)
		lasts := time.Duration((0.3 + c.random.ExpFloat64()) * 0.77 * float64(t.lasts))
		c.tasks, c.count[t.framework] = append(c.tasks, task{t.framework, name, now + lasts}), c.count[t.framework]+1
		launched = append(launched, Event{"task": name, "use": use(t)})
	}
	if len(launched) == 0 {
		return Event{"event": "decline", "framework": o.Framework, "offer": o.Offer, "refuse_ms": 10000 + c.random.Intn(50000)}
	}
	return Event{"event": "accept", "framework": o.Framework, "offer": o.Offer, "tasks": launched, "refuse_ms": 5000}
}

func teamOf(framework string) (team, bool) {
	for _, t := range teams {
		if t.framework == framework {
			return t, true
		}
	}
	return team{}, false
}

func use(t team) string {
	text := fmt.Sprintf("cpus:%g;mem:%g", t.cpus, t.mem)
	if t.gpus > 0 {
		text += fmt.Sprintf(";gpus:%g", t.gpus)
	}
	return text
}

// amounts returns the unreserved scalars of a text.
func amounts(resources string) map[string]float64 {
	has := map[string]float64{}
	for _, piece := range strings.Split(resources, ";") {
		name, value, _ := strings.Cut(piece, ":")
		if number, err := strconv.ParseFloat(value, 64); err == nil && !strings.Contains(name, "(") {
			has[name] = number
		}
	}
	return has
}

// beating returns the agents whose heartbeats are due in a round: all in eight rounds. The mute one has no heartbeat but its first.
func beating(round int, gone map[string]bool) (agents []string) {
	for k := 0; k < racks*perRack; k++ {
		if name, _ := machine(k); k%8 == round%8 && !gone[name] && (name != isMute || round < 8) {
			agents = append(agents, name)
		}
	}
	sort.Strings(agents)
	return agents
}
