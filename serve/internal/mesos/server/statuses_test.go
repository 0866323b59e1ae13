// A model of the way of statuses: an agent that sends them until it gets an answer, gateways that append late or twice, streams that break, and
// acknowledgements that get lost. Outside the proof.

package server

import (
	"fmt"
	"math/rand"
	"strconv"
	"testing"
	"time"

	"gateway/internal/mesos/codec"
	"gateway/internal/registry"
	"gateway/internal/registry/mesos"
)

// modelTask is a task that reports a number of statuses, of which the last one is terminal.
type modelTask struct {
	framework, name string
	launch          int64
	count           int
	reported        int // statuses that the agent knows to be taken
	seen            int // distinct statuses that its framework got, always in order
}

func (t *modelTask) uuid(k int) []byte { return []byte(fmt.Sprintf("%08s%08d", t.name, k)) }

// statusModel is a list of messages, the state that is derived from it, and what is under way.
type statusModel struct {
	*testing.T
	*rand.Rand
	state    *mesos.State
	streams  *Streams
	number   int64
	now      time.Time
	keys     map[string]bool
	late     []func() // messages that gateways have not appended yet
	tasks    []*modelTask
	schedule map[string]*modelScheduler // by the ids of frameworks
}

// modelScheduler is a framework with its stream.
type modelScheduler struct {
	m    *statusModel
	id   string
	one  *stream // or nil
	sent unacknowledged
	acks []mesos.Ack // not sent yet
}

func (m *statusModel) append(key string, n *mesos.Note, lines ...string) {
	if key != "" && m.keys[key] { // the list has it
		return
	}
	m.keys[key] = true
	m.number++
	message := &registry.Message{Number: m.number, Revision: m.number, Last: true, At: m.now.UnixMilli(), Note: n.Encode()}
	for _, line := range lines {
		message.Lines, message.Replies = append(message.Lines, []byte(line)), append(message.Replies, []byte("{\"ok\":true}\n"))
	}
	m.state.Apply(message)
}

func (m *statusModel) find(framework, name string) *modelTask {
	for _, t := range m.tasks {
		if t.framework == framework && t.name == name {
			return t
		}
	}
	return nil
}

func (m *statusModel) launch() {
	id := fmt.Sprintf("f%d", m.Intn(len(m.schedule)))
	t := &modelTask{framework: id, name: fmt.Sprintf("t%d", len(m.tasks)), count: 1 + m.Intn(5), launch: m.number + 1}
	m.tasks = append(m.tasks, t)
	info := codec.New("mesos.TaskInfo").Set("name", t.name).Set("task_id.value", t.name).Set("agent_id.value", "a")
	m.append("", &mesos.Note{Kind: mesos.NoteAccept, Framework: id, Launches: []mesos.Launch{{Task: t.name, Agent: "a", Info: info.Protobuf()}}})
}

// report lets the agent send the next status of a task. The status is appended or not, and the agent gets an answer or not.
func (m *statusModel) report(t *modelTask, isQuiet bool) {
	k := t.reported
	if k == t.count {
		return
	}
	state := "TASK_RUNNING"
	if k == t.count-1 {
		state = "TASK_FINISHED"
	}
	call := codec.New("durzhanok.link.Call").Set("framework_id.value", t.framework).Set("launch", t.launch).Set("status.task_id.value", t.name).Set("status.uuid", t.uuid(k))
	put := func() {
		m.append(statusKey("a", call), &mesos.Note{Kind: mesos.NoteStatus, Framework: t.framework, Task: t.name, Agent: "a", Launch: t.launch,
			Status: &mesos.Status{State: state, UUID: t.uuid(k), Raw: []byte(strconv.Itoa(k))}})
	}
	switch chance := m.Intn(6); {
	case isQuiet || chance < 3:
		put()
		t.reported++
	case chance < 4: // it is appended, and the agent does not learn that
		put()
	default:
		m.late = append(m.late, put)
	}
}

// subscribe gives a scheduler a new stream. What the old one did not pass on is lost.
func (c *modelScheduler) subscribe() {
	if c.one != nil {
		c.m.streams.remove(c.one)
	}
	c.one, c.sent = c.m.streams.add(fmt.Sprintf("s%d", c.m.Int63())), unacknowledged{}
	c.m.append("", &mesos.Note{Kind: mesos.NoteSubscribe, Framework: c.id, Stream: c.one.id, Gateway: "g", Subscription: &mesos.Subscription{Name: "x." + c.id}},
		`{"event":"add_framework","framework":"x.`+c.id+`"}`)
}

// read passes the events of a stream on, until the connection breaks.
func (c *modelScheduler) read(isQuiet bool) {
	if c.one == nil {
		return
	}
	for _, e := range c.one.take() {
		if c.sent.add(e, c.m.now); !isQuiet && c.m.Intn(30) == 0 {
			c.hangUp()
			return
		}
		if e.Kind == "UPDATE" {
			c.got(*e.Status)
		}
	}
	if c.one.isOver() { // the state was restored, or there is a newer stream
		c.one = nil
		return
	}
	for _, status := range c.sent.due(c.m.state, c.id, c.one.id, c.m.now) {
		c.got(status)
	}
}

// hangUp ends a connection. The gateway may report that, or another stream replaces this one before it does.
func (c *modelScheduler) hangUp() {
	c.m.streams.remove(c.one)
	if c.m.Intn(2) == 0 {
		c.m.append("", &mesos.Note{Kind: mesos.NoteLeave, Framework: c.id, Stream: c.one.id})
	}
	c.one = nil
}

// got checks that statuses come in order, and that a reconciliation has the status that came last.
func (c *modelScheduler) got(status mesos.Status) {
	t := c.m.find(c.id, status.Task)
	k, err := strconv.Atoi(string(status.Raw))
	switch {
	case status.Reason == "REASON_RECONCILIATION":
		if t.seen == t.count && status.Raw == nil { // it is acknowledged, and forgotten
			return
		}
		if status.Raw == nil {
			k = -1
		}
		if k != t.seen-1 {
			c.m.Fatalf("a reconciliation has status %d of %s after status %d", k, t.name, t.seen-1)
		}
		return
	case err != nil || k > t.seen:
		c.m.Fatalf("status %d of %s came after %d statuses (%v)", k, t.name, t.seen, err)
	case k == t.seen:
		t.seen++
	}
	c.acks = append(c.acks, mesos.Ack{Framework: c.id, Task: t.name, UUID: status.UUID})
}

// acknowledge sends an acknowledgement, which may get lost or be appended late.
func (c *modelScheduler) acknowledge(isQuiet bool) {
	if len(c.acks) == 0 {
		return
	}
	ack := c.acks[0]
	c.acks = c.acks[1:]
	put := func() { c.m.append("", &mesos.Note{Kind: mesos.NoteAck, Acks: []mesos.Ack{ack}}) }
	switch chance := c.m.Intn(6); {
	case isQuiet || chance < 4:
		put()
	case chance < 5:
		c.m.late = append(c.m.late, put)
	}
}

func (m *statusModel) step() {
	c := m.schedule[fmt.Sprintf("f%d", m.Intn(len(m.schedule)))]
	switch m.Intn(14) {
	case 0:
		if live := m.left(); live < 20 {
			m.launch()
		}
	case 1, 2, 3, 4:
		recent := m.tasks
		if len(recent) > 30 {
			recent = recent[len(recent)-30:]
		}
		if len(recent) > 0 {
			m.report(recent[m.Intn(len(recent))], false)
		}
	case 5:
		if len(m.late) > 0 {
			k := m.Intn(len(m.late))
			put := m.late[k]
			m.late = append(m.late[:k:k], m.late[k+1:]...)
			put()
		}
	case 6, 7, 8:
		c.read(false)
	case 9, 10:
		c.acknowledge(false)
	case 11:
		m.now = m.now.Add(time.Duration(m.Intn(12)) * time.Second)
	case 12:
		if c.one == nil || m.Intn(4) == 0 {
			c.subscribe()
		}
	case 13:
		if m.Intn(20) == 0 { // another gateway, from a snapshot
			if err := m.state.Restore(m.state.Snapshot()); err != nil {
				m.Fatal(err)
			}
		}
		if c.one != nil {
			m.append("", &mesos.Note{Kind: mesos.NoteReconcile, Framework: c.id})
		}
	}
}

// left returns how many tasks are not completed.
func (m *statusModel) left() (count int) {
	m.state.Read(func() {
		for _, f := range m.state.Frameworks {
			count += len(f.Tasks)
		}
	})
	return count
}

// Each status reaches its framework in order, none comes after a later one, and each task is completed once nothing fails any more.
func TestStatusesReachTheirFrameworks(t *testing.T) {
	const seeds, steps = 60, 2000
	tasks := 0
	for seed := int64(1); seed <= seeds; seed++ {
		m := &statusModel{T: t, Rand: rand.New(rand.NewSource(seed)), streams: NewStreams(), now: time.UnixMilli(1), keys: map[string]bool{}, schedule: map[string]*modelScheduler{}}
		m.state = mesos.New(m.streams.Publish)
		m.append("", &mesos.Note{Kind: mesos.NoteAgent, Agent: "a", Stream: "agent"}, `{"event":"add_agent","agent":"a"}`)
		for _, id := range []string{"f0", "f1"} {
			m.schedule[id] = &modelScheduler{m: m, id: id}
			m.schedule[id].subscribe()
		}
		for k := 0; k < steps && !t.Failed(); k++ {
			m.step()
		}
		for round := 0; round < 200 && (m.left() > 0 || len(m.late) > 0); round++ {
			for _, put := range m.late {
				put()
			}
			m.late = nil
			for _, one := range m.tasks {
				m.report(one, true)
			}
			m.now = m.now.Add(repeatAfter)
			for _, id := range []string{"f0", "f1"} {
				c := m.schedule[id]
				if c.one == nil {
					c.subscribe()
				}
				for c.read(true); len(c.acks) > 0; {
					c.acknowledge(true)
				}
			}
		}
		for _, one := range m.tasks {
			if one.seen != one.count {
				t.Errorf("seed %d: the framework got %d of %d statuses of %s", seed, one.seen, one.count, one.name)
			}
		}
		if m.left() > 0 {
			t.Errorf("seed %d: %d tasks are not completed", seed, m.left())
		}
		tasks += len(m.tasks)
	}
	if tasks < 2000 {
		t.Errorf("only %d tasks", tasks)
	}
}
