// Messages that a gateway appends late: what it sends to etcd is held back, while another gateway goes on. Outside the proof.

package mesos

import (
	"fmt"
	"io"
	"net"
	"net/http"
	"strings"
	"sync"
	"testing"
	"time"
)

// gate passes bytes on to an address. While it is closed, it holds back what callers send.
type gate struct {
	target string

	mu     sync.Mutex
	change *sync.Cond
	closed bool
}

func newGate(t *testing.T, target string) (g *gate, url string) {
	listener, err := net.Listen("tcp", "127.0.0.1:0")
	if err != nil {
		t.Fatal(err)
	}
	t.Cleanup(func() { listener.Close() })
	g = &gate{target: target}
	g.change = sync.NewCond(&g.mu)
	go func() {
		for {
			conn, err := listener.Accept()
			if err != nil {
				return
			}
			go g.pass(conn)
		}
	}()
	return g, "http://" + listener.Addr().String()
}

func (g *gate) pass(from net.Conn) {
	defer from.Close()
	to, err := net.Dial("tcp", g.target)
	if err != nil {
		return
	}
	defer to.Close()
	go func() {
		io.Copy(from, to)
		from.Close()
	}()
	for chunk := make([]byte, 1<<16); ; {
		count, err := from.Read(chunk)
		if err != nil {
			return
		}
		g.mu.Lock()
		for g.closed {
			g.change.Wait()
		}
		g.mu.Unlock()
		if _, err := to.Write(chunk[:count]); err != nil {
			return
		}
	}
}

func (g *gate) set(closed bool) {
	g.mu.Lock()
	defer g.mu.Unlock()
	g.closed = closed
	g.change.Broadcast()
}

// gated puts a gate between the second of two gateways and etcd, and returns the service as callers of that gateway see it.
func (s *service) gated() (*gate, *service) {
	s.t.Helper()
	command := s.gateways[1].command
	for k := range command {
		if command[k] == "-etcd" {
			g, url := newGate(s.t, strings.TrimPrefix(command[k+1], "http://"))
			command[k+1] = url
			s.gateways[1].kill()
			s.gateways[1].start()
			s.waitReady(1)
			other := *s
			other.urls = s.urls[1:]
			return g, &other
		}
	}
	s.t.Fatal("the gateway has no etcd")
	return nil, nil
}

// answer is the answer to a call.
type answer struct {
	status int
	text   string
}

// late sends a call while the gate is closed, and calls a function before it is opened again.
func (g *gate) late(send func() answer, between func()) answer {
	g.set(true)
	answers := make(chan answer, 1)
	go func() { answers <- send() }()
	time.Sleep(300 * time.Millisecond) // until the call waits for etcd
	between()
	g.set(false)
	return <-answers
}

// post sends a call of a framework.
func (c *client) post(text string) answer {
	text = strings.Replace(text, "{", `{"framework_id":{"value":"`+c.id+`"},`, 1)
	request, _ := http.NewRequest(http.MethodPost, c.s.urls[0]+"/api/v1/scheduler", strings.NewReader(text))
	request.SetBasicAuth(c.principal, c.token)
	request.Header.Set("Content-Type", "application/json")
	request.Header.Set("Mesos-Stream-Id", c.header.Get("Mesos-Stream-Id"))
	got, err := http.DefaultClient.Do(request)
	if err != nil {
		return answer{0, err.Error()}
	}
	defer got.Body.Close()
	body, _ := io.ReadAll(got.Body)
	return answer{got.StatusCode, string(body)}
}

// A call that a framework sent before a failover has no effect after it, even if its gateway had found the call valid.
func TestLateCallsOfAnEndedStream(t *testing.T) {
	t.Parallel()
	s := newService(t, 2, 0)
	gate, other := s.gated()
	a := s.simulate("n1", scalar("cpus", "4"))
	a.next("REGISTERED")
	first := other.subscribe("admin", s.token, frameworkInfo)
	info := strings.Replace(frameworkInfo, "{", `{"id":{"value":"`+first.id+`"},`, 1)
	first.call(202, launchCall(first.offer(), "n1", taskInfo("runs", "n1", "1", commandField)))
	a.report(at(a.next("RUN"), "tasks", 0), "TASK_RUNNING", 1)
	first.ack(first.status())
	time.Sleep(500 * time.Millisecond) // acknowledgements are answered before they are appended
	last := first
	for _, text := range []string{
		launchCall("OFFER", "n1", taskInfo("late", "n1", "1", commandField)),
		`{"type":"DECLINE","decline":{"offer_ids":[{"value":"OFFER"}],"filters":{"refuse_seconds":50}}}`,
		`{"type":"SUPPRESS","suppress":{}}`,
		`{"type":"KILL","kill":{"task_id":{"value":"runs"}}}`,
		`{"type":"SHUTDOWN","shutdown":{"executor_id":{"value":"runs"},"agent_id":{"value":"n1"}}}`,
		`{"type":"TEARDOWN"}`,
	} {
		c := other.subscribe("admin", s.token, info)
		if strings.Contains(text, "OFFER") {
			text = strings.Replace(text, "OFFER", c.offer(), 1)
		}
		got := gate.late(func() answer { return c.post(text) }, func() { last = s.subscribe("admin", s.token, info) })
		if got.status != 400 || !strings.Contains(got.text, "didn't match the stream ID currently associated") {
			t.Errorf("%.60s: %d %s", text, got.status, got.text)
		}
	}
	if last == first {
		t.Fatal("it did not subscribe again")
	}
	a.none("RUN", 200*time.Millisecond)
	last.offer() // which it would not get if a late call counted
	last.call(202, `{"type":"RECONCILE","reconcile":{"tasks":[{"task_id":{"value":"late"}},{"task_id":{"value":"runs"}}]}}`)
	states := map[interface{}]interface{}{}
	for len(states) < 2 {
		status := at(last.next("UPDATE"), "update", "status")
		states[at(status, "task_id", "value")] = at(status, "state")
	}
	if states["late"] != "TASK_LOST" || states["runs"] != "TASK_RUNNING" {
		t.Error(states)
	}
}

// A status that an agent sent again, and that both gateways append, counts once: a late copy does not take a task back to an earlier state.
func TestLateCopyOfAStatus(t *testing.T) {
	t.Parallel()
	s := newService(t, 2, 0)
	gate, other := s.gated()
	a := s.simulate("n1", scalar("cpus", "4"))
	a.next("REGISTERED")
	c := s.subscribe("admin", s.token, frameworkInfo)
	c.call(202, launchCall(c.offer(), "n1", taskInfo("t", "n1", "1", commandField)))
	run := at(a.next("RUN"), "tasks", 0)
	same := &simulated{a.listener, other, a.id}
	got := gate.late(func() answer {
		status, text := same.tryReport(run, "TASK_STARTING", 1)
		return answer{status, text}
	}, func() {
		a.report(run, "TASK_STARTING", 1)
		a.report(run, "TASK_RUNNING", 2)
	})
	if got.status != 202 {
		t.Error(got)
	}
	uuids := map[string]int{}
	for k := 0; k < 2; k++ {
		status := c.status()
		uuids[fmt.Sprint(at(status, "state"), at(status, "uuid"))]++
		c.ack(status)
	}
	c.none("UPDATE", time.Second)
	c.call(202, `{"type":"RECONCILE","reconcile":{}}`)
	if status := at(c.next("UPDATE"), "update", "status"); at(status, "state") != "TASK_RUNNING" || len(uuids) != 2 {
		t.Error(status, uuids)
	}
}
