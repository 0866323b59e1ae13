// Drains: the states of agents and tasks, also when gateways are killed. Outside the proof.

package mesos

import (
	"fmt"
	"os"
	"path/filepath"
	"strings"
	"testing"
	"time"
)

// agentField returns a field of an agent that a gateway knows, or nil.
func (s *service) agentField(id string, path ...interface{}) interface{} {
	s.t.Helper()
	agents, _ := at(s.operate(200, `{"type":"GET_AGENTS"}`), "get_agents", "agents").([]interface{})
	for _, one := range agents {
		if at(one, "agent_info", "id", "value") == id {
			return at(one, path...)
		}
	}
	return nil
}

// waitAgent waits until a field of an agent has a value.
func (s *service) waitAgent(id string, want interface{}, path ...interface{}) {
	s.t.Helper()
	for end := time.Now().Add(60 * time.Second); ; time.Sleep(100 * time.Millisecond) {
		value := s.agentField(id, path...)
		if value == want {
			return
		}
		if time.Now().After(end) {
			s.t.Fatalf("%v of %s is %v, want %v", path, id, value, want)
		}
	}
}

func agentCall(kind, id, more string) string {
	return `{"type":"` + kind + `","` + strings.ToLower(kind) + `":{"agent_id":{"value":"` + id + `"}` + more + `}}`
}

// A drain kills each task with its own grace, at most the drain's, and ends when the last status is acknowledged.
func TestDrain(t *testing.T) {
	s := newService(t, 1, 0)
	a := s.simulate("n1", scalar("cpus", "4"))
	a.next("REGISTERED")
	c := s.subscribe("admin", s.token, frameworkInfo)
	policy := func(seconds int) string {
		return fmt.Sprintf(`,"kill_policy":{"grace_period":{"nanoseconds":%d000000000}}`, seconds)
	}
	c.call(202, launchCall(c.offer(), "n1", strings.Join([]string{taskInfo("long", "n1", "1", commandField+policy(60)), taskInfo("short", "n1", "1", commandField+policy(1)), taskInfo("usual", "n1", "1", commandField)}, ",")))
	tasks := map[string]interface{}{}
	for _, one := range at(a.next("RUN"), "tasks").([]interface{}) {
		tasks[at(one, "task_info", "task_id", "value").(string)] = one
	}
	c.offer()
	s.operate(200, agentCall("DRAIN_AGENT", "n1", `,"max_grace_period":{"nanoseconds":2000000000}`))
	c.next("RESCIND")
	graces := map[interface{}]interface{}{}
	for range tasks {
		kill := at(a.next("KILL"), "kill")
		graces[at(kill, "task_info", "task_id", "value")] = at(kill, "grace_ms")
	}
	if fmt.Sprint(graces) != "map[long:2000 short:1000 usual:2000]" {
		t.Errorf("%v", graces)
	}
	if s.agentField("n1", "active") != nil && s.agentField("n1", "active") != false || s.agentField("n1", "deactivated") != true || s.agentField("n1", "drain_info", "state") != "DRAINING" ||
		s.agentField("n1", "drain_info", "config", "max_grace_period", "nanoseconds") != 2e9 || s.agentField("n1", "estimated_drain_start_time", "nanoseconds") == nil {
		t.Errorf("%v", s.operate(200, `{"type":"GET_AGENTS"}`))
	}
	for _, name := range []string{"long", "short"} {
		a.report(tasks[name], "TASK_KILLED", 7)
		c.acknowledge("TASK_KILLED")
	}
	a.body.Close() // the agent comes again: it stays deactivated, and is to kill the task that is left
	a = s.simulate("n1", scalar("cpus", "4"))
	if left := at(a.next("REGISTERED"), "tasks").([]interface{}); len(left) != 1 || at(left, 0, "killing") != true || at(left, 0, "grace_ms") != 2000.0 {
		t.Errorf("%v", left)
	}
	a.report(tasks["usual"], "TASK_KILLED", 7)
	status := c.next("UPDATE")
	if state := s.agentField("n1", "drain_info", "state"); state != "DRAINING" { // the status is not acknowledged
		t.Errorf("%v before the last acknowledgement", state)
	}
	c.call(202, jsonOf(object{"type": "ACKNOWLEDGE", "acknowledge": object{"agent_id": object{"value": "n1"}, "task_id": at(status, "update", "status", "task_id"), "uuid": at(status, "update", "status", "uuid")}}))
	s.waitAgent("n1", "DRAINED", "drain_info", "state")
	c.call(202, `{"type":"REVIVE"}`)
	c.none("OFFERS", time.Second)
	s.operate(200, agentCall("REACTIVATE_AGENT", "n1", ""))
	c.offer()
	if s.agentField("n1", "active") != true || s.agentField("n1", "drain_info") != nil || s.agentField("n1", "deactivated") == true {
		t.Errorf("%v", s.operate(200, `{"type":"GET_AGENTS"}`))
	}
	s.operate(400, agentCall("REACTIVATE_AGENT", "n1", "")) // it is not deactivated
}

// An agent without tasks is drained at once. With mark_gone it is removed for good: it ends its tasks when it connects again, and gets no new ones.
func TestGone(t *testing.T) {
	s := newService(t, 1, 0)
	a := s.simulate("n1", scalar("cpus", "4"))
	a.next("REGISTERED")
	c := s.subscribe("admin", s.token, `{"user":"u","name":"n","roles":["web"],"failover_timeout":100,"capabilities":[{"type":"MULTI_ROLE"},{"type":"PARTITION_AWARE"}]}`)
	c.taskOn(a, "t1", "1", "")
	s.operate(200, agentCall("MARK_AGENT_GONE", "n1", ""))
	seen := map[interface{}]object{}
	for end := time.After(20 * time.Second); seen["UPDATE"] == nil || seen["FAILURE"] == nil; { // in any order: an acknowledgement may be on its way
		select {
		case e := <-c.events:
			seen[e["type"]] = e
		case <-end:
			t.Fatalf("%v", seen)
		}
	}
	if status := at(seen["UPDATE"], "update", "status"); at(status, "state") != "TASK_GONE_BY_OPERATOR" || at(status, "uuid") == nil || at(seen["FAILURE"], "failure", "agent_id", "value") != "n1" {
		t.Errorf("%v", seen)
	}
	a.next("ERROR")
	again := s.simulate("n1", scalar("cpus", "4"))
	if e := again.next("REGISTERED"); at(e, "tasks") != nil {
		t.Errorf("%v", e)
	}
	again.next("ERROR")
	s.operate(200, agentCall("MARK_AGENT_GONE", "n1", "")) // again
	other := s.simulate("n2", scalar("cpus", "4"))
	other.next("REGISTERED")
	s.operate(200, agentCall("DRAIN_AGENT", "n2", `,"mark_gone":true`))
	other.next("ERROR")
	if agents := at(s.operate(200, `{"type":"GET_AGENTS"}`), "get_agents", "agents"); agents != nil {
		t.Errorf("%v", agents)
	}
	s.waitFree(0)
	s.checkJournal(0)
}

// A machine that is drained and then away for a long time is still drained when it registers again, until it is reactivated.
func TestDrainedMachineComesAgain(t *testing.T) {
	s := newService(t, 1, 0, "-mesos-agent-gone", "1s")
	c := s.subscribe("admin", s.token, frameworkInfo)
	away := func(a *simulated) {
		a.body.Close()
		for end := time.Now().Add(30 * time.Second); at(s.operate(200, `{"type":"GET_AGENTS"}`), "get_agents", "agents") != nil; time.Sleep(50 * time.Millisecond) {
			if time.Now().After(end) {
				t.Fatal("the agent is not removed")
			}
		}
		c.next("FAILURE")
	}
	a := s.simulate("n1", scalar("cpus", "4"))
	a.next("REGISTERED")
	s.operate(200, agentCall("DRAIN_AGENT", "n1", ""))
	away(a)
	a = s.simulate("n1", scalar("cpus", "4"))
	a.next("REGISTERED")
	if s.agentField("n1", "drain_info", "state") != "DRAINED" || s.agentField("n1", "active") == true {
		t.Errorf("%v", s.operate(200, `{"type":"GET_AGENTS"}`))
	}
	c.call(202, `{"type":"REVIVE"}`)
	c.none("OFFERS", time.Second)
	away(a)
	s.operate(200, agentCall("REACTIVATE_AGENT", "n1", "")) // while it is away
	s.operate(400, agentCall("REACTIVATE_AGENT", "n1", ""))
	s.simulate("n1", scalar("cpus", "4")).next("REGISTERED")
	c.offer()
}

// DEACTIVATE_AGENT lasts across a restart of the agent, and the agent's tasks keep running.
func TestDeactivate(t *testing.T) {
	s := newService(t, 1, 0)
	a, c, _ := s.cluster()
	s.operate(202, `{"type":"RESERVE_RESOURCES","reserve_resources":{"agent_id":{"value":"n1"},"resources":[{"name":"cpus","type":"SCALAR","scalar":{"value":1},"role":"web","reservation":{}}]}}`)
	s.operate(200, agentCall("DEACTIVATE_AGENT", "n1", ""))
	a.body.Close()
	a = s.simulate("n1", scalar("cpus", "4")+","+scalar("mem", "1024")+","+ports)
	if tasks := at(a.next("REGISTERED"), "tasks").([]interface{}); len(tasks) != 1 || at(tasks, 0, "killing") == true {
		t.Errorf("%v", tasks)
	}
	c.call(202, `{"type":"REVIVE"}`)
	c.none("OFFERS", time.Second)
	if s.agentField("n1", "deactivated") != true || s.agentField("n1", "active") == true || s.agentField("n1", "drain_info") != nil {
		t.Errorf("%v", s.operate(200, `{"type":"GET_AGENTS"}`))
	}
	if total := jsonOf(s.agentField("n1", "total_resources")); !strings.Contains(total, `"role":"web","scalar":{"value":1}`) {
		t.Errorf("the reservation is lost: %s", total)
	}
	s.operate(200, agentCall("REACTIVATE_AGENT", "n1", ""))
	c.offer()
}

// A drain of one of two agents while a framework launches tasks, and while the gateways are killed one after another.
func TestDrainUnderLoad(t *testing.T) {
	s := newService(t, 3, 2)
	file := filepath.Join(s.folder, "starts")
	p := s.scheduler("one", 1, "-tasks", "60", "-command", s.command(file, "sleep 0.5"), "-within", "200s")
	p.start()
	for end := time.Now().Add(60 * time.Second); len(s.starts(file)) < 10 && time.Now().Before(end); time.Sleep(50 * time.Millisecond) {
	}
	text, err := os.ReadFile(filepath.Join(s.folder, "a0", "id"))
	if err != nil {
		t.Fatal(err)
	}
	id := strings.TrimSpace(string(text))
	s.operate(200, agentCall("DRAIN_AGENT", id, `,"max_grace_period":{"nanoseconds":500000000}`))
	for k := range s.gateways {
		s.gateways[k].kill()
		time.Sleep(500 * time.Millisecond)
		s.gateways[k].start()
		s.waitReady(k)
	}
	s.waitAgent(id, "DRAINED", "drain_info", "state")
	for _, row := range s.held(0) {
		if strings.Contains(row, id) {
			t.Errorf("the drained agent holds %s", row)
		}
	}
	tasks, _ := filepath.Glob(filepath.Join(s.folder, "a0", "tasks", "*"))
	p.wait() // the tasks that were killed are launched on the other agent
	if after, _ := filepath.Glob(filepath.Join(s.folder, "a0", "tasks", "*")); len(after) != len(tasks) {
		t.Errorf("the drained agent got %d tasks", len(after)-len(tasks))
	}
	s.checkOnce(file, 60)
	s.operate(200, agentCall("REACTIVATE_AGENT", id, ""))
	s.waitAgent(id, true, "active")
	s.waitFree(0)
	s.checkJournal(0)
}
