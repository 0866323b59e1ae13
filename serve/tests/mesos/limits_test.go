// Tests that one principal cannot use up the space of others. Outside the proof.

package mesos

import (
	"strings"
	"testing"
	"time"
)

func TestFrameworksOfOnePrincipal(t *testing.T) {
	s := newService(t, 1, 0, "-mesos-max-frameworks", "2")
	token, other := s.addToken("p", "role:web", "user:root"), s.addToken("q", "role:web", "user:root")
	s.subscribe("p", token, frameworkInfo).body.Close() // it may come again for 100 seconds
	second := s.subscribe("p", token, frameworkInfo)
	refused := s.listen("/api/v1/scheduler", "p", token, `{"type":"SUBSCRIBE","subscribe":{"framework_info":`+frameworkInfo+`}}`).next("ERROR")
	if text, _ := at(refused, "error", "message").(string); !strings.Contains(text, "'p' has 2 frameworks") {
		t.Error(refused)
	}
	s.subscribe("q", other, frameworkInfo)
	second.call(202, `{"type":"TEARDOWN"}`)
	s.subscribe("p", token, frameworkInfo)
}

func TestStateOfOnePrincipal(t *testing.T) {
	s := newService(t, 1, 0, "-mesos-max-bytes", "100KiB")
	token, other := s.addToken("p", "role:web", "user:root"), s.addToken("q", "role:web", "user:root")
	a := s.simulate("n1", scalar("cpus", "4"))
	a.next("REGISTERED")
	c := s.subscribe("p", token, frameworkInfo)
	long := commandField + `,"labels":{"labels":[{"key":"k","value":"` + strings.Repeat("x", 60<<10) + `"}]}`
	c.call(202, launchCall(c.offer(), "n1", taskInfo("one", "n1", "1", long)))
	run := at(a.next("RUN"), "tasks", 0)
	a.report(run, "TASK_FINISHED", 1)
	status := at(c.next("UPDATE"), "update", "status") // which is not acknowledged yet
	offer := c.offer()
	if text := c.call(429, launchCall(offer, "n1", taskInfo("two", "n1", "1", long))); !strings.Contains(text, "'p' have 102400 bytes") {
		t.Error(text)
	}
	big := strings.Replace(frameworkInfo, "{", `{"hostname":"`+strings.Repeat("x", 60<<10)+`",`, 1)
	if e := s.listen("/api/v1/scheduler", "p", token, `{"type":"SUBSCRIBE","subscribe":{"framework_info":`+big+`}}`).next("ERROR"); !strings.Contains(jsonOf(e), "102400 bytes") {
		t.Error(e)
	}
	s.subscribe("q", other, big)
	c.call(202, jsonOf(object{"type": "ACKNOWLEDGE", "acknowledge": object{"agent_id": object{"value": "n1"}, "task_id": at(status, "task_id"), "uuid": at(status, "uuid")}}))
	time.Sleep(2 * time.Second) // until the bytes are counted again
	c.call(202, launchCall(offer, "n1", taskInfo("two", "n1", "1", long)))
	a.next("RUN")
}

func TestStatusesOfOneTask(t *testing.T) {
	s := newService(t, 1, 0)
	a := s.simulate("n1", scalar("cpus", "4"))
	a.next("REGISTERED")
	c := s.subscribe("admin", s.token, frameworkInfo)
	c.call(202, launchCall(c.offer(), "n1", taskInfo("t", "n1", "1", commandField)))
	run := at(a.next("RUN"), "tasks", 0)
	for k := byte(1); k <= 64; k++ {
		a.report(run, "TASK_RUNNING", k)
	}
	if status, text := a.tryReport(run, "TASK_RUNNING", 65); status != 429 || !strings.Contains(text, `"t" has 64 statuses`) {
		t.Error(status, text)
	}
	status := at(c.next("UPDATE"), "update", "status")
	c.call(202, jsonOf(object{"type": "ACKNOWLEDGE", "acknowledge": object{"agent_id": object{"value": "n1"}, "task_id": at(status, "task_id"), "uuid": at(status, "uuid")}}))
	c.next("UPDATE")
	a.report(run, "TASK_RUNNING", 65)
	a.report(run, "TASK_FINISHED", 66) // what the task used is free at once
	c.offer()
}
