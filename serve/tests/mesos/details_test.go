// What the page shows of Mesos' frameworks, agents and tasks, and its call that kills a task. Outside the proof.

package mesos

import (
	"encoding/json"
	"fmt"
	"io"
	"strings"
	"testing"
	"time"
)

// details returns the rows of /drf/v1/details without Since, as texts.
func (s *service) details(t *testing.T) (rows []string) {
	t.Helper()
	var answer struct{ Rows []map[string]interface{} }
	if err := json.Unmarshal(s.get(0, "/drf/v1/details"), &answer); err != nil {
		t.Fatal(err)
	}
	for _, row := range answer.Rows {
		delete(row, "since")
		text, err := json.Marshal(row)
		if err != nil {
			t.Fatal(err)
		}
		rows = append(rows, string(text))
	}
	return rows
}

// waitDetails waits until the rows, of which there are as many, contain these texts in this order.
func (s *service) waitDetails(t *testing.T, want ...string) {
	t.Helper()
	isAsWanted := func(rows []string) bool {
		for k := range want {
			if len(rows) != len(want) || !strings.Contains(rows[k], want[k]) {
				return false
			}
		}
		return len(rows) == len(want)
	}
	for end := time.Now().Add(30 * time.Second); ; time.Sleep(100 * time.Millisecond) {
		rows := s.details(t)
		if isAsWanted(rows) {
			return
		}
		if time.Now().After(end) {
			t.Fatalf("%v, want %v", rows, want)
		}
	}
}

func TestDetails(t *testing.T) {
	s := newService(t, 1, 0)
	operator, reader, owner := s.addToken("ops", "operate"), s.addToken("eye", "read"), s.addToken("web", "role:web", "user:root") // before there are streams, which end when tokens are read
	a := s.simulate("n1", scalar("cpus", "4")+","+scalar("mem", "1024"))
	a.next("REGISTERED")
	c := s.subscribe("web", owner, frameworkInfo)
	offer := at(c.next("OFFERS"), "offers", "offers", 0, "id", "value").(string)
	c.call(202, launchCall(offer, "n1", taskInfo("t1", "n1", "1", commandField)))
	run := at(a.next("RUN"), "tasks", 0)
	name := at(parse(frameworkInfo), "name").(string)
	framework := fmt.Sprintf(`"id":"%s","name":"%s","principal":"web","row":"mesos_framework"`, c.id, name)
	s.waitDetails(t, `{"agent":"n1","connected":true,"host":"host-n1","row":"mesos_agent"}`, framework, `"state":"TASK_STAGING","task":"t1"}`)
	s.waitDetails(t, `"mesos_agent"`, framework, `{"agent":"n1","executor":"t1","framework"`)
	a.report(run, "TASK_RUNNING", 1)
	s.waitDetails(t, `"mesos_agent"`, `"connected":true`, `"state":"TASK_RUNNING","task":"t1"}`)

	kill := func(principal, token, framework, task string) (int, string) {
		answer := s.request("/drf/v1/kill-task", principal, token, fmt.Sprintf(`{"framework":%q,"task":%q}`, framework, task))
		defer answer.Body.Close()
		body, _ := io.ReadAll(answer.Body)
		return answer.StatusCode, string(body)
	}
	for _, one := range []struct {
		principal, token, framework, task string
		status                            int
		want                              string
	}{
		{"eye", reader, c.id, "t1", 403, `the token "eye" does not have the right operate, and is not the principal`},
		{"eye", reader, "unknown", "t1", 403, `the token "eye" does not have the right operate`},
		{"ops", operator, c.id, "t2", 404, `has no task "t2"`},
		{"ops", operator, "", "t1", 400, "expected"},
		{"ops", operator, c.id, "t1", 202, ""},
		{"web", owner, c.id, "t1", 202, ""},
		{"web", owner, "unknown", "t1", 403, `the token "web" does not have the right operate`},
	} {
		if status, text := kill(one.principal, one.token, one.framework, one.task); status != one.status || !strings.Contains(text, one.want) {
			t.Errorf("%s kills %q of %q: %d %s", one.principal, one.task, one.framework, status, text)
		}
	}
	if killed := a.next("KILL"); at(killed, "kill", "task_info", "task_id", "value") != "t1" {
		t.Errorf("the agent is to kill %v", killed)
	}
	s.waitDetails(t, `"mesos_agent"`, `"mesos_framework"`, `"killing":true`)
	a.report(run, "TASK_KILLED", 2)
	s.waitDetails(t, `"mesos_agent"`, `"mesos_framework"`, `"state":"TASK_KILLED"`)
	if status, text := kill("ops", operator, c.id, "t1"); status != 409 || !strings.Contains(text, "has ended: TASK_KILLED") {
		t.Errorf("a task that ended is killed: %d %s", status, text)
	}
}
