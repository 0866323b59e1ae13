// The executor API by raw HTTP, on a real agent. Outside the proof.

package mesos

import (
	"encoding/base64"
	"fmt"
	"net/http"
	"os"
	"path/filepath"
	"strings"
	"testing"
	"time"
)

// Calls of the executor API by raw HTTP. The texts are those of Mesos' agent.
func TestExecutorCalls(t *testing.T) {
	s := newService(t, 1, 1)
	c := s.subscribe("admin", s.token, frameworkInfo)
	offer, agent := c.offered()
	env := filepath.Join(s.folder, "env")
	silent := `{"executor_id":{"value":"e"},"command":{"value":"env > ` + env + `.part; mv ` + env + `.part ` + env + `; sleep 1000"},"shutdown_grace_period":{"nanoseconds":300000000}}`
	c.call(202, launchCall(offer, agent, executed("t1", agent, "x", silent)))
	var variables map[string]string
	for end := time.Now().Add(20 * time.Second); len(variables) == 0 && time.Now().Before(end); time.Sleep(20 * time.Millisecond) {
		variables = map[string]string{}
		text, _ := os.ReadFile(env)
		for _, line := range strings.Split(string(text), "\n") {
			if name, value, is := strings.Cut(line, "="); is {
				variables[name] = value
			}
		}
	}
	if grace := variables["MESOS_EXECUTOR_SHUTDOWN_GRACE_PERIOD"]; grace != "300ms" {
		t.Errorf("the time of grace is %q", grace)
	}
	token := "Bearer " + variables["MESOS_EXECUTOR_AUTHENTICATION_TOKEN"]
	s.urls[0] = "http://" + variables["MESOS_AGENT_ENDPOINT"]
	ids := `"executor_id":{"value":"e"},"framework_id":{"value":"` + c.id + `"}`
	update := func(more string) string {
		return `{"type":"UPDATE",` + ids + `,"update":{"status":{"task_id":{"value":"t1"},"state":"TASK_RUNNING"` + more + `}}}`
	}
	const source, uuid = `,"source":"SOURCE_EXECUTOR"`, `,"uuid":"AAAAAAAAAAAAAAAAAAAAAA=="`
	for _, one := range []struct {
		token, call string
		want        int
		text        string
	}{
		{token, `{"type":"MESSAGE",` + ids + `,"message":{"data":"aGVsbG8="}}`, 403, "Executor is not subscribed"},
		{"", `{"type":"SUBSCRIBE",` + ids + `,"subscribe":{}}`, 401, "the caller is no process of executor 'e'"},
		{"Bearer x", `{"type":"SUBSCRIBE",` + ids + `,"subscribe":{}}`, 403, "the token is not that of executor 'e'"},
		{token, `{"type":"SUBSCRIBE",` + ids + `}`, 400, "Failed to validate Executor::Call: Expecting 'subscribe' to be present"},
		{token, `{` + ids + `}`, 400, "Failed to validate Executor::Call: Expecting 'type' to be present"},
		{token, `{"type":"SUBSCRIBE","executor_id":{"value":"e"},"framework_id":{"value":"f"},"subscribe":{}}`, 400, "Framework cannot be found"},
		{token, strings.Replace(`{"type":"SUBSCRIBE",`+ids+`,"subscribe":{}}`, `"e"`, `"other"`, 1), 400, "Executor cannot be found"},
		{token, update(source), 400, "Failed to validate Executor::Call: Expecting 'uuid' to be present"},
		{token, update(source + `,"uuid":"AA=="`), 400, "Not a valid UUID"},
		{token, update(uuid), 400, "with invalid source, expecting 'SOURCE_EXECUTOR'"},
		{token, update(uuid + source + `,"executor_id":{"value":"x"}`), 400, "ExecutorID in Call: e does not match ExecutorID in TaskStatus: x"},
		{token, strings.Replace(update(uuid+source), "TASK_RUNNING", "TASK_STAGING", 1), 400, "which is not allowed"},
		{token, `[`, 400, "Failed to parse body into JSON"},
	} {
		answer := s.request("/api/v1/executor", "", "", one.call, "Authorization", one.token)
		text := make([]byte, 1000)
		n, _ := answer.Body.Read(text)
		answer.Body.Close()
		if answer.StatusCode != one.want || !strings.Contains(string(text[:n]), one.text) {
			t.Errorf("%s: %d %s, want %d %s", one.call, answer.StatusCode, text[:n], one.want, one.text)
		}
	}
	http.DefaultClient.CloseIdleConnections()
	l := s.listenAs("/api/v1/executor", `{"type":"SUBSCRIBE",`+ids+`,"subscribe":{}}`, token)
	if e := at(l.next("SUBSCRIBED"), "subscribed"); at(e, "framework_info", "id", "value") != c.id || at(e, "framework_info", "name") != "n" || at(e, "agent_info", "id", "value") != agent || at(e, "executor_info", "executor_id", "value") != "e" {
		t.Errorf("%v", e)
	}
	if e := at(l.next("LAUNCH"), "launch", "task"); at(e, "task_id", "value") != "t1" || at(e, "data") != "eA==" {
		t.Errorf("%v", e)
	}
	post := func(call string) {
		t.Helper()
		answer := s.request("/slave(1)/api/v1/executor", "", "", call, "Authorization", token)
		if answer.Body.Close(); answer.StatusCode != 202 {
			t.Fatalf("%s: %s", call, answer.Status)
		}
	}
	post(`{"type":"HEARTBEAT",` + ids + `}`)
	for k := 0; k < 2; k++ { // the second time it is known
		post(update(uuid + source))
		if e := at(l.next("ACKNOWLEDGED"), "acknowledged"); at(e, "uuid") != "AAAAAAAAAAAAAAAAAAAAAA==" || at(e, "task_id", "value") != "t1" {
			t.Errorf("%v", e)
		}
	}
	gateway := c.s
	gateway.urls[0] = c.url
	c.states(map[string]string{"t1": "RUNNING"})
	c.call(202, `{"type":"KILL","kill":{"task_id":{"value":"t1"},"kill_policy":{"grace_period":{"nanoseconds":2000000}}}}`)
	if e := at(l.next("KILL"), "kill"); at(e, "task_id", "value") != "t1" || at(e, "kill_policy", "grace_period", "nanoseconds") != 2e6 {
		t.Errorf("%v", e)
	}
	gateway.urls[0] = "http://" + variables["MESOS_AGENT_ENDPOINT"]
	again := s.listenAs("/api/v1/executor", `{"type":"SUBSCRIBE",`+ids+`,"subscribe":{"unacknowledged_updates":[{"status":{"task_id":{"value":"t1"},"state":"TASK_KILLED","source":"SOURCE_EXECUTOR","uuid":"AQEBAQEBAQEBAQEBAQEBAQ=="}}]}}`, token)
	if e := l.next("ERROR"); at(e, "error", "message") != "the executor subscribed again" {
		t.Errorf("%v", e)
	}
	again.next("SUBSCRIBED")
	again.next("ACKNOWLEDGED")
	gateway.urls[0] = c.url
	c.states(map[string]string{"t1": "KILLED"})
	c.shutdown("e", agent)
	again.next("SHUTDOWN")
	c.failure("e", 9.0)
	s.waitFree(0)
}

// A framework that acknowledges nothing gets the first of many statuses, and the task's end frees what it held.
func TestManyStatuses(t *testing.T) {
	s := newService(t, 1, 1)
	c := s.subscribe("admin", s.token, frameworkInfo)
	offer, agent := c.offered()
	c.call(202, launchCall(offer, agent, executed("t1", agent, "x", `{"executor_id":{"value":"e"},"command":{"value":"sleep 1000"}}`)))
	s.pidOf("executors/*/pid")
	tokens, _ := filepath.Glob(filepath.Join(s.folder, "a0", "executors", "*", "token"))
	token, _ := os.ReadFile(tokens[0])
	port, _ := os.ReadFile(filepath.Join(s.folder, "a0", "executor-port"))
	s.urls[0] = "http://127.0.0.1:" + string(port)
	ids := `"executor_id":{"value":"e"},"framework_id":{"value":"` + c.id + `"}`
	l := s.listenAs("/api/v1/executor", `{"type":"SUBSCRIBE",`+ids+`,"subscribe":{}}`, "Bearer "+string(token))
	l.next("SUBSCRIBED")
	l.next("LAUNCH")
	for k := 0; k < 80; k++ {
		uuid, state := base64.StdEncoding.EncodeToString([]byte(fmt.Sprintf("uuid of 16 b %3d", k))), "TASK_RUNNING"
		if k == 79 {
			state = "TASK_FINISHED"
		}
		answer := s.request("/api/v1/executor", "", "", `{"type":"UPDATE",`+ids+`,"update":{"status":{"task_id":{"value":"t1"},"state":"`+state+`","source":"SOURCE_EXECUTOR","uuid":"`+uuid+`"}}}`, "Authorization", "Bearer "+string(token))
		if answer.Body.Close(); answer.StatusCode != 202 {
			t.Fatal(answer.Status)
		}
		l.next("ACKNOWLEDGED")
	}
	s.urls[0] = c.url
	s.waitFree(0)
	statuses := 0
	for status := c.statusOf(); at(status, "state") == "TASK_RUNNING"; status = c.statusOf() {
		statuses++
	}
	if statuses != 64 {
		t.Errorf("%d statuses came before the end", statuses)
	}
}
