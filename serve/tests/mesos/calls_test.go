// Each call of the scheduler API, with its statuses and words. Outside the proof.

package mesos

import (
	"fmt"
	"io"
	"net/http"
	"strings"
	"testing"
	"time"
)

func TestRefusals(t *testing.T) {
	s := newService(t, 1, 0)
	c := s.subscribe("admin", s.token, frameworkInfo)
	stream := c.header.Get("Mesos-Stream-Id")
	for _, one := range []struct {
		text    string
		headers []string
		status  int
		want    string
	}{
		{`{"type":"REVIVE"}`, nil, 400, "Expecting 'framework_id' to be present"},
		{`{"framework_id":{"value":"x"}}`, nil, 400, "Expecting 'type' to be present"},
		{`{"type":"REVIVE","framework_id":{"value":"x"}}`, nil, 400, "Framework cannot be found"},
		{`{"type":"REVIVE","framework_id":{"value":"` + c.id + `"}}`, nil, 400, "All non-subscribe calls should include the 'Mesos-Stream-Id' header"},
		{`{"type":"REVIVE","framework_id":{"value":"` + c.id + `"}}`, []string{"Mesos-Stream-Id", "x"}, 400, "The stream ID 'x' included in this request didn't match the stream ID currently associated with framework ID"},
		{`{"type":"DECLINE","framework_id":{"value":"x"}}`, nil, 400, "Expecting 'decline' to be present"},
		{`{"type":"ACCEPT","framework_id":{"value":"x"}}`, nil, 400, "Expecting 'accept' to be present"},
		{`{"type":"KILL","framework_id":{"value":"x"}}`, nil, 400, "Expecting 'kill' to be present"},
		{`{"type":"SHUTDOWN","framework_id":{"value":"x"}}`, nil, 400, "Expecting 'shutdown' to be present"},
		{`{"type":"ACKNOWLEDGE","framework_id":{"value":"x"}}`, nil, 400, "Expecting 'acknowledge' to be present"},
		{`{"type":"ACKNOWLEDGE","framework_id":{"value":"x"},"acknowledge":{"agent_id":{"value":"a"},"task_id":{"value":"t"},"uuid":"AA=="}}`, nil, 400, "Failed to validate scheduler::Call: Not a valid UUID"},
		{`{"type":"RECONCILE","framework_id":{"value":"x"}}`, nil, 400, "Expecting 'reconcile' to be present"},
		{`{"type":"MESSAGE","framework_id":{"value":"x"}}`, nil, 400, "Expecting 'message' to be present"},
		{`{"type":"REQUEST","framework_id":{"value":"x"}}`, nil, 400, "Expecting 'request' to be present"},
		{`{"type":"ACCEPT_INVERSE_OFFERS","framework_id":{"value":"x"}}`, nil, 400, "Expecting 'accept_inverse_offers' to be present"},
		{`{"type":"RECONCILE_OPERATIONS","framework_id":{"value":"` + c.id + `"}}`, []string{"Mesos-Stream-Id", stream}, 501, "the call type RECONCILE_OPERATIONS is not supported"},
		{`{"type":99,"framework_id":{"value":"` + c.id + `"}}`, []string{"Mesos-Stream-Id", stream}, 501, "the call type 99 is not supported"},
		{`{"type":"ACCEPT_INVERSE_OFFERS","framework_id":{"value":"` + c.id + `"},"accept_inverse_offers":{"inverse_offer_ids":[]}}`, []string{"Mesos-Stream-Id", stream}, 501, "the call type ACCEPT_INVERSE_OFFERS is not supported"},
		{`{"type":"DECLINE_INVERSE_OFFERS","framework_id":{"value":"` + c.id + `"},"decline_inverse_offers":{"inverse_offer_ids":[]}}`, []string{"Mesos-Stream-Id", stream}, 501, "the call type DECLINE_INVERSE_OFFERS is not supported"},
		{`{"type":"SUBSCRIBE"}`, nil, 400, "Expecting 'subscribe' to be present"},
		{`{"type":"SUBSCRIBE","subscribe":{"framework_info":` + frameworkInfo + `}}`, []string{"Mesos-Stream-Id", "x"}, 400, "Subscribe calls should not include the 'Mesos-Stream-Id' header"},
		{`{"type":"SUBSCRIBE","subscribe":{"framework_info":` + frameworkInfo + `}}`, []string{"Accept", "text/html"}, 406, "Expecting 'Accept' to allow"},
		{`{"type":"SUBSCRIBE","framework_id":{"value":"a"},"subscribe":{"framework_info":{"user":"u","name":"n"}}}`, nil, 400, "Failed to validate scheduler::Call: 'framework_id' differs from 'subscribe.framework_info.id'"},
		{`{"type":"SUBSCRIBE","subscribe":{"framework_info":{"user":"u","name":"n","principal":"other"}}}`, nil, 400, "Failed to validate scheduler::Call: Authenticated principal 'admin' does not match principal 'other' set in `FrameworkInfo`"},
		{`{"type":"SUBSCRIBE","subscribe":{"framework_info":{"name":"n"}}}`, nil, 400, "Failed to convert JSON into Call protobuf"},
		{`{`, nil, 400, "Failed to parse body into JSON"}, {`{"type":"REVIVE"}`, []string{"Content-Type", "text/plain"}, 415, "Expecting 'Content-Type' of"}, {`{"type":"REVIVE"}`, []string{"Content-Type", ""}, 400, "Expecting 'Content-Type' to be present"},
		{`{"type":"REVIVE"}`, []string{"Authorization", "Basic eDp5"}, 401, "no known principal"},
	} {
		answer := s.request("/api/v1/scheduler", "admin", s.token, one.text, one.headers...)
		body, _ := io.ReadAll(answer.Body)
		answer.Body.Close()
		if answer.StatusCode != one.status || !strings.Contains(string(body), one.want) {
			t.Errorf("%s %v: %s %s", one.text, one.headers, answer.Status, body)
		}
	}
	for _, one := range []struct{ info, more, want string }{
		{`{"user":"u","name":"n","roles":["a"]}`, ``, "'FrameworkInfo.roles' must not be set when the framework is not MULTI_ROLE capable"},
		{`{"user":"u","name":"n","role":"a","roles":["a"],"capabilities":[{"type":"MULTI_ROLE"}]}`, ``, "'FrameworkInfo.role' must not be set when the framework is MULTI_ROLE capable"},
		{`{"user":"u","name":"n","roles":["a","a"],"capabilities":[{"type":"MULTI_ROLE"}]}`, ``, "'FrameworkInfo.roles' contains duplicate items: a"},
		{`{"user":"u","name":"n","capabilities":[{"type":"MULTI_ROLE"}]}`, ``, "a framework without a role is not supported"},
		{`{"user":"u","name":"n","role":"-a"}`, ``, "Role '-a' is invalid"},
		{`{"user":"u","name":"n","failover_timeout":-1}`, ``, "The specified failover_timeout '-1' is invalid"},
		{`{"user":"u","name":"n"}`, `,"suppressed_roles":["x"]`, "Suppressed role 'x' is not contained in the list of roles"},
		{`{"user":"u","name":"n","id":{"value":"a/b"}}`, ``, "Framework ID 'a/b' is invalid"},
	} {
		id := jsonOf(at(parse(one.info), "id"))
		refused := s.listen("/api/v1/scheduler", "admin", s.token, `{"type":"SUBSCRIBE","framework_id":`+id+`,"subscribe":{"framework_info":`+one.info+one.more+`}}`)
		if e := refused.next("ERROR"); !strings.Contains(at(e, "error", "message").(string), one.want) {
			t.Errorf("%s: %v", one.info, e)
		}
		if _, isOpen := <-refused.events; isOpen {
			t.Errorf("%s: the stream goes on", one.info)
		}
	}
	if answer, err := http.Get(s.urls[0] + "/api/v1/scheduler"); err != nil || answer.StatusCode != http.StatusUnauthorized || !strings.HasPrefix(answer.Header.Get("WWW-Authenticate"), "Basic") {
		t.Error(answer, err)
	}
}

func TestTaskLife(t *testing.T) {
	s := newService(t, 1, 0)
	a := s.simulate("n1", scalar("cpus", "4")+","+scalar("mem", "1024"))
	a.next("REGISTERED")
	c := s.subscribe("admin", s.token, frameworkInfo)
	offers := c.next("OFFERS")
	first := at(offers, "offers", "offers", 0)
	if at(first, "hostname") != "host-n1" || at(first, "attributes", 0, "text", "value") != "r1" || at(first, "allocation_info", "role") != "web" || at(first, "resources", 0, "scalar", "value") != 4.0 {
		t.Errorf("%v", first)
	}
	offer := at(first, "id", "value").(string)
	text := launchCall(offer, "n1", strings.Join([]string{taskInfo("t1", "n1", "1", commandField+`,"limits":{"cpus":{"value":2}}`), taskInfo("t2", "n1", "9", commandField), taskInfo("t3", "n2", "1", commandField),
		taskInfo("t4", "n1", "1", ""), taskInfo("t5", "n1", "0", commandField), taskInfo("t1", "n1", "1", commandField), taskInfo("t6", "n1", "1", commandField+`,"container":{"type":"DOCKER"}`)}, ","))
	c.call(202, text)
	run := at(a.next("RUN"), "tasks", 0)
	if at(run, "task_info", "limits", "cpus", "value") != 2.0 || at(run, "task_info", "resources", 0, "allocation_info", "role") != "web" {
		t.Errorf("a field of the task is lost: %v", run)
	}
	for _, want := range []string{"Task uses more resources", "Task uses invalid agent n2 while agent n1 is expected", "at least one (but not both)", "Task uses no resources", "Task has duplicate ID: t1", "container images"} {
		status := at(c.next("UPDATE"), "update", "status")
		if at(status, "state") != "TASK_ERROR" || at(status, "reason") != "REASON_TASK_INVALID" || !strings.Contains(at(status, "message").(string), want) || at(status, "uuid") != nil {
			t.Errorf("%v, want %s", status, want)
		}
	}
	c.call(202, text) // again: its task runs, so nothing is said of it, and the others are of an offer that is gone
	for k := 0; k < 5; k++ {
		if status := at(c.next("UPDATE"), "update", "status"); at(status, "state") != "TASK_LOST" || at(status, "task_id", "value") == "t1" {
			t.Errorf("%v", status)
		}
	}
	a.report(run, "TASK_RUNNING", 1)
	a.report(run, "TASK_RUNNING", 1)
	status := at(c.next("UPDATE"), "update", "status")
	if at(status, "state") != "TASK_RUNNING" || at(status, "agent_id", "value") != "n1" || at(status, "uuid") == nil {
		t.Errorf("%v", status)
	}
	a.report(run, "TASK_FINISHED", 2)
	c.none("UPDATE", 300*time.Millisecond) // the first one is not acknowledged
	ack := func(status interface{}) string {
		return jsonOf(object{"type": "ACKNOWLEDGE", "acknowledge": object{"agent_id": object{"value": "n1"}, "task_id": at(status, "task_id"), "uuid": at(status, "uuid")}})
	}
	c.call(400, `{"type":"ACKNOWLEDGE","acknowledge":{"agent_id":{"value":"n1"},"task_id":{"value":"t1"},"uuid":"AA=="}}`)
	c.call(202, ack(status))
	last := at(c.next("UPDATE"), "update", "status")
	if at(last, "state") != "TASK_FINISHED" {
		t.Errorf("%v", last)
	}
	c.call(202, `{"type":"RECONCILE","reconcile":{"tasks":[{"task_id":{"value":"t1"}},{"task_id":{"value":"t9"}},{"task_id":{"value":"t9"},"agent_id":{"value":"n1"}}]}}`)
	for _, want := range []string{"Reconciliation: Latest task state", "Reconciliation: Task is unknown", "Reconciliation: Task is unknown to the agent"} {
		if status := at(c.next("UPDATE"), "update", "status"); at(status, "message") != want || at(status, "reason") != "REASON_RECONCILIATION" || at(status, "uuid") != nil {
			t.Errorf("%v, want %s", status, want)
		}
	}
	c.call(202, ack(last))
	c.none("UPDATE", 300*time.Millisecond)
	c.call(202, `{"type":"RECONCILE","reconcile":{}}`)
	c.none("UPDATE", 300*time.Millisecond)
	s.waitFree(0)
}

func TestKillMessageAndShutdown(t *testing.T) {
	s := newService(t, 1, 0)
	a := s.simulate("n1", scalar("cpus", "4"))
	a.next("REGISTERED")
	c := s.subscribe("admin", s.token, frameworkInfo)
	c.call(202, launchCall(c.offer(), "n1", taskInfo("t1", "n1", "1", commandField)+","+taskInfo("t2", "n1", "1", commandField)))
	tasks := a.next("RUN")
	c.call(202, `{"type":"KILL","kill":{"task_id":{"value":"t1"},"kill_policy":{"grace_period":{"nanoseconds":7000000}}}}`)
	if kill := a.next("KILL"); at(kill, "kill", "task_info", "task_id", "value") != "t1" || at(kill, "kill", "grace_ms") != 7.0 {
		t.Errorf("%v", kill)
	}
	c.call(202, `{"type":"KILL","kill":{"task_id":{"value":"unknown"}}}`)
	if status := at(c.next("UPDATE"), "update", "status"); at(status, "state") != "TASK_LOST" {
		t.Errorf("%v", status)
	}
	c.call(202, `{"type":"SHUTDOWN","shutdown":{"executor_id":{"value":"t2"},"agent_id":{"value":"n1"}}}`)
	if kill := a.next("KILL"); at(kill, "kill", "task_info", "task_id", "value") != "t2" {
		t.Errorf("%v", kill)
	}
	c.call(202, `{"type":"MESSAGE","message":{"executor_id":{"value":"t2"},"agent_id":{"value":"n1"},"data":"aGk="}}`)
	if m := a.next("MESSAGE"); at(m, "message", "data") != "aGk=" || at(m, "message", "framework_id", "value") != c.id {
		t.Errorf("%v", m)
	}
	s.request("/drf/v1/agent-link", "admin", s.token, `{"type":"MESSAGE","agent_id":{"value":"n1"},"message":{"framework_id":{"value":"`+c.id+`"},"executor_id":{"value":"e"},"data":"aG8="}}`).Body.Close()
	if m := c.next("MESSAGE"); at(m, "message", "data") != "aG8=" || at(m, "message", "executor_id", "value") != "e" {
		t.Errorf("%v", m)
	}
	c.call(202, `{"type":"REQUEST","request":{"requests":[{"resources":[]}]}}`)
	c.call(202, `{"type":"TEARDOWN"}`) // which ends the tasks
	a.next("KILL")
	a.next("KILL")
	a.report(at(tasks, "tasks", 0), "TASK_KILLED", 9)
	s.waitFree(0)
	gone := s.listen("/api/v1/scheduler", "admin", s.token, `{"type":"SUBSCRIBE","framework_id":{"value":"`+c.id+`"},"subscribe":{"framework_info":`+strings.Replace(frameworkInfo, "{", `{"id":{"value":"`+c.id+`"},`, 1)+`}}`)
	if e := gone.next("ERROR"); at(e, "error", "message") != "Framework has been removed" {
		t.Errorf("%v", e)
	}
}

func TestOffersComeAndGo(t *testing.T) {
	s := newService(t, 1, 0)
	a := s.simulate("n1", scalar("cpus", "4")+`,{"name":"ports","type":"RANGES","ranges":{"range":[{"begin":1,"end":9}]}}`)
	a.next("REGISTERED")
	c := s.subscribe("admin", s.token, frameworkInfo)
	c.call(202, `{"type":"DECLINE","decline":{"offer_ids":[{"value":"`+c.offer()+`"},{"value":"unknown"}],"filters":{"refuse_seconds":3600}}}`)
	c.none("OFFERS", 700*time.Millisecond)
	c.call(202, `{"type":"REVIVE"}`)
	offer := c.offer()
	c.call(202, `{"type":"SUPPRESS","suppress":{"roles":["web"]}}`)
	c.call(400, `{"type":"SUPPRESS","suppress":{"roles":["other"]}}`)
	reserved := `{"name":"cpus","type":"SCALAR","scalar":{"value":1},"role":"web","reservation":{}}`
	operation := func(kind string) string {
		return `{"type":"ACCEPT","accept":{"offer_ids":[{"value":"` + offer + `"}],"operations":[{"type":"` + kind + `","` + strings.ToLower(kind) + `":{"resources":[` + reserved + `]}}]}}`
	}
	c.call(202, operation("RESERVE"))
	c.none("OFFERS", 500*time.Millisecond)
	c.call(202, `{"type":"REVIVE","revive":{"roles":["web"]}}`)
	o := at(c.next("OFFERS"), "offers", "offers", 0)
	if at(o, "resources", 1, "role") != "web" || at(o, "resources", 1, "scalar", "value") != 1.0 || at(o, "resources", 0, "scalar", "value") != 3.0 {
		t.Errorf("%v", o)
	}
	offer = at(o, "id", "value").(string)
	c.call(501, strings.Replace(operation("RESERVE"), `"RESERVE"`, `"CREATE"`, 1))
	c.call(202, operation("UNRESERVE"))
	if o = at(c.next("OFFERS"), "offers", "offers", 0); at(o, "resources", 0, "scalar", "value") != 4.0 {
		t.Errorf("%v", o)
	}
	a.body.Close() // its offers are rescinded
	if e := c.next("RESCIND"); at(e, "rescind", "offer_id") == nil {
		t.Errorf("%v", e)
	}
}

// A group with an executor: its tasks end together, and what they hold is free when all have ended.
func TestGroup(t *testing.T) {
	s := newService(t, 1, 0)
	a := s.simulate("n1", scalar("cpus", "4"))
	a.next("REGISTERED")
	c := s.subscribe("admin", s.token, frameworkInfo)
	group := func(offer, kind, second string) string {
		return `{"type":"ACCEPT","accept":{"offer_ids":[{"value":"` + offer + `"}],"filters":{"refuse_seconds":0},"operations":[{"type":"LAUNCH_GROUP","launch_group":{"executor":{"type":"` + kind + `","executor_id":{"value":"e"},"resources":[` + scalar("cpus", "0.5") +
			`]},"task_group":{"tasks":[` + taskInfo("g1", "n1", "1", commandField) + "," + taskInfo("g2", "n1", second, commandField) + `]}}}]}}`
	}
	c.call(202, group(c.offer(), "DEFAULT", "3"))
	for k := 0; k < 2; k++ {
		if status := at(c.next("UPDATE"), "update", "status"); at(status, "reason") != "REASON_TASK_GROUP_INVALID" || !strings.Contains(at(status, "message").(string), "cpus:0.5 are missing") {
			t.Errorf("%v", status)
		}
	}
	c.call(202, group(c.offer(), "DEFAULT", "1"))
	run := a.next("RUN")
	if at(run, "tasks", 0, "group") == nil || at(run, "tasks", 0, "group") != at(run, "tasks", 1, "group") {
		t.Errorf("%v", run)
	}
	if held := s.held(0); len(held) != 1 || !strings.Contains(held[0], "cpus:2.5") {
		t.Errorf("%v", held)
	}
	a.report(at(run, "tasks", 0), "TASK_FINISHED", 1)
	time.Sleep(time.Second)
	if held := s.held(0); len(held) != 1 {
		t.Errorf("%v", held)
	}
	a.report(at(run, "tasks", 1), "TASK_FINISHED", 2)
	s.waitFree(0)
}

// Forty tasks on one offer share the allocator's sixteen.
func TestManyTasksOnOneOffer(t *testing.T) {
	s := newService(t, 1, 0)
	a := s.simulate("n1", scalar("cpus", "40"))
	a.next("REGISTERED")
	c := s.subscribe("admin", s.token, frameworkInfo)
	var tasks []string
	for k := 0; k < 40; k++ {
		tasks = append(tasks, taskInfo(fmt.Sprintf("task%d", k), "n1", "1", commandField))
	}
	c.call(202, launchCall(c.offer(), "n1", strings.Join(tasks, ",")))
	run := a.next("RUN")
	if held := s.held(0); len(held) != 16 {
		t.Errorf("%d tasks of the allocator: %v", len(held), held)
	}
	for k := 0; k < 40; k++ {
		a.report(at(run, "tasks", k), "TASK_FAILED", byte(k+1))
		c.next("UPDATE")
	}
	s.waitFree(0)
	s.checkJournal(0)
}

func TestFailover(t *testing.T) {
	s := newService(t, 1, 0, "-mesos-gateway-grace", "1s")
	a := s.simulate("n1", scalar("cpus", "4"))
	a.next("REGISTERED")
	c := s.subscribe("admin", s.token, frameworkInfo)
	c.call(202, launchCall(c.offer(), "n1", taskInfo("t1", "n1", "1", commandField)))
	run := at(a.next("RUN"), "tasks", 0)
	a.report(run, "TASK_RUNNING", 1)
	c.next("UPDATE")
	again := s.subscribe("admin", s.token, strings.Replace(frameworkInfo, "{", `{"id":{"value":"`+c.id+`"},`, 1))
	if e := c.next("ERROR"); at(e, "error", "message") != "Framework failed over" || again.id != c.id {
		t.Errorf("%v", e)
	}
	if status := at(again.next("UPDATE"), "update", "status"); at(status, "state") != "TASK_RUNNING" {
		t.Errorf("what was not acknowledged did not come again: %v", status)
	}
	c.call(400, `{"type":"REVIVE"}`)                                               // by the old stream
	short := s.subscribe("admin", s.token, `{"user":"u","name":"n","role":"web"}`) // its failover_timeout is 0
	short.body.Close()
	for end := time.Now().Add(15 * time.Second); ; time.Sleep(100 * time.Millisecond) {
		if !strings.Contains(string(s.get(0, "/drf/v1/state")), short.id) {
			break
		}
		if time.Now().After(end) {
			t.Fatal("a framework without a failover_timeout stays")
		}
	}
}
