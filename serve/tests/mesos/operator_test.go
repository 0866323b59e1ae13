// The operator API by raw HTTP, in JSON and in protobuf. Outside the proof.

package mesos

import (
	"bytes"
	"fmt"
	"io"
	"net/http"
	"strings"
	"testing"
	"time"

	"gateway/internal/mesos/codec"
)

// operate sends a call of the operator API and checks the status of its answer.
func (s *service) operate(want int, text string) object {
	s.t.Helper()
	answer := s.request("/api/v1", "admin", s.token, text)
	defer answer.Body.Close()
	body, _ := io.ReadAll(answer.Body)
	if answer.StatusCode != want {
		s.t.Fatalf("%.300s: %s %s, want %d", text, answer.Status, body, want)
	}
	return parse(string(body))
}

// operateProtobuf sends the same as protobuf.
func (s *service) operateProtobuf(text string) codec.Message {
	s.t.Helper()
	call, err := codec.ReadJSON("mesos.master.Call", []byte(text))
	if err != nil {
		s.t.Fatal(err)
	}
	answer := s.request("/api/v1", "admin", s.token, string(call.Protobuf()), "Content-Type", codec.TypeProtobuf, "Accept", codec.TypeProtobuf)
	defer answer.Body.Close()
	body, _ := io.ReadAll(answer.Body)
	m, err := codec.ReadProtobuf("mesos.master.Response", body)
	if answer.StatusCode != http.StatusOK || answer.Header.Get("Content-Type") != codec.TypeProtobuf || err != nil {
		s.t.Fatalf("%s: %s %v %v", text, answer.Status, answer.Header, err)
	}
	return m
}

// taskOn runs a task of a framework on a simulated agent, and returns it as the agent got it.
func (c *client) taskOn(a *simulated, id, cpus, more string) interface{} {
	c.t.Helper()
	c.call(202, launchCall(c.offer(), a.id, taskInfo(id, a.id, cpus, commandField+more)))
	run := at(a.next("RUN"), "tasks", 0)
	a.report(run, "TASK_RUNNING", 1)
	c.acknowledge("TASK_RUNNING")
	return run
}

// acknowledge waits for a status and acknowledges it.
func (c *client) acknowledge(state string) interface{} {
	c.t.Helper()
	status := at(c.next("UPDATE"), "update", "status")
	if at(status, "state") != state {
		c.t.Fatalf("%v, want %s", status, state)
	}
	c.call(202, jsonOf(object{"type": "ACKNOWLEDGE", "acknowledge": object{"agent_id": at(status, "agent_id"), "task_id": at(status, "task_id"), "uuid": at(status, "uuid")}}))
	return status
}

const ports = `{"name":"ports","type":"RANGES","ranges":{"range":[{"begin":31000,"end":31999}]}}`

// cluster is an agent with cpus:4;mem:1024;ports, and a framework that runs a task there with cpus:1.
func (s *service) cluster() (*simulated, *client, interface{}) {
	s.t.Helper()
	a := s.simulate("n1", scalar("cpus", "4")+","+scalar("mem", "1024")+","+ports)
	a.next("REGISTERED")
	c := s.subscribe("admin", s.token, `{"user":"u","name":"n","roles":["web"],"failover_timeout":100,"capabilities":[{"type":"MULTI_ROLE"}]}`)
	return a, c, c.taskOn(a, "t1", "1", `,"labels":{"labels":[{"key":"k","value":"v"}]}`)
}

func TestOperatorReads(t *testing.T) {
	s := newService(t, 1, 0)
	_, c, _ := s.cluster()
	s.operate(200, `{"type":"UPDATE_WEIGHTS","update_weights":{"weight_infos":[{"role":"web","weight":2.5}]}}`)
	s.operate(200, `{"type":"UPDATE_QUOTA","update_quota":{"quota_configs":[{"role":"web","limits":{"cpus":{"value":3.5},"gpus":{"value":0}}}]}}`)
	for _, one := range []struct {
		call string
		path []interface{}
		want interface{}
	}{
		{"GET_HEALTH", []interface{}{"get_health", "healthy"}, true},
		{"GET_VERSION", []interface{}{"get_version", "version_info", "version"}, "1.11.0"},
		{"GET_FLAGS", []interface{}{"get_flags", "flags", 0, "name"}, "agent_reregister_timeout"},
		{"GET_FLAGS", []interface{}{"get_flags", "flags", 0, "value"}, "75secs"},
		{"GET_MASTER", []interface{}{"get_master", "master_info", "version"}, "1.11.0"},
		{"GET_AGENTS", []interface{}{"get_agents", "agents", 0, "agent_info", "id", "value"}, "n1"},
		{"GET_AGENTS", []interface{}{"get_agents", "agents", 0, "active"}, true},
		{"GET_AGENTS", []interface{}{"get_agents", "agents", 0, "total_resources", 0, "scalar", "value"}, 4.0},
		{"GET_AGENTS", []interface{}{"get_agents", "agents", 0, "total_resources", 2, "ranges", "range", 0, "end"}, 31999.0},
		{"GET_AGENTS", []interface{}{"get_agents", "agents", 0, "allocated_resources", 0, "scalar", "value"}, 1.0},
		{"GET_AGENTS", []interface{}{"get_agents", "agents", 0, "allocated_resources", 0, "allocation_info", "role"}, "web"},
		{"GET_AGENTS", []interface{}{"get_agents", "agents", 0, "drain_info"}, nil},
		{"GET_FRAMEWORKS", []interface{}{"get_frameworks", "frameworks", 0, "framework_info", "id", "value"}, c.id},
		{"GET_FRAMEWORKS", []interface{}{"get_frameworks", "frameworks", 0, "framework_info", "principal"}, "admin"},
		{"GET_FRAMEWORKS", []interface{}{"get_frameworks", "frameworks", 0, "connected"}, true},
		{"GET_FRAMEWORKS", []interface{}{"get_frameworks", "frameworks", 0, "allocated_resources", 0, "scalar", "value"}, 1.0},
		{"GET_TASKS", []interface{}{"get_tasks", "tasks", 0, "task_id", "value"}, "t1"},
		{"GET_TASKS", []interface{}{"get_tasks", "tasks", 0, "state"}, "TASK_RUNNING"},
		{"GET_TASKS", []interface{}{"get_tasks", "tasks", 0, "framework_id", "value"}, c.id},
		{"GET_TASKS", []interface{}{"get_tasks", "tasks", 0, "labels", "labels", 0, "value"}, "v"},
		{"GET_TASKS", []interface{}{"get_tasks", "tasks", 0, "statuses", 0, "state"}, "TASK_RUNNING"},
		{"GET_STATE", []interface{}{"get_state", "get_agents", "agents", 0, "agent_info", "hostname"}, "host-n1"},
		{"GET_STATE", []interface{}{"get_state", "get_tasks", "tasks", 0, "name"}, "t"},
		{"GET_STATE", []interface{}{"get_state", "get_frameworks", "frameworks", 0, "active"}, true},
		{"GET_EXECUTORS", []interface{}{"get_executors", "executors"}, nil},
		{"GET_OPERATIONS", []interface{}{"get_operations", "operations"}, nil},
		{"GET_ROLES", []interface{}{"get_roles", "roles", 0, "name"}, "*"},
		{"GET_ROLES", []interface{}{"get_roles", "roles", 1, "weight"}, 2.5},
		{"GET_ROLES", []interface{}{"get_roles", "roles", 1, "frameworks", 0, "value"}, c.id},
		{"GET_WEIGHTS", []interface{}{"get_weights", "weight_infos", 0, "weight"}, 2.5},
		{"GET_QUOTA", []interface{}{"get_quota", "status", "configs", 0, "limits", "cpus", "value"}, 3.5},
		{"GET_QUOTA", []interface{}{"get_quota", "status", "configs", 0, "limits", "gpus", "value"}, 0.0},
		{"GET_QUOTA", []interface{}{"get_quota", "status", "infos", 0, "role"}, "web"},
	} {
		text := `{"type":"` + one.call + `"}`
		if answer := s.operate(200, text); answer["type"] != one.call || at(answer, one.path...) != one.want {
			t.Errorf("%s: %v: %v, want %v", one.call, one.path, at(answer, one.path...), one.want)
		}
		if answer := parse(string(s.operateProtobuf(text).JSON())); at(answer, one.path...) != one.want {
			t.Errorf("%s as protobuf: %v: %v, want %v", one.call, one.path, at(answer, one.path...), one.want)
		}
	}
	metrics := at(s.operate(200, `{"type":"GET_METRICS","get_metrics":{"timeout":{"nanoseconds":5000000000}}}`), "get_metrics", "metrics").([]interface{})
	figures := map[string]interface{}{}
	for _, one := range metrics {
		figures[at(one, "name").(string)] = at(one, "value")
	}
	if figures["master/elected"] != 1.0 || figures["master/tasks_running"] != 1.0 || figures["master/cpus_percent"] != 0.25 {
		t.Errorf("%v", figures)
	}
}

func TestOperatorRefusals(t *testing.T) {
	s := newService(t, 1, 0)
	reader, ops := s.addToken("reader", "read"), s.addToken("ops", "operate", "read")
	for _, one := range []struct {
		principal, token, text string
		headers                []string
		status                 int
		want                   string
	}{
		{"", "", `{}`, nil, 400, "Expecting 'type' to be present"},
		{"", "", `{"type":"NO_SUCH_CALL"}`, nil, 400, "Failed to find enum for 'NO_SUCH_CALL'"},
		{"", "", `{"type":"GET_STATE"}`, []string{"Accept", codec.TypeRecordIO}, 406, "Expecting 'Accept' to allow"},
		{"", "", `{"type":7.5}`, nil, 400, "Failed to convert JSON into Call protobuf"},
		{"", "", `{"type":"UPDATE_WEIGHTS"}`, nil, 400, "Expecting 'update_weights' to be present"},
		{"", "", `{"type":"DRAIN_AGENT","drain_agent":{}}`, nil, 400, "agent_id"},
		{"", "", `{"type":"DRAIN_AGENT","drain_agent":{"agent_id":{"value":"n"},"max_grace_period":"5secs"}}`, nil, 400, "expected an object"},
		{"", "", `{"type":"DRAIN_AGENT","drain_agent":{"agent_id":{"value":"n"},"max_grace_period":{"nanoseconds":-1000000}}}`, nil, 400, "is negative"},
		{"", "", `{"type":"DRAIN_AGENT","drain_agent":{"agent_id":{"value":"n"}}}`, nil, 400, "Unknown agent"},
		{"", "", `{"type":"DEACTIVATE_AGENT","deactivate_agent":{"agent_id":{"value":"n"}}}`, nil, 400, "Unknown agent"},
		{"", "", `{"type":"REACTIVATE_AGENT","reactivate_agent":{"agent_id":{"value":"n"}}}`, nil, 400, "Unknown agent"},
		{"", "", `{"type":"MARK_AGENT_GONE","mark_agent_gone":{"agent_id":{"value":"n"}}}`, nil, 404, "is not known"},
		{"", "", `{"type":"TEARDOWN","teardown":{"framework_id":{"value":"f"}}}`, nil, 400, "No framework found with specified ID"},
		{"", "", `{"type":"UPDATE_WEIGHTS","update_weights":{"weight_infos":[{"role":"web","weight":0}]}}`, nil, 400, "Invalid weight '0'"},
		{"", "", `{"type":"UPDATE_WEIGHTS","update_weights":{"weight_infos":[{"role":"a/../b","weight":1}]}}`, nil, 400, "the role 'a/../b' is not valid"},
		{"", "", `{"type":"UPDATE_QUOTA","update_quota":{"quota_configs":[{"role":"web","guarantees":{"cpus":{"value":1}}}]}}`, nil, 501, "guarantees are not supported"},
		{"", "", `{"type":"UPDATE_QUOTA","update_quota":{"quota_configs":[{"role":"web","limits":{"cpus":{"value":-1}}}]}}`, nil, 400, "the limit of 'cpus' for role 'web'"},
		{"", "", `{"type":"UPDATE_QUOTA","update_quota":{"quota_configs":[{"role":"*","limits":{"cpus":{"value":1}}}]}}`, nil, 400, "the default role '*' cannot have quota"},
		{"", "", `{"type":"SET_QUOTA","set_quota":{"quota_request":{"role":"web","guarantee":[]}}}`, nil, 501, "guarantees are not supported"},
		{"", "", `{"type":"REMOVE_QUOTA","remove_quota":{"role":"web"}}`, nil, 400, "role 'web' has no quota set"},
		{"", "", `{"type":"RESERVE_RESOURCES","reserve_resources":{"agent_id":{"value":"n"},"resources":[{"name":"cpus","type":"SCALAR","scalar":{"value":1},"role":"web"}]}}`, nil, 400, "No agent found with specified ID"},
		{"", "", `{"type":"RESERVE_RESOURCES","reserve_resources":{"agent_id":{"value":"n"},"resources":[` + scalar("cpus", "1") + `]}}`, nil, 400, "the resources are not reserved"},
		{"", "", `{"type":"CREATE_VOLUMES","create_volumes":{"agent_id":{"value":"n"}}}`, nil, 501, "CREATE_VOLUMES is not supported"},
		{"", "", `{"type":"GET_MAINTENANCE_STATUS"}`, nil, 501, "GET_MAINTENANCE_STATUS is not supported"},
		{"", "", `{"type":"GET_LOGGING_LEVEL"}`, nil, 501, "GET_LOGGING_LEVEL is not supported"},
		{"", "", `{"type":"UNKNOWN"}`, nil, 501, "UNKNOWN is not supported"},
		{"", "", `{`, nil, 400, "Failed to parse body into JSON"},
		{"", "", `{"type":"GET_HEALTH"}`, []string{"Content-Type", "text/plain"}, 415, "Expecting 'Content-Type' of"},
		{"", "", `{"type":"GET_HEALTH"}`, []string{"Accept", "text/html"}, 406, "Expecting 'Accept' to allow"},
		{"", "", `{"type":"GET_HEALTH"}`, []string{"Origin", "http://elsewhere"}, 403, "the request comes from a page of http://elsewhere"},
		{"reader", "wrong", `{"type":"GET_HEALTH"}`, nil, 401, "no known principal"},
		{"reader", reader, `{"type":"GET_HEALTH"}`, nil, 200, `"healthy":true`},
		{"reader", reader, `{"type":"UPDATE_WEIGHTS","update_weights":{"weight_infos":[{"role":"web","weight":1}]}}`, nil, 403, `the token "reader" may not send this "set_weight"`},
		{"reader", reader, `{"type":"UPDATE_WEIGHTS","update_weights":{}}`, nil, 403, `the token "reader" may not send this "set_weight"`},
		{"reader", reader, `{"type":"UPDATE_QUOTA","update_quota":{}}`, nil, 403, `"set_limit"`},
		{"reader", reader, `{"type":"REMOVE_QUOTA","remove_quota":{"role":"web"}}`, nil, 403, `"set_limit"`},
		{"reader", reader, `{"type":"RESERVE_RESOURCES","reserve_resources":{"agent_id":{"value":"n"}}}`, nil, 403, `"reserve"`},
		{"reader", reader, `{"type":"UNRESERVE_RESOURCES","unreserve_resources":{"agent_id":{"value":"n"}}}`, nil, 403, `"unreserve"`},
		{"reader", reader, `{"type":"TEARDOWN","teardown":{"framework_id":{"value":"f"}}}`, nil, 403, `"remove_framework"`},
		{"reader", reader, `{"type":"DRAIN_AGENT","drain_agent":{"agent_id":{"value":"n"}}}`, nil, 403, `"deactivate_agent"`},
		{"reader", reader, `{"type":"DEACTIVATE_AGENT","deactivate_agent":{"agent_id":{"value":"n"}}}`, nil, 403, `"deactivate_agent"`},
		{"reader", reader, `{"type":"REACTIVATE_AGENT","reactivate_agent":{"agent_id":{"value":"n"}}}`, nil, 403, `"activate_agent"`},
		{"reader", reader, `{"type":"MARK_AGENT_GONE","mark_agent_gone":{"agent_id":{"value":"n"}}}`, nil, 403, `"remove_agent"`},
		{"ops", ops, `{"type":"UPDATE_WEIGHTS","update_weights":{"weight_infos":[{"role":"web","weight":1}]}}`, nil, 200, ""},
	} {
		if one.principal == "" {
			one.principal, one.token = "admin", s.token
		}
		answer := s.request("/api/v1", one.principal, one.token, one.text, one.headers...)
		body, _ := io.ReadAll(answer.Body)
		answer.Body.Close()
		if answer.StatusCode != one.status || !strings.Contains(string(body), one.want) {
			t.Errorf("%s %v: %s %s", one.text, one.headers, answer.Status, body)
		}
	}
	answer := s.request("/api/v1", "admin", s.token, string(bytes.Repeat([]byte{0xff}, 9)), "Content-Type", codec.TypeProtobuf)
	if body, _ := io.ReadAll(answer.Body); answer.StatusCode != 400 || !strings.Contains(string(body), "Failed to parse body into Call protobuf") {
		t.Errorf("%s %s", answer.Status, body)
	}
}

// Writes reach the allocator, and its refusals come back.
func TestOperatorWrites(t *testing.T) {
	s := newService(t, 1, 0)
	_, c, _ := s.cluster()
	reserved := func(cpus string) string {
		return `[{"name":"cpus","type":"SCALAR","scalar":{"value":` + cpus + `},"reservations":[{"type":"DYNAMIC","role":"eng"}]}]`
	}
	move := func(kind, cpus string) string {
		return `{"type":"` + kind + `_RESOURCES","` + strings.ToLower(kind) + `_resources":{"agent_id":{"value":"n1"},"resources":` + reserved(cpus) + `}}`
	}
	total := func() string {
		return jsonOf(at(s.operate(200, `{"type":"GET_AGENTS"}`), "get_agents", "agents", 0, "total_resources"))
	}
	c.offer()                            // all that is free is offered
	s.operate(202, move("RESERVE", "2")) // it is rescinded
	c.next("RESCIND")
	if text := total(); !strings.Contains(text, `"role":"eng","scalar":{"value":2}`) || !strings.Contains(text, `"reservations":[{"role":"eng","type":"DYNAMIC"}]`) {
		t.Error(text)
	}
	s.operate(409, move("RESERVE", "2")) // 1 is in use
	s.operate(409, move("UNRESERVE", "3"))
	s.operate(202, move("UNRESERVE", "2"))
	if text := total(); strings.Contains(text, "eng") {
		t.Error(text)
	}
	s.operate(200, `{"type":"UPDATE_QUOTA","update_quota":{"quota_configs":[{"role":"eng","limits":{"cpus":{"value":0.5}}},{"role":"ops","limits":{"mem":{"value":64}}}]}}`)
	s.operate(409, move("RESERVE", "1")) // over the limit
	s.operate(200, `{"type":"REMOVE_QUOTA","remove_quota":{"role":"ops"}}`)
	if configs := at(s.operate(200, `{"type":"GET_QUOTA"}`), "get_quota", "status", "configs").([]interface{}); len(configs) != 1 || at(configs, 0, "role") != "eng" {
		t.Error(configs)
	}
	s.operate(400, `{"type":"UPDATE_QUOTA","update_quota":{"quota_configs":[{"role":"web","limits":{"cpus":{"value":0.5}}}]}}`) // 1 is in use
	s.operate(200, `{"type":"UPDATE_QUOTA","update_quota":{"force":true,"quota_configs":[{"role":"web","limits":{"cpus":{"value":0.5}}}]}}`)
	s.operate(200, `{"type":"UPDATE_QUOTA","update_quota":{"quota_configs":[{"role":"eng"},{"role":"web"}]}}`) // without limits they are removed
	if configs := at(s.operate(200, `{"type":"GET_QUOTA"}`), "get_quota", "status", "configs"); configs != nil {
		t.Error(configs)
	}
	s.operate(200, `{"type":"TEARDOWN","teardown":{"framework_id":{"value":"`+c.id+`"}}}`)
	frameworks := s.operate(200, `{"type":"GET_FRAMEWORKS"}`)
	if at(frameworks, "get_frameworks", "frameworks") != nil || at(frameworks, "get_frameworks", "completed_frameworks", 0, "framework_info", "id", "value") != c.id {
		t.Error(frameworks)
	}
	if tasks := s.operate(200, `{"type":"GET_TASKS"}`); at(tasks, "get_tasks", "completed_tasks", 0, "state") != "TASK_KILLED" || at(tasks, "get_tasks", "completed_tasks", 0, "resources", 0, "scalar", "value") != 1.0 {
		t.Error(tasks)
	}
	s.waitFree(0)
	s.checkJournal(0)
}

// An operator's stream has the whole state, and then each change.
func TestOperatorStream(t *testing.T) {
	s := newService(t, 1, 0, "-mesos-agent-gone", "1s")
	a, c, run := s.cluster()
	l := s.listen("/api/v1", "admin", s.token, `{"type":"SUBSCRIBE"}`)
	first := l.next("SUBSCRIBED")
	if at(first, "subscribed", "heartbeat_interval_seconds") != 15.0 || at(first, "subscribed", "get_state", "get_tasks", "tasks", 0, "task_id", "value") != "t1" ||
		at(first, "subscribed", "get_state", "get_agents", "agents", 0, "agent_info", "id", "value") != "n1" || at(first, "subscribed", "get_state", "get_frameworks", "frameworks", 0, "framework_info", "id", "value") != c.id {
		t.Fatalf("%v", first)
	}
	l.next("HEARTBEAT")
	a.report(run, "TASK_FINISHED", 2)
	if e := l.next("TASK_UPDATED"); at(e, "task_updated", "state") != "TASK_FINISHED" || at(e, "task_updated", "status", "task_id", "value") != "t1" || at(e, "task_updated", "framework_id", "value") != c.id {
		t.Errorf("%v", e)
	}
	c.acknowledge("TASK_FINISHED")
	c.call(202, `{"type":"REVIVE"}`)
	c.call(202, launchCall(c.offer(), "n1", taskInfo("t2", "n1", "1", commandField)))
	if e := l.next("TASK_ADDED"); at(e, "task_added", "task", "task_id", "value") != "t2" || at(e, "task_added", "task", "state") != "TASK_STAGING" || at(e, "task_added", "task", "agent_id", "value") != "n1" {
		t.Errorf("%v", e)
	}
	s.simulate("n2", scalar("cpus", "1"))
	if e := l.next("AGENT_ADDED"); at(e, "agent_added", "agent", "agent_info", "id", "value") != "n2" || at(e, "agent_added", "agent", "total_resources", 0, "scalar", "value") != 1.0 || at(e, "agent_added", "agent", "active") != true {
		t.Errorf("%v", e)
	}
	other := s.subscribe("admin", s.token, `{"user":"u","name":"other","roles":["ops"],"failover_timeout":100,"capabilities":[{"type":"MULTI_ROLE"}]}`)
	if e := l.next("FRAMEWORK_ADDED"); at(e, "framework_added", "framework", "framework_info", "name") != "other" || at(e, "framework_added", "framework", "connected") != true {
		t.Errorf("%v", e)
	}
	other.body.Close()
	if e := l.next("FRAMEWORK_UPDATED"); at(e, "framework_updated", "framework", "framework_info", "id", "value") != other.id || at(e, "framework_updated", "framework", "connected") == true {
		t.Errorf("%v", e)
	}
	s.operate(200, `{"type":"TEARDOWN","teardown":{"framework_id":{"value":"`+other.id+`"}}}`)
	if e := l.next("FRAMEWORK_REMOVED"); at(e, "framework_removed", "framework_info", "name") != "other" {
		t.Errorf("%v", e)
	}
	a.body.Close()
	if e := l.next("TASK_UPDATED"); at(e, "task_updated", "state") != "TASK_LOST" || at(e, "task_updated", "status", "task_id", "value") != "t2" {
		t.Errorf("%v", e)
	}
	if e := l.next("AGENT_REMOVED"); at(e, "agent_removed", "agent_id", "value") != "n1" {
		t.Errorf("%v", e)
	}
	s.gateways[0].kill()
	for end := time.After(20 * time.Second); ; {
		select {
		case _, isOpen := <-l.events:
			if !isOpen {
				return
			}
		case <-end:
			t.Fatal("the stream did not end with its gateway")
		}
	}
}

// What one gateway acknowledged, the next answer of any other has. Each gateway has the whole stream.
func TestOperatorAtSeveralGateways(t *testing.T) {
	s := newService(t, 3, 0)
	urls := s.urls
	at1, at2 := *s, *s
	at1.urls, at2.urls = []string{urls[1]}, []string{urls[2]}
	l := at2.listen("/api/v1", "admin", s.token, `{"type":"SUBSCRIBE"}`)
	l.next("SUBSCRIBED")
	for k := 1; k <= 20; k++ {
		s.operate(200, fmt.Sprintf(`{"type":"UPDATE_WEIGHTS","update_weights":{"weight_infos":[{"role":"web","weight":%d}]}}`, k))
		if weight := at(at1.operate(200, `{"type":"GET_WEIGHTS"}`), "get_weights", "weight_infos", 0, "weight"); weight != float64(k) {
			t.Errorf("%v after %d", weight, k)
		}
	}
	a := s.simulate("n1", scalar("cpus", "4"))
	a.next("REGISTERED")
	if e := l.next("AGENT_ADDED"); at(e, "agent_added", "agent", "agent_info", "id", "value") != "n1" {
		t.Errorf("%v", e)
	}
	at1.operate(200, agentCall("DEACTIVATE_AGENT", "n1", ""))
	if at2.agentField("n1", "deactivated") != true {
		t.Errorf("%v", at2.operate(200, `{"type":"GET_AGENTS"}`))
	}
}
