// The classic endpoints of a master, with fields and types as Mesos documents them. Outside the proof.

package mesos

import (
	"encoding/json"
	"io"
	"net/http"
	"net/url"
	"strings"
	"testing"
)

// fetch sends a request without following redirects, and returns the status, the answer and its head.
func (s *service) fetch(method, path, principal, token, body string) (int, interface{}, http.Header) {
	s.t.Helper()
	request, err := http.NewRequest(method, s.urls[0]+path, strings.NewReader(body))
	if err != nil {
		s.t.Fatal(err)
	}
	if principal != "" {
		request.SetBasicAuth(principal, token)
	}
	answer, err := http.DefaultTransport.RoundTrip(request)
	if err != nil {
		s.t.Fatal(err)
	}
	defer answer.Body.Close()
	text, _ := io.ReadAll(answer.Body)
	var value interface{}
	if json.Unmarshal(text, &value) != nil {
		value = string(text)
	}
	return answer.StatusCode, value, answer.Header
}

// change sends a request that changes something, and checks its status.
func (s *service) change(want int, method, path, body string) {
	s.t.Helper()
	if status, text, _ := s.fetch(method, path, "admin", s.token, body); status != want {
		s.t.Errorf("%s %s %s: %d %v, want %d", method, path, body, status, text, want)
	}
}

func TestClassicReads(t *testing.T) {
	s := newService(t, 1, 0)
	a, c, run := s.cluster()
	a.report(run, "TASK_FINISHED", 2)
	c.acknowledge("TASK_FINISHED")
	c.call(202, `{"type":"REVIVE"}`)
	c.taskOn(a, "t2", "1.5", "")
	s.change(200, "PUT", "/weights", `[{"role":"web","weight":2.5}]`)
	s.change(200, "POST", "/quota", `{"role":"web","limits":{"cpus":{"value":3}}}`)
	s.change(202, "POST", "/reserve", "slaveId=n1&resources="+url.QueryEscape(`[{"name":"mem","type":"SCALAR","scalar":{"value":24},"role":"eng","reservation":{}}]`))
	for _, one := range []struct {
		path string
		at   []interface{}
		want interface{}
	}{
		{"/state", []interface{}{"version"}, "1.11.0"},
		{"/state", []interface{}{"activated_slaves"}, 1.0},
		{"/state", []interface{}{"deactivated_slaves"}, 0.0},
		{"/state", []interface{}{"slaves", 0, "id"}, "n1"},
		{"/state", []interface{}{"slaves", 0, "hostname"}, "host-n1"},
		{"/state", []interface{}{"slaves", 0, "port"}, 5051.0},
		{"/state", []interface{}{"slaves", 0, "attributes", "rack"}, "r1"},
		{"/state", []interface{}{"slaves", 0, "active"}, true},
		{"/state", []interface{}{"slaves", 0, "deactivated"}, false},
		{"/state", []interface{}{"slaves", 0, "resources", "cpus"}, 4.0},
		{"/state", []interface{}{"slaves", 0, "resources", "gpus"}, 0.0},
		{"/state", []interface{}{"slaves", 0, "resources", "ports"}, "[31000-31999]"},
		{"/state", []interface{}{"slaves", 0, "used_resources", "cpus"}, 1.5},
		{"/state", []interface{}{"slaves", 0, "reserved_resources", "eng", "mem"}, 24.0},
		{"/state", []interface{}{"slaves", 0, "unreserved_resources", "mem"}, 1000.0},
		{"/state", []interface{}{"slaves", 0, "reserved_resources_full", "eng", 0, "reservations", 0, "role"}, "eng"},
		{"/state", []interface{}{"slaves", 0, "used_resources_full", 0, "allocation_info", "role"}, "web"},
		{"/state", []interface{}{"frameworks", 0, "id"}, c.id},
		{"/state", []interface{}{"frameworks", 0, "roles", 0}, "web"},
		{"/state", []interface{}{"frameworks", 0, "role"}, nil},
		{"/state", []interface{}{"frameworks", 0, "active"}, true},
		{"/state", []interface{}{"frameworks", 0, "failover_timeout"}, 100.0},
		{"/state", []interface{}{"frameworks", 0, "checkpoint"}, false},
		{"/state", []interface{}{"frameworks", 0, "capabilities", 0}, "MULTI_ROLE"},
		{"/state", []interface{}{"frameworks", 0, "used_resources", "cpus"}, 1.5},
		{"/state", []interface{}{"frameworks", 0, "tasks", 0, "id"}, "t2"},
		{"/state", []interface{}{"frameworks", 0, "tasks", 0, "slave_id"}, "n1"},
		{"/state", []interface{}{"frameworks", 0, "tasks", 0, "state"}, "TASK_RUNNING"},
		{"/state", []interface{}{"frameworks", 0, "tasks", 0, "role"}, "web"},
		{"/state", []interface{}{"frameworks", 0, "tasks", 0, "resources", "cpus"}, 1.5},
		{"/state", []interface{}{"frameworks", 0, "tasks", 0, "statuses", 0, "state"}, "TASK_RUNNING"},
		{"/state", []interface{}{"frameworks", 0, "completed_tasks", 0, "id"}, "t1"},
		{"/state", []interface{}{"frameworks", 0, "completed_tasks", 0, "name"}, "t"},
		{"/state", []interface{}{"frameworks", 0, "completed_tasks", 0, "labels", 0, "value"}, "v"},
		{"/state", []interface{}{"frameworks", 0, "completed_tasks", 0, "statuses", 1, "state"}, "TASK_FINISHED"},
		{"/state", []interface{}{"flags", "authenticate_http_readwrite"}, "true"},
		{"/state-summary", []interface{}{"slaves", 0, "TASK_RUNNING"}, 1.0},
		{"/state-summary", []interface{}{"slaves", 0, "TASK_FINISHED"}, 1.0},
		{"/state-summary", []interface{}{"slaves", 0, "framework_ids", 0}, c.id},
		{"/state-summary", []interface{}{"frameworks", 0, "TASK_LOST"}, 0.0},
		{"/state-summary", []interface{}{"frameworks", 0, "slave_ids", 0}, "n1"},
		{"/state-summary", []interface{}{"frameworks", 0, "tasks"}, nil},
		{"/slaves", []interface{}{"slaves", 0, "id"}, "n1"},
		{"/slaves?slave_id=other", []interface{}{"slaves", 0}, nil},
		{"/slaves", []interface{}{"slaves", 0, "unreserved_resources_full", 0, "name"}, "cpus"},
		{"/frameworks", []interface{}{"frameworks", 0, "tasks", 0, "id"}, "t2"},
		{"/frameworks?framework_id=other", []interface{}{"frameworks", 0}, nil},
		{"/tasks", []interface{}{"tasks", 0, "id"}, "t2"},
		{"/tasks", []interface{}{"tasks", 1, "id"}, "t1"},
		{"/tasks?order=asc", []interface{}{"tasks", 0, "id"}, "t1"},
		{"/tasks?limit=1", []interface{}{"tasks", 1}, nil},
		{"/tasks?offset=1", []interface{}{"tasks", 0, "id"}, "t1"},
		{"/roles", []interface{}{"roles", 2, "name"}, "web"},
		{"/roles", []interface{}{"roles", 2, "weight"}, 2.5},
		{"/roles", []interface{}{"roles", 2, "frameworks", 0}, c.id},
		{"/roles", []interface{}{"roles", 2, "allocated", "cpus"}, 1.5},
		{"/roles", []interface{}{"roles", 2, "quota", "limit", "cpus"}, 3.0},
		{"/roles", []interface{}{"roles", 1, "reserved", "mem"}, 24.0},
		{"/weights", []interface{}{0, "role"}, "web"},
		{"/weights", []interface{}{0, "weight"}, 2.5},
		{"/quota", []interface{}{"configs", 0, "limits", "cpus", "value"}, 3.0},
		{"/quota", []interface{}{"infos", 0, "role"}, "web"},
		{"/metrics/snapshot", []interface{}{"master/cpus_total"}, 4.0},
		{"/metrics/snapshot", []interface{}{"master/cpus_used"}, 1.5},
		{"/metrics/snapshot", []interface{}{"master/cpus_percent"}, 0.375},
		{"/metrics/snapshot", []interface{}{"master/mem_total"}, 1024.0},
		{"/metrics/snapshot", []interface{}{"master/slaves_active"}, 1.0},
		{"/metrics/snapshot", []interface{}{"master/slaves_disconnected"}, 0.0},
		{"/metrics/snapshot", []interface{}{"master/frameworks_active"}, 1.0},
		{"/metrics/snapshot", []interface{}{"master/tasks_running"}, 1.0},
		{"/metrics/snapshot", []interface{}{"master/tasks_finished"}, 1.0},
		{"/metrics/snapshot", []interface{}{"master/tasks_lost"}, 0.0},
		{"/metrics/snapshot?timeout=5secs", []interface{}{"master/elected"}, 1.0},
		{"/metrics/snapshot", []interface{}{"allocator/mesos/resources/cpus/total"}, 4.0},
		{"/version", []interface{}{"version"}, "1.11.0"},
		{"/flags", []interface{}{"flags", "agent_reregister_timeout"}, "75secs"},
	} {
		for _, path := range []string{one.path, "/master" + one.path} {
			status, value, head := s.fetch("GET", path, "admin", s.token, "")
			if status != 200 || head.Get("Content-Type") != "application/json" || at(value, one.at...) != one.want {
				t.Errorf("%s: %v: %d %v, want %v", path, one.at, status, at(value, one.at...), one.want)
			}
		}
	}
	if status, _, head := s.fetch("GET", "/master/redirect", "", "", ""); status != 307 || head.Get("Location") != "//"+strings.TrimPrefix(s.urls[0], "http://") {
		t.Error(status, head)
	}
	for _, path := range []string{"/health", "/master/health", "/version"} {
		if status, _, _ := s.fetch("GET", path, "", "", ""); status != 200 {
			t.Errorf("%s: %d", path, status)
		}
	}
}

func TestClassicWrites(t *testing.T) {
	s := newService(t, 1, 0)
	_, c, _ := s.cluster()
	form := func(id, resources string) string { return "slaveId=" + id + "&resources=" + url.QueryEscape(resources) }
	reserved := `[{"name":"cpus","type":"SCALAR","scalar":{"value":2},"reservations":[{"type":"DYNAMIC","role":"eng"}]}]`
	for _, one := range []struct {
		status             int
		method, path, body string
	}{
		{200, "PUT", "/weights", `[{"role":"a","weight":2},{"role":"b","weight":0.5}]`},
		{400, "PUT", "/weights", `[{"role":"a","weight":-1}]`},
		{400, "PUT", "/weights", `[{"role":"a","weight":"much"}]`},
		{400, "PUT", "/weights", `{"role":"a","weight":2}`},
		{400, "PUT", "/weights", `[{"role":"a"}]`},
		{405, "POST", "/weights", `[]`},
		{200, "POST", "/quota", `{"role":"eng/web","limits":{"cpus":{"value":2},"gpus":{"value":0}}}`},
		{501, "POST", "/quota", `{"role":"eng","guarantee":[` + scalar("cpus", "1") + `]}`},
		{400, "POST", "/quota", `{"role":"eng"}`},
		{400, "POST", "/quota", `{"role":7,"limits":{}}`},
		{400, "POST", "/quota", `{`},
		{400, "DELETE", "/quota/ops", ""},
		{400, "DELETE", "/quota", ""},
		{200, "DELETE", "/quota/eng/web", ""},
		{400, "DELETE", "/quota/eng/web", ""},
		{404, "GET", "/quota/eng", ""},
		{202, "POST", "/reserve", form("n1", reserved)},
		{409, "POST", "/reserve", form("n1", reserved)},
		{202, "POST", "/unreserve", form("n1", reserved)},
		{409, "POST", "/unreserve", form("n1", reserved)},
		{400, "POST", "/reserve", form("n9", reserved)},
		{400, "POST", "/reserve", form("n1", "[7]")},
		{400, "POST", "/reserve", "slaveId=n1"},
		{400, "POST", "/reserve", "resources=[]"},
		{400, "POST", "/reserve", "%zz"},
		{405, "GET", "/reserve", ""},
		{400, "POST", "/teardown", "x=y"},
		{400, "POST", "/teardown", "frameworkId=other"},
		{200, "POST", "/teardown", "frameworkId=" + c.id},
		{400, "GET", "/metrics/snapshot?timeout=soon", ""},
	} {
		s.change(one.status, one.method, one.path, one.body)
		if one.status >= 400 {
			s.change(one.status, one.method, "/master"+one.path, one.body)
		}
	}
	reader, none := s.addToken("reader", "read"), s.addToken("none", "agent:x")
	for _, one := range []struct {
		method, path, body string
	}{
		{"PUT", "/weights", `[{"role":"a","weight":2}]`}, {"POST", "/quota", `{"role":"a","limits":{}}`}, {"DELETE", "/quota/a", ""}, {"POST", "/reserve", form("n1", reserved)},
		{"POST", "/unreserve", form("n1", reserved)}, {"POST", "/teardown", "frameworkId=" + c.id},
	} {
		if status, text, _ := s.fetch(one.method, one.path, "reader", reader, one.body); status != 403 {
			t.Errorf("%s %s: %d %v", one.method, one.path, status, text)
		}
	}
	for _, path := range []string{"/state", "/state-summary", "/slaves", "/frameworks", "/tasks", "/roles", "/weights", "/quota", "/flags", "/metrics/snapshot"} {
		if status, text, _ := s.fetch("GET", path, "none", none, ""); status != 403 {
			t.Errorf("%s without the right to read: %d %v", path, status, text)
		}
		if status, text, head := s.fetch("GET", path, "", "", ""); status != 401 || !strings.HasPrefix(head.Get("WWW-Authenticate"), "Basic") {
			t.Errorf("%s without a token: %d %v", path, status, text)
		}
		if status, _, _ := s.fetch("GET", path, "reader", reader, ""); status != 200 {
			t.Errorf("%s: %d", path, status)
		}
	}
}
