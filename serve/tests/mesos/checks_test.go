// Health checks and command checks, on a real agent. The expected results are those that Mesos documents. Outside the proof.

package mesos

import (
	"fmt"
	"net"
	"net/http"
	"net/http/httptest"
	"os"
	"path/filepath"
	"strings"
	"sync/atomic"
	"testing"
	"time"
)

// statusOf waits for the next status of the only task, and acknowledges it.
func (c *client) statusOf() interface{} {
	c.t.Helper()
	status := at(c.next("UPDATE"), "update", "status")
	c.call(202, jsonOf(object{"type": "ACKNOWLEDGE", "acknowledge": object{"agent_id": at(status, "agent_id"), "task_id": at(status, "task_id"), "uuid": at(status, "uuid")}}))
	return status
}

// expect checks the next status: its state, its reason, and values at paths.
func (c *client) expect(state, reason string, values object) {
	c.t.Helper()
	status := c.statusOf()
	isRight := at(status, "state") == state && (reason == "" || at(status, "reason") == reason)
	for path, want := range values {
		value := status
		for _, key := range strings.Split(path, ".") {
			value = at(value, key)
		}
		isRight = isRight && value == want
	}
	if !isRight {
		c.t.Fatalf("%v, want %s %s %v", status, state, reason, values)
	}
}

func TestHealthChecks(t *testing.T) {
	t.Parallel()
	s := newService(t, 1, 1)
	file := filepath.Join(s.folder, "healthy")
	code := int32(503)
	web := httptest.NewServer(http.HandlerFunc(func(w http.ResponseWriter, r *http.Request) {
		if r.URL.Path != "/health" {
			w.WriteHeader(404)
			return
		}
		w.WriteHeader(int(atomic.LoadInt32(&code)))
	}))
	defer web.Close()
	port := func(address net.Addr) string { return fmt.Sprint(address.(*net.TCPAddr).Port) }
	var listener net.Listener
	tcpPort := freePort(t)
	for _, one := range []struct {
		name, check           string
		becomeWell, becomeIll func()
	}{
		// first, before another test takes the port
		{"tcp", `"type":"TCP","tcp":{"port":` + fmt.Sprint(tcpPort) + `}`,
			func() { listener, _ = net.Listen("tcp", fmt.Sprintf("127.0.0.1:%d", tcpPort)) }, func() { listener.Close() }},
		{"command", `"type":"COMMAND","command":{"value":"test -n \"$GREETING\" && test -e ` + file + ` && pwd | grep -q sandbox"}`,
			func() { os.WriteFile(file, nil, 0o600) }, func() { os.Remove(file) }},
		{"http", `"type":"HTTP","http":{"port":` + port(web.Listener.Addr()) + `,"path":"/health"}`,
			func() { atomic.StoreInt32(&code, 399) }, func() { atomic.StoreInt32(&code, 404) }},
	} {
		t.Run(one.name, func(t *testing.T) {
			c := s.subscribe("admin", s.token, frameworkInfo)
			c.t = t
			offer, agent := c.offered()
			check := `,"health_check":{` + one.check + `,"delay_seconds":0,"interval_seconds":0.4,"timeout_seconds":10,"grace_period_seconds":1000,"consecutive_failures":3}`
			c.call(202, launchCall(offer, agent, taskInfo(one.name, agent, "0.1", `,"command":{"value":"sleep 1000","environment":{"variables":[{"name":"GREETING","value":"hello"}]}}`+check)))
			c.expect("TASK_RUNNING", "", object{"healthy": nil, "reason": nil})
			c.none("UPDATE", 1200*time.Millisecond) // failures in the time of grace do not count
			one.becomeWell()
			c.expect("TASK_RUNNING", "REASON_TASK_HEALTH_CHECK_STATUS_UPDATED", object{"healthy": true})
			c.none("UPDATE", 1200*time.Millisecond) // further successes are no news
			one.becomeIll()
			failures := 0
			status := c.statusOf()
			for ; at(status, "state") == "TASK_RUNNING"; status = c.statusOf() {
				if failures++; at(status, "healthy") != false || at(status, "reason") != "REASON_TASK_HEALTH_CHECK_STATUS_UPDATED" {
					t.Errorf("%v", status)
				}
			}
			if at(status, "state") != "TASK_KILLED" || at(status, "healthy") != false || failures < 2 || failures > 3 {
				t.Errorf("%d failures, then %v", failures, status)
			}
			c.call(202, `{"type":"TEARDOWN"}`)
		})
	}
	s.waitFree(0)
}

// Results of checks are reported when they change; they do not end a task.
func TestChecks(t *testing.T) {
	s := newService(t, 1, 1)
	c := s.subscribe("admin", s.token, frameworkInfo)
	file := filepath.Join(s.folder, "code")
	os.WriteFile(file, []byte("3"), 0o600)
	offer, agent := c.offered()
	const times = `,"delay_seconds":0,"interval_seconds":0.2,"timeout_seconds":10}`
	c.call(202, launchCall(offer, agent, taskInfo("t1", agent, "0.1", `,"command":{"value":"sleep 1000"},"check":{"type":"COMMAND","command":{"command":{"value":"exit $(cat `+file+`)"}}`+times)))
	const reason = "REASON_TASK_CHECK_STATUS_UPDATED"
	c.expect("TASK_RUNNING", "", object{"check_status.type": "COMMAND", "check_status.command.exit_code": nil, "reason": nil})
	c.expect("TASK_RUNNING", reason, object{"check_status.command.exit_code": 3.0, "healthy": nil})
	s.agents[0].kill() // the check continues
	os.WriteFile(file, []byte("0"), 0o600)
	time.Sleep(time.Second)
	s.agents[0].start()
	c.expect("TASK_RUNNING", reason, object{"check_status.command.exit_code": 0.0})
	c.call(202, `{"type":"KILL","kill":{"task_id":{"value":"t1"}}}`)
	c.expect("TASK_KILLED", "", object{"check_status.command.exit_code": 0.0, "healthy": nil})
	for k, one := range []struct{ check, path string }{
		{`"type":"HTTP","http":{"port":` + strings.TrimPrefix(s.urls[0], "http://127.0.0.1:") + `,"path":"/healthz"}`, "check_status.http.status_code"},
		{`"type":"TCP","tcp":{"port":` + strings.TrimPrefix(s.urls[0], "http://127.0.0.1:") + `}`, "check_status.tcp.succeeded"},
	} {
		offer, agent = c.offered()
		id := fmt.Sprintf("w%d", k)
		c.call(202, launchCall(offer, agent, taskInfo(id, agent, "0.1", `,"command":{"value":"sleep 1000"},"check":{`+one.check+times)))
		c.expect("TASK_RUNNING", "", object{one.path: nil})
		c.expect("TASK_RUNNING", reason, object{one.path: []interface{}{200.0, true}[k]})
		c.call(202, `{"type":"KILL","kill":{"task_id":{"value":"`+id+`"}}}`)
		c.expect("TASK_KILLED", "", nil)
	}
	s.waitFree(0)
}

// The texts are those of Mesos.
func TestInvalidChecks(t *testing.T) {
	s := newService(t, 1, 0)
	a := s.simulate("n1", scalar("cpus", "4"))
	a.next("REGISTERED")
	c := s.subscribe("admin", s.token, frameworkInfo)
	for k, one := range []struct{ field, text string }{
		{`"health_check":{}`, "Task uses invalid health check: HealthCheck must specify 'type'"},
		{`"health_check":{"type":"COMMAND"}`, "Task uses invalid health check: Expecting 'command' to be set for COMMAND health check"},
		{`"health_check":{"type":"HTTP"}`, "Expecting 'http' to be set for HTTP health check"},
		{`"health_check":{"type":"HTTP","http":{"port":80,"scheme":"ftp"}}`, "Unsupported HTTP health check scheme: 'ftp'"},
		{`"health_check":{"type":"HTTP","http":{"port":80,"path":"x"}}`, "The path 'x' of HTTP health check must start with '/'"},
		{`"health_check":{"type":"TCP"}`, "Expecting 'tcp' to be set for TCP health check"},
		{`"health_check":{"type":"TCP","tcp":{"port":80},"delay_seconds":-1}`, "Expecting 'delay_seconds' to be non-negative"},
		{`"health_check":{"type":"TCP","tcp":{"port":80},"grace_period_seconds":-1}`, "Expecting 'grace_period_seconds' to be non-negative"},
		{`"health_check":{"type":"UNKNOWN"}`, "'UNKNOWN' is not a valid health check type"},
		{`"check":{}`, "Task uses invalid check: CheckInfo must specify 'type'"},
		{`"check":{"type":"COMMAND"}`, "Task uses invalid check: Expecting 'command' to be set for COMMAND check"},
		{`"check":{"type":"TCP","tcp":{"port":80},"interval_seconds":-1}`, "Expecting 'interval_seconds' to be non-negative"},
	} {
		id := fmt.Sprintf("t%d", k)
		c.call(202, launchCall(c.offer(), "n1", taskInfo(id, "n1", "1", commandField+","+one.field)))
		if status := at(c.next("UPDATE"), "update", "status"); at(status, "state") != "TASK_ERROR" || at(status, "reason") != "REASON_TASK_INVALID" || !strings.Contains(at(status, "message").(string), one.text) {
			t.Errorf("%s: %v, want %q", one.field, status, one.text)
		}
	}
}
