// Tests of what Mesos documents about events, kills, reconciliation and reservations. Outside the proof.

package mesos

import (
	"strings"
	"testing"
	"time"
)

func (c *client) ack(status interface{}) {
	c.t.Helper()
	c.call(202, jsonOf(object{"type": "ACKNOWLEDGE", "acknowledge": object{"agent_id": at(status, "agent_id"), "task_id": at(status, "task_id"), "uuid": at(status, "uuid")}}))
}

// status waits for the next status.
func (c *client) status() interface{} {
	c.t.Helper()
	return at(c.next("UPDATE"), "update", "status")
}

// The first events of a stream are SUBSCRIBED and a HEARTBEAT, without delay.
func TestStreamBegins(t *testing.T) {
	s := newService(t, 1, 0)
	start := time.Now()
	l := s.listen("/api/v1/scheduler", "admin", s.token, `{"type":"SUBSCRIBE","subscribe":{"framework_info":`+frameworkInfo+`}}`)
	first, second := <-l.events, <-l.events
	if first["type"] != "SUBSCRIBED" || at(first, "subscribed", "heartbeat_interval_seconds") != 15.0 || at(first, "subscribed", "master_info", "id") == "" || second["type"] != "HEARTBEAT" {
		t.Errorf("%v %v", first, second)
	}
	if time.Since(start) > 10*time.Second { // the second one comes after 15 s
		t.Errorf("the heartbeat came after %v", time.Since(start))
	}
	if l.header.Get("Content-Type") != "application/json" || len(l.header.Get("Mesos-Stream-Id")) != 36 {
		t.Errorf("%v", l.header)
	}
}

// TASK_KILLING is sent only to frameworks with the capability, once, and no earlier state follows it.
func TestKilling(t *testing.T) {
	s := newService(t, 1, 0)
	a := s.simulate("n1", scalar("cpus", "4"))
	a.next("REGISTERED")
	for _, capable := range []bool{true, false} {
		info := frameworkInfo
		if capable {
			info = strings.Replace(info, `"capabilities":[`, `"capabilities":[{"type":"TASK_KILLING_STATE"},`, 1)
		}
		c := s.subscribe("admin", s.token, info)
		c.call(202, launchCall(c.offer(), "n1", taskInfo("t1", "n1", "1", commandField+`,"kill_policy":{"grace_period":{"nanoseconds":9000000000}}`)))
		run := at(a.next("RUN"), "tasks", 0)
		a.report(run, "TASK_RUNNING", 1)
		c.ack(c.status())
		c.call(202, `{"type":"KILL","kill":{"task_id":{"value":"t1"},"agent_id":{"value":"other"}}}`)
		a.none("KILL", 300*time.Millisecond) // it is of another agent than is said
		for _, one := range []struct {
			policy string
			grace  float64
		}{{``, 9000}, {`,"kill_policy":{"grace_period":{"nanoseconds":2000000000}}`, 2000}, {`,"kill_policy":{}`, 9000}} {
			c.call(202, `{"type":"KILL","kill":{"task_id":{"value":"t1"},"agent_id":{"value":"n1"}`+one.policy+`}}`)
			if kill := a.next("KILL"); at(kill, "kill", "grace_ms") != one.grace {
				t.Errorf("%s: %v", one.policy, kill)
			}
		}
		a.report(run, "TASK_KILLING", 2)
		if capable {
			a.report(run, "TASK_RUNNING", 3) // late
			status := c.status()
			if at(status, "state") != "TASK_KILLING" || at(status, "uuid") == nil {
				t.Errorf("%v", status)
			}
			c.ack(status)
		}
		a.report(run, "TASK_KILLED", 4)
		status := c.status()
		if at(status, "state") != "TASK_KILLED" {
			t.Errorf("capable %v: %v", capable, status)
		}
		c.ack(status)
		c.call(202, `{"type":"TEARDOWN"}`)
	}
	s.waitFree(0)
}

// A reconciliation reports the state of the status that waits for its acknowledgement: no state is followed by an earlier one.
func TestReconcileIsInOrder(t *testing.T) {
	s := newService(t, 1, 0)
	a := s.simulate("n1", scalar("cpus", "4"))
	a.next("REGISTERED")
	c := s.subscribe("admin", s.token, frameworkInfo)
	c.call(202, launchCall(c.offer(), "n1", taskInfo("t1", "n1", "1", commandField)))
	run := at(a.next("RUN"), "tasks", 0)
	states := func(want ...string) {
		t.Helper()
		for _, state := range want {
			if status := c.status(); at(status, "state") != state || at(status, "reason") != "REASON_RECONCILIATION" || at(status, "source") != "SOURCE_MASTER" || at(status, "uuid") != nil {
				t.Errorf("%v, want %s", status, state)
			}
		}
	}
	c.call(202, `{"type":"RECONCILE","reconcile":{"tasks":[]}}`)
	states("TASK_STAGING")
	a.report(run, "TASK_RUNNING", 1)
	first := c.status()
	a.report(run, "TASK_FINISHED", 2)
	c.call(202, `{"type":"RECONCILE","reconcile":{"tasks":[{"task_id":{"value":"t1"},"agent_id":{"value":"n1"}}]}}`)
	states("TASK_RUNNING")
	c.ack(first)
	last := c.status()
	c.call(202, `{"type":"RECONCILE","reconcile":{"tasks":[]}}`)
	states("TASK_FINISHED")
	c.ack(last)
	c.none("UPDATE", 300*time.Millisecond)
	c.call(202, `{"type":"RECONCILE","reconcile":{"tasks":[{"task_id":{"value":"t1"},"agent_id":{"value":"n1"}}]}}`)
	states("TASK_LOST") // a task that has ended and is acknowledged is unknown
	aware := s.subscribe("admin", s.token, strings.Replace(frameworkInfo, `"capabilities":[`, `"capabilities":[{"type":"PARTITION_AWARE"},`, 1))
	aware.call(202, `{"type":"RECONCILE","reconcile":{"tasks":[{"task_id":{"value":"x"},"agent_id":{"value":"n1"}},{"task_id":{"value":"x"},"agent_id":{"value":"n2"}},{"task_id":{"value":"x"}}]}}`)
	c = aware
	states("TASK_GONE", "TASK_UNKNOWN", "TASK_UNKNOWN")
	c.call(202, `{"type":"KILL","kill":{"task_id":{"value":"x"}}}`)
	states("TASK_UNKNOWN")
	c.call(202, launchCall("unknown", "n1", taskInfo("t", "n1", "1", commandField)))
	if status := c.status(); at(status, "state") != "TASK_DROPPED" || at(status, "reason") != "REASON_INVALID_OFFERS" {
		t.Errorf("%v", status)
	}
}

// Reservations are of what was offered, for the role that it was offered to, with one level, without labels.
func TestReservations(t *testing.T) {
	s := newService(t, 1, 0)
	a := s.simulate("n1", scalar("cpus", "4"))
	a.next("REGISTERED")
	for _, refined := range []bool{false, true} {
		info := strings.Replace(frameworkInfo, `"roles":["web"]`, `"roles":["web","eng"]`, 1)
		role := func(role, more string) string {
			return `,"role":"` + role + `","reservation":{"principal":"admin"` + more + `}`
		}
		if refined {
			info = strings.Replace(info, `"capabilities":[`, `"capabilities":[{"type":"RESERVATION_REFINEMENT"},`, 1)
			role = func(role, more string) string {
				return `,"reservations":[{"type":"DYNAMIC","role":"` + role + `"` + more + `}]`
			}
		}
		c := s.subscribe("admin", s.token, info)
		c.call(202, `{"type":"SUPPRESS","suppress":{"roles":["eng"]}}`)
		c.call(202, `{"type":"REVIVE","revive":{"roles":["web"]}}`)
		offer := c.next("OFFERS")
		for at(offer, "offers", "offers", 0, "allocation_info", "role") != "web" {
			offer = c.next("OFFERS")
		}
		operation := func(kind, cpus, more string) string {
			return `{"type":"` + kind + `","` + strings.ToLower(kind) + `":{"resources":[` + strings.TrimSuffix(scalar("cpus", cpus), "}") + more + `}]}}`
		}
		accept := func(operations ...string) string {
			return `{"type":"ACCEPT","accept":{"offer_ids":[{"value":"` + at(offer, "offers", "offers", 0, "id", "value").(string) + `"}],"operations":[` + strings.Join(operations, ",") + `]}}`
		}
		for _, one := range []struct{ text, want string }{
			{operation("RESERVE", "5", role("web", "")), "the offers do not have cpus:1"},
			{operation("RESERVE", "1", role("eng", "")), "allocated to role 'web', and its reservation is for role 'eng'"},
			{operation("RESERVE", "1", role("web", `,"labels":{"labels":[{"key":"k"}]}`)), "labels of reservations are not supported"},
			{operation("RESERVE", "1", `,"reservations":[{"type":"DYNAMIC","role":"web","principal":"other"}]`), "the reservation's principal is 'other'"},
			{operation("RESERVE", "1", `,"reservations":[{"type":"STATIC","role":"web"}]`), "DYNAMIC, not STATIC"},
			{operation("RESERVE", "1", `,"reservations":[{"type":"DYNAMIC","role":"web"},{"type":"DYNAMIC","role":"web/x"}]`), "2 stacked reservations are not supported"},
			{operation("RESERVE", "1", role("web", "")+`,"allocation_info":{"role":"eng"}`), "it is allocated to role 'eng'"},
			{operation("UNRESERVE", "1", role("web", "")), "the offers do not have cpus(web):1"},
		} {
			if text := c.call(400, accept(one.text)); !strings.Contains(text, one.want) {
				t.Errorf("%s: %s", one.text, text)
			}
		}
		if text := c.call(501, accept(strings.Replace(operation("RESERVE", "1", ""), "RESERVE", "GROW_VOLUME", 1))); !strings.Contains(text, "GROW_VOLUME") {
			t.Error(text)
		}
		c.call(202, accept(operation("RESERVE", "3", role("web", "")), operation("UNRESERVE", "1", role("web", ""))))
		offer = c.next("OFFERS")
		for k := 0; k < 2; k++ {
			one := at(offer, "offers", "offers", 0, "resources", k)
			isReserved := at(one, "role") == "web" && at(one, "reservation") != nil
			if refined {
				isReserved = at(one, "reservations", 0, "role") == "web" && at(one, "reservations", 0, "type") == "DYNAMIC" && at(one, "role") == nil && at(one, "reservation") == nil
			}
			if at(one, "scalar", "value") != 2.0 || isReserved != (k == 1) {
				t.Errorf("refined %v: %v", refined, one)
			}
		}
		task := `{"name":"t","task_id":{"value":"t"},"agent_id":{"value":"n1"},"resources":[` + strings.TrimSuffix(scalar("cpus", "2"), "}") + role("web", "") + `}]` + commandField + `}`
		c.call(202, launchCall(at(offer, "offers", "offers", 0, "id", "value").(string), "n1", task))
		if held := s.held(0); len(held) != 1 || !strings.Contains(held[0], "cpus(web):2") {
			t.Errorf("refined %v: %v", refined, held)
		}
		a.report(at(a.next("RUN"), "tasks", 0), "TASK_FINISHED", 1)
		c.ack(c.status())
		for {
			offer = c.next("OFFERS")
			if at(offer, "offers", "offers", 0, "resources", 0, "scalar", "value") == 2.0 {
				break
			}
			c.call(202, `{"type":"DECLINE","decline":{"offer_ids":[`+jsonOf(at(offer, "offers", "offers", 0, "id"))+`],"filters":{"refuse_seconds":0}}}`)
		}
		c.call(202, accept(operation("UNRESERVE", "2", role("web", ""))))
		c.call(202, `{"type":"TEARDOWN"}`)
	}
}
