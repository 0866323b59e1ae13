// Attacks: a principal tries to act on another principal's framework. Outside the proof.

package mesos

import (
	"io"
	"net/http"
	"os"
	"os/exec"
	"path/filepath"
	"strings"
	"syscall"
	"testing"
	"time"

	"gateway/internal/mesos/codec"
)

// refused subscribes, and returns the ERROR that the stream has alone.
func (s *service) refused(principal, token, info string) string {
	s.t.Helper()
	l := s.listen("/api/v1/scheduler", principal, token, `{"type":"SUBSCRIBE","framework_id":`+jsonOf(at(parse(info), "id"))+`,"subscribe":{"framework_info":`+info+`}}`)
	return at(l.next("ERROR"), "error", "message").(string)
}

func TestPrincipalsAreApart(t *testing.T) {
	s := newService(t, 1, 0, "-mesos-gateway-grace", "1s")
	mine, other := s.addToken("mine", "role:web"), s.addToken("other", "role:web", "role:other", "framework:site")
	a := s.simulate("n1", scalar("cpus", "4"))
	a.next("REGISTERED")
	c := s.subscribe("mine", mine, frameworkInfo)
	offer := c.offer()
	named := func(id string) string { return strings.Replace(frameworkInfo, "{", `{"id":{"value":"`+id+`"},`, 1) }
	if why := s.refused("other", other, named(c.id)); !strings.Contains(why, "is another principal's than 'other'") {
		t.Error(why)
	}
	if why := s.refused("mine", mine, `{"user":"u","name":"n","role":"other"}`); !strings.Contains(why, "Not authorized to use role 'other'") {
		t.Error(why)
	}
	stranger := *c // who knows the id and the stream
	stranger.principal, stranger.token = "other", other
	for _, call := range []string{`{"type":"TEARDOWN"}`, launchCall(offer, "n1", taskInfo("t", "n1", "1", commandField)), `{"type":"RECONCILE","reconcile":{}}`, `{"type":"SUPPRESS"}`} {
		if text := stranger.call(400, call); !strings.Contains(text, "Authenticated principal 'other' does not match the principal") {
			t.Error(text)
		}
	}
	// An offer, a task and a status of another framework are unknown to one's own.
	own := s.subscribe("other", other, strings.Replace(frameworkInfo, "web", "other", 1))
	own.call(202, `{"type":"DECLINE","decline":{"offer_ids":[{"value":"`+offer+`"}]}}`)
	own.call(202, launchCall(offer, "n1", taskInfo("t", "n1", "1", commandField)))
	if status := at(own.next("UPDATE"), "update", "status"); at(status, "reason") != "REASON_INVALID_OFFERS" {
		t.Errorf("%v", status)
	}
	c.call(202, launchCall(offer, "n1", taskInfo("t", "n1", "1", commandField)))
	run := at(a.next("RUN"), "tasks", 0)
	own.call(202, `{"type":"KILL","kill":{"task_id":{"value":"t"},"agent_id":{"value":"n1"}}}`)
	if status := at(own.next("UPDATE"), "update", "status"); at(status, "state") != "TASK_LOST" {
		t.Errorf("%v", status)
	}
	own.call(202, `{"type":"SHUTDOWN","shutdown":{"executor_id":{"value":"t"},"agent_id":{"value":"n1"}}}`)
	a.none("KILL", 300*time.Millisecond)
	a.report(run, "TASK_RUNNING", 1)
	status := at(c.next("UPDATE"), "update", "status")
	own.call(202, jsonOf(object{"type": "ACKNOWLEDGE", "acknowledge": object{"agent_id": object{"value": "n1"}, "task_id": at(status, "task_id"), "uuid": at(status, "uuid")}}))
	a.report(run, "TASK_FINISHED", 2)
	c.none("UPDATE", 300*time.Millisecond) // the first one is still not acknowledged
	// Frameworks have no rights of agents.
	answer := s.request("/drf/v1/agent-link", "other", other, `{"type":"REGISTER","agent_id":{"value":"n1"}}`)
	if answer.Body.Close(); answer.StatusCode != http.StatusForbidden {
		t.Error(answer.Status)
	}
}

// An id that a framework brings gives it no name of the event API's: with that, the owner of the one could act for the other.
func TestNamesAreBound(t *testing.T) {
	s := newService(t, 1, 0)
	mine, site := s.addToken("mine", "role:web"), s.addToken("site", "role:web", "framework:site")
	info := strings.Replace(frameworkInfo, "{", `{"id":{"value":"site"},`, 1)
	c := s.subscribe("mine", mine, info)
	if c.id != "site" {
		t.Errorf("the framework is %s", c.id)
	}
	a := s.simulate("n1", scalar("cpus", "4"))
	a.next("REGISTERED")
	c.call(202, launchCall(c.offer(), "n1", taskInfo("t", "n1", "1", commandField)))
	a.next("RUN")
	send := func(line string) string {
		request, _ := http.NewRequest(http.MethodPost, s.urls[0]+"/drf/v1/events", strings.NewReader(line))
		request.Header.Set("Authorization", "Bearer "+site)
		answer, err := http.DefaultClient.Do(request)
		if err != nil {
			t.Fatal(err)
		}
		defer answer.Body.Close()
		text, _ := io.ReadAll(answer.Body)
		return string(text)
	}
	if reply := send(`{"event":"remove_framework","framework":"site"}`); !strings.Contains(reply, "UnknownFramework") {
		t.Errorf("the framework of Mesos' has the name: %s", reply)
	}
	if reply := send(`{"event":"add_framework","framework":"site","roles":["web"]}`); !strings.Contains(reply, `{"ok":true}`) {
		t.Errorf("the name is taken from its owner: %s", reply)
	}
	if reply := send(`{"event":"remove_framework","framework":"site"}`); !strings.Contains(reply, `{"ok":true}`) {
		t.Error(reply)
	}
	c.call(202, `{"type":"RECONCILE","reconcile":{}}`) // nothing became of it
	if status := at(c.next("UPDATE"), "update", "status"); at(status, "state") != "TASK_STAGING" {
		t.Errorf("%v", status)
	}
	if why := s.refused("site", site, info); !strings.Contains(why, "is another principal's than 'site'") {
		t.Error(why)
	}
	again := s.subscribe("mine", mine, info) // who keeps its tasks
	again.call(202, `{"type":"RECONCILE","reconcile":{}}`)
	if status := at(again.next("UPDATE"), "update", "status"); at(status, "task_id", "value") != "t" {
		t.Errorf("%v", status)
	}
}

// Principals of a credentials file are known by HTTP Basic with their names, and by nothing else.
func TestCredentials(t *testing.T) {
	s := newService(t, 1, 1)
	file := filepath.Join(s.folder, "credentials")
	if err := os.WriteFile(file, []byte("marathon s3cret\nchronos s3cret\n"), 0o600); err != nil {
		t.Fatal(err)
	}
	importer := exec.Command(filepath.Join(s.programs, "gateway"), "credentials", "-tokens", filepath.Join(s.folder, "g0", "tokens.json"), file, "role:web", "user:root")
	if text, err := importer.CombinedOutput(); err != nil || !strings.Contains(string(text), "2 principals are in") || strings.Contains(string(text), "s3cret") {
		t.Fatalf("%v %s", err, text)
	}
	s.addToken("other", "read") // which lets the gateway read the file
	for _, one := range []struct {
		header string
		status int
	}{
		{"Basic bWFyYXRob246czNjcmV0", 400}, {"Basic Y2hyb25vczpzM2NyZXQ=", 400}, // marathon:s3cret, chronos:s3cret; the body is empty
		{"Basic b3RoZXI6czNjcmV0", 401}, {"Basic bWFyYXRob246", 401}, {"Bearer s3cret", 401}, // other:s3cret, marathon:
	} {
		answer := s.request("/api/v1/scheduler", "", "", "{}", "Authorization", one.header)
		if answer.Body.Close(); answer.StatusCode != one.status {
			t.Errorf("%s: %s", one.header, answer.Status)
		}
	}
	if err := os.WriteFile(file, []byte("s3cret"), 0o600); err != nil {
		t.Fatal(err)
	}
	p := s.scheduler("one", 0, "-principal", "marathon", "-token-file", file, "-tasks", "3", "-within", "100s")
	p.start()
	p.wait()
	if c := s.subscribe("marathon", "s3cret", frameworkInfo); c.id == "" {
		t.Error("there is no framework")
	}
	if why := s.refused("chronos", "s3cret", `{"user":"u","name":"n","role":"ops"}`); !strings.Contains(why, "Not authorized to use role 'ops'") {
		t.Error(why)
	}
}

// addToken adds a token, and lets the gateway read it.
func (s *service) addToken(name string, rights ...string) string {
	s.t.Helper()
	token, err := exec.Command(filepath.Join(s.programs, "gateway"), append([]string{"token", filepath.Join(s.folder, "g0", "tokens.json"), name}, rights...)...).Output()
	if err != nil {
		s.t.Fatal(err)
	}
	s.gateways[0].running.Process.Signal(syscall.SIGHUP)
	for end := time.Now().Add(10 * time.Second); time.Now().Before(end); time.Sleep(20 * time.Millisecond) {
		answer := s.request("/api/v1/scheduler", name, strings.TrimSpace(string(token)), `{}`, "Content-Type", codec.TypeJSON)
		if answer.Body.Close(); answer.StatusCode != http.StatusUnauthorized {
			return strings.TrimSpace(string(token))
		}
	}
	s.t.Fatal("the token is not known")
	return ""
}
