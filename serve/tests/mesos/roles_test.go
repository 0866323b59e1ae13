// Frameworks that change their roles while they run. Outside the proof.

package mesos

import (
	"encoding/json"
	"os"
	"os/exec"
	"path/filepath"
	"sort"
	"strings"
	"testing"
	"time"
)

// knowsSetFramework asks the allocator's program whether it knows the event.
func knowsSetFramework(t *testing.T) bool {
	t.Helper()
	build(t)
	command := exec.Command(os.Getenv("DRF"), "run")
	command.Stdin = strings.NewReader(`{"event":"set_framework","framework":"f","roles":["r"]}` + "\n")
	text, err := command.Output()
	if err != nil {
		t.Fatal(err)
	}
	return !strings.Contains(string(text), `"BadShape"`)
}

func needSetFramework(t *testing.T) {
	t.Helper()
	if !knowsSetFramework(t) {
		t.Skip("the allocator's program does not know set_framework: set DRF to one that does")
	}
}

// clients returns the roles that the allocator's only framework has, each with a minus where it is suppressed.
func (s *service) clients() string {
	s.t.Helper()
	var state struct {
		Rows []struct {
			Row     string
			Clients []struct {
				Role       string
				Suppressed bool
			}
		}
	}
	if err := json.Unmarshal(s.get(0, "/drf/v1/state"), &state); err != nil {
		s.t.Fatal(err)
	}
	var roles []string
	for _, row := range state.Rows {
		for _, one := range row.Clients {
			roles = append(roles, map[bool]string{true: "-", false: ""}[one.Suppressed]+one.Role)
		}
	}
	sort.Strings(roles)
	return strings.Join(roles, " ")
}

func (s *service) waitClients(want string) {
	s.t.Helper()
	for end := time.Now().Add(60 * time.Second); s.clients() != want; time.Sleep(50 * time.Millisecond) {
		if time.Now().After(end) {
			s.t.Fatalf("the allocator has the clients %q, want %q", s.clients(), want)
		}
	}
}

func infoIn(id, roles, more string) string {
	return `{"user":"root","name":"n","roles":` + roles + `,"failover_timeout":100,"capabilities":[{"type":"MULTI_ROLE"}],"id":{"value":"` + id + `"}` + more + `}`
}

func updateCall(info, more string) string {
	return `{"type":"UPDATE_FRAMEWORK","update_framework":{"framework_info":` + info + more + `}}`
}

// Until all gateways' programs know the event, roles do not change.
func TestRolesStay(t *testing.T) {
	if knowsSetFramework(t) {
		t.Skip("the allocator's program knows set_framework, and this is how one is answered that does not")
	}
	s := newService(t, 1, 0)
	c := s.subscribe("admin", s.token, frameworkInfo)
	if why := c.call(501, updateCall(infoIn(c.id, `["ops"]`, ""), "")); !strings.Contains(why, "the call type UPDATE_FRAMEWORK is not supported") {
		t.Error(why)
	}
	if why := s.refused("admin", s.token, infoIn(c.id, `["ops"]`, "")); !strings.Contains(why, "`set_framework`") {
		t.Error(why)
	}
	s.waitClients("web")
}

// Offers in a role that is left are rescinded, and a role with a task is left when that ends.
func TestUpdateFramework(t *testing.T) {
	needSetFramework(t)
	s := newService(t, 1, 0)
	a := s.simulate("n1", scalar("cpus", "4"))
	a.next("REGISTERED")
	c := s.subscribe("admin", s.token, frameworkInfo)
	c.call(202, launchCall(c.offer(), "n1", taskInfo("t1", "n1", "1", commandField)))
	run := at(a.next("RUN"), "tasks", 0)
	a.report(run, "TASK_RUNNING", 1)
	c.ack(c.status())
	rest := at(append(c.missed, nil), 0, "id", "value") // of the offer that came while the status was waited for
	if rest == nil {
		rest = c.offer()
	}
	c.call(200, updateCall(infoIn(c.id, `["ops"]`, ""), ""))
	if e := c.next("RESCIND"); at(e, "rescind", "offer_id", "value") != rest {
		t.Errorf("%v, want that of %s", e, rest)
	}
	o := at(c.next("OFFERS"), "offers", "offers", 0)
	if at(o, "allocation_info", "role") != "ops" || at(o, "resources", 0, "scalar", "value") != 3.0 {
		t.Errorf("%v", o)
	}
	s.waitClients("-web ops")
	if roles := jsonOf(at(s.operate(200, `{"type":"GET_FRAMEWORKS"}`), "get_frameworks", "frameworks", 0, "framework_info", "roles")); roles != `["ops"]` {
		t.Error(roles)
	}
	c.call(400, `{"type":"REVIVE","revive":{"roles":["web"]}}`) // it is no longer subscribed there
	c.call(202, `{"type":"REVIVE"}`)
	s.waitClients("-web ops")
	a.report(run, "TASK_FINISHED", 2)
	c.ack(c.status())
	s.waitClients("ops")
	c.call(200, updateCall(infoIn(c.id, `["ops","web"]`, ""), `,"suppressed_roles":["ops"]`))
	s.waitClients("-ops web")
	for _, one := range []struct {
		info, more, want string
		status           int
	}{
		{infoIn(c.id, `["ops"]`, `,"checkpoint":true`), "", "Updating 'FrameworkInfo.checkpoint' is unsupported", 400},
		{strings.Replace(infoIn(c.id, `["ops"]`, ""), "root", "nobody", 1), "", "Updating 'FrameworkInfo.user' is unsupported", 400},
		{infoIn(c.id, `["ops"]`, `,"principal":"other"`), "", "Updating 'FrameworkInfo.principal' is unsupported", 400},
		{infoIn("other", `["ops"]`, ""), "", "'framework_id' differs from 'update_framework.framework_info.id'", 400},
		{infoIn(c.id, `["ops","ops"]`, ""), "", "contains duplicate items: ops", 400},
		{infoIn(c.id, `[]`, ""), "", "a framework without a role is not supported", 400},
		{infoIn(c.id, `["a","b","c","d","e","f","g","h","i"]`, ""), "", "at most 8 are supported", 400},
		{infoIn(c.id, `["ops"]`, ""), `,"suppressed_roles":["web"]`, "Suppressed role 'web' is not contained in the list of roles", 400},
	} {
		if why := c.call(one.status, updateCall(one.info, one.more)); !strings.Contains(why, one.want) {
			t.Errorf("%s %s: %s", one.info, one.more, why)
		}
	}
	c.call(400, `{"type":"UPDATE_FRAMEWORK"}`)
	s.waitClients("-ops web")
	c.call(202, `{"type":"TEARDOWN"}`)
	s.waitFree(0)
	s.checkJournal(0)
}

// A framework gets only those roles that its principal has the right to.
func TestUpdateNeedsRights(t *testing.T) {
	needSetFramework(t)
	s := newService(t, 1, 0)
	c := s.subscribe("mine", s.addToken("mine", "role:web"), frameworkInfo)
	if why := c.call(403, updateCall(infoIn(c.id, `["web","webs"]`, ""), "")); !strings.Contains(why, "needs the right role:webs") {
		t.Error(why)
	}
	s.waitClients("web")
	c.call(200, updateCall(infoIn(c.id, `["web/a"]`, ""), ""))
	s.waitClients("web/a")
}

// A mesos-go scheduler subscribes again in another role while its tasks run.
func TestSubscribeInOtherRole(t *testing.T) {
	needSetFramework(t)
	for _, codec := range []string{"protobuf", "json"} {
		s := newService(t, 1, 1)
		file, id := filepath.Join(s.folder, "starts"), filepath.Join(s.folder, "id")
		one := s.scheduler("one", 0, "-tasks", "40", "-codec", codec, "-command", s.command(file, "sleep 8"), "-within", "200s", "-id-file", id)
		one.start()
		for end := time.Now().Add(60 * time.Second); len(s.starts(file)) < 2 && time.Now().Before(end); time.Sleep(50 * time.Millisecond) {
		}
		one.kill()
		again := s.scheduler("two", 0, "-tasks", "60", "-codec", codec, "-role", "ops", "-command", s.command(file, "sleep 3"), "-within", "200s", "-id-file", id)
		again.start()
		s.waitClients("-web ops")
		s.waitClients("ops") // when the last task in web has ended
		again.wait()
		if !strings.Contains(again.log(), "SUBSCRIBED as "+frameworkOf(one.log())) || strings.Contains(one.log()+again.log(), "TASK_LOST") {
			t.Errorf("%s: %s %s", codec, one.log(), again.log())
		}
		s.checkOnce(file, 60)
		s.waitFree(0)
		s.checkJournal(0)
	}
}
