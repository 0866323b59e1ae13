// Users that tasks run as: only root can test that. Outside the proof.

package mesos

import (
	"os"
	"path/filepath"
	"strings"
	"testing"
)

func TestUsers(t *testing.T) {
	if os.Getuid() != 0 {
		t.Skip("only root can run tasks as other users")
	}
	s := newService(t, 1, 1)
	for folder := s.folder; folder != os.TempDir() && len(folder) > 1; folder = filepath.Dir(folder) {
		os.Chmod(folder, 0o711)
	}
	secret, open := filepath.Join(s.folder, "g0", "admin.token"), filepath.Join(s.folder, "open")
	os.Chmod(filepath.Dir(secret), 0o755) // so that the file's own permissions count
	os.WriteFile(open, []byte("echo open\n"), 0o644)
	token := s.addToken("p", "role:web", "user:nobody", "user:no-such-user")
	c := s.subscribe("p", token, strings.Replace(frameworkInfo, `"root"`, `"nobody"`, 1))
	for _, one := range []struct{ name, command, state, text string }{
		{"framework", `{"value":"test $(id -un) = nobody && test $(stat -c %U-%a .) = nobody-700 && test $(stat -c %U stdout) = nobody"}`, "TASK_FINISHED", ""},
		{"own", `{"user":"nobody","value":"test $(id -u) = $(id -u nobody) && test $(id -G | wc -w) = 1"}`, "TASK_FINISHED", ""},
		{"secret", `{"value":"cat ` + secret + `"}`, "TASK_FAILED", "exited with status 1"},
		{"environment", `{"value":"cat /proc/$(cat ../supervisor)/environ"}`, "TASK_FAILED", "exited with status 1"},
		{"folder", `{"value":"cat ../process"}`, "TASK_FAILED", "exited with status 1"},
		{"list", `{"value":"ls ../.."}`, "TASK_FAILED", "exited with status 2"},
		{"signal", `{"value":"kill -9 $PPID"}`, "TASK_FAILED", "exited with status 1"},
		{"uri", `{"value":"test $(stat -c %U run) = nobody && test $(./run) = open","uris":[{"value":"` + open + `","executable":true,"output_file":"run"}]}`, "TASK_FINISHED", ""},
		{"secret-uri", `{"value":"true","uris":[{"value":"file://` + secret + `"}]}`, "TASK_FAILED", "permission denied"},
		{"check", `{"value":"sleep 1000"},"check":{"type":"COMMAND","command":{"command":{"value":"exit $(id -u)"}},"delay_seconds":0}`, "", ""},
		{"root", `{"user":"root","value":"true"}`, "TASK_ERROR", "Not authorized to launch as user 'root': the principal 'p' needs the right user:root"},
		{"unknown", `{"user":"no-such-user","value":"true"}`, "TASK_FAILED", "Failed to get user information for 'no-such-user'"},
	} {
		offer, agent := c.offered()
		c.call(202, launchCall(offer, agent, taskInfo(one.name, agent, "0.1", `,"command":`+one.command)))
		if one.name == "check" {
			c.expect("TASK_RUNNING", "", nil)
			c.expect("TASK_RUNNING", "REASON_TASK_CHECK_STATUS_UPDATED", object{"check_status.command.exit_code": float64(65534 & 255)})
			c.call(202, `{"type":"KILL","kill":{"task_id":{"value":"check"}}}`)
			c.expect("TASK_KILLED", "", nil)
			continue
		}
		status := c.outcome(one.name)
		if message, _ := at(status, "message").(string); at(status, "state") != one.state || !strings.Contains(message, one.text) {
			t.Errorf("%s: %v, want %s %s", one.name, status, one.state, one.text)
		}
	}
	// An executor runs as its framework's user, and no other user's process may speak for it.
	offer, agent := c.offered()
	c.call(202, launchCall(offer, agent, executed("e1", agent, "x", `{"executor_id":{"value":"e"},"command":{"value":"id -un > user; test $(id -un) = nobody; exit $?"}}`)))
	if status := c.outcome("e1"); at(status, "message") != "Executor exited with status 0" {
		t.Errorf("%v", status)
	}
	c.failure("e", 0.0)
	c.call(202, launchCall(offerOf(c), agent, executed("e2", agent, "x", `{"executor_id":{"value":"e"},"command":{"value":"true","user":"root"}}`)))
	if status := at(c.next("UPDATE"), "update", "status"); at(status, "reason") != "REASON_TASK_UNAUTHORIZED" {
		t.Errorf("%v", status)
	}
	other := s.subscribe("admin", s.token, strings.Replace(frameworkInfo, `"root"`, `""`, 1)) // the agent's own user
	offer, agent = other.offered()
	other.call(202, launchCall(offer, agent, taskInfo("t", agent, "0.1", `,"command":{"value":"test $(id -un) = root"}`)))
	if status := other.outcome("t"); at(status, "state") != "TASK_FINISHED" {
		t.Errorf("%v", status)
	}
	s.waitFree(0)
}

func offerOf(c *client) string {
	offer, _ := c.offered()
	return offer
}

// An agent that does not change users says so, and refuses other users than its own.
func TestUsersAreNotSwitched(t *testing.T) {
	s := newService(t, 1, 0)
	a := s.process("a0", filepath.Join(s.programs, "agent"), "-gateways", s.urls[0], "-work", "a0", "-name", "a0", "-token-file", filepath.Join(s.folder, "g0", "admin.token"), "-resources", "cpus:2;mem:64", "-switch-user=false")
	a.start()
	c := s.subscribe("admin", s.token, strings.Replace(frameworkInfo, `"root"`, `"no-such-user"`, 1))
	for k, one := range []struct{ user, state string }{{"", "TASK_FINISHED"}, {`,"user":"someone-else"`, "TASK_ERROR"}} {
		offer, agent := c.offered()
		id := []string{"t0", "t1"}[k]
		c.call(202, launchCall(offer, agent, taskInfo(id, agent, "0.1", `,"command":{"value":"true"`+one.user+`}`)))
		status := c.outcome(id)
		if message, _ := at(status, "message").(string); at(status, "state") != one.state || one.user != "" && !strings.Contains(message, "'CommandInfo.user' is 'someone-else': the agent does not run tasks as other users than its own") {
			t.Errorf("%v", status)
		}
	}
}
