// Tests of the agent: how commands run, and which statuses are reported. Outside the proof.

package mesos

import (
	"fmt"
	"net/http"
	"net/http/httptest"
	"os"
	"os/exec"
	"path/filepath"
	"strings"
	"testing"
	"time"
)

// outcome waits for the last status of a task, and acknowledges all statuses before it.
func (c *client) outcome(task string) interface{} {
	c.t.Helper()
	for {
		status := at(c.next("UPDATE"), "update", "status")
		if at(status, "uuid") != nil {
			c.call(202, jsonOf(object{"type": "ACKNOWLEDGE", "acknowledge": object{"agent_id": at(status, "agent_id"), "task_id": at(status, "task_id"), "uuid": at(status, "uuid")}}))
		}
		if state := at(status, "state"); at(status, "task_id", "value") == task && state != "TASK_RUNNING" {
			return status
		}
	}
}

func TestCommands(t *testing.T) {
	t.Parallel()
	s := newService(t, 1, 1)
	c := s.subscribe("admin", s.token, frameworkInfo)
	out := filepath.Join(s.folder, "out")
	files := http.FileServer(http.Dir(s.folder))
	server := httptest.NewServer(files)
	defer server.Close()
	os.WriteFile(filepath.Join(s.folder, "tool"), []byte("#!/bin/sh\necho tool\n"), 0o644)
	if text, err := exec.Command("tar", "-C", s.folder, "-czf", filepath.Join(s.folder, "packed.tgz"), "tool").CombinedOutput(); err != nil {
		t.Fatal(string(text), err)
	}
	for k, one := range []struct{ command, state, message string }{
		{`{"value":"echo $MESOS_TASK_ID $GREETING; pwd; echo $MESOS_SANDBOX; echo $MESOS_FRAMEWORK_ID; echo wrong >&2; until grep -q $MESOS_FRAMEWORK_ID stdout; do sleep 0.05; done; cp stdout ` + out + `","environment":{"variables":[{"name":"GREETING","value":"hello"}]}}`, "TASK_FINISHED", "exited with status 0"},
		{`{"value":"exit 3"}`, "TASK_FAILED", "exited with status 3"},
		{`{"value":"kill -9 $$"}`, "TASK_FAILED", "terminated with signal killed"},
		{`{"shell":false,"value":"sh","arguments":["sh","-c","exit $0","4"]}`, "TASK_FAILED", "exited with status 4"},
		{`{"shell":false,"value":"no-such-program"}`, "TASK_FAILED", "the command did not start"},
		{`{"value":"test $(./bin/run) = tool && test -f tool && test -f packed.tgz","uris":[{"value":"` + filepath.Join(s.folder, "tool") + `","executable":true,"output_file":"bin/run"},{"value":"` + server.URL + `/packed.tgz"}]}`, "TASK_FINISHED", "exited with status 0"},
		{`{"value":"true","uris":[{"value":"` + server.URL + `/nothing"}]}`, "TASK_FAILED", "404 Not Found"},
		{`{"value":"true","uris":[{"value":"file://` + s.folder + `/tool","output_file":"../../x"}]}`, "TASK_FAILED", "is not in the sandbox"},
		{`{"value":"true","uris":[{"value":"hdfs://x/y"}]}`, "TASK_FAILED", "is not supported: expected file, http or https"},
		{`{"value":"(sleep 1000 & echo $! > ` + out + `.pid)"}`, "TASK_FINISHED", "exited with status 0"},
	} {
		offer, agent := c.offered()
		task := fmt.Sprintf("t%d", k)
		c.call(202, launchCall(offer, agent, taskInfo(task, agent, "1", `,"command":`+one.command)))
		status := c.outcome(task)
		if message, _ := at(status, "message").(string); at(status, "state") != one.state || !strings.Contains(message, one.message) {
			t.Errorf("%s: %v", one.command, status)
		}
	}
	text, _ := os.ReadFile(out)
	lines := strings.Split(string(text), "\n")
	if len(lines) != 5 || lines[0] != "t0 hello" || lines[1] != lines[2] || lines[3] != c.id {
		t.Errorf("%q", lines)
	}
	if text, _ := os.ReadFile(filepath.Join(lines[2], "stderr")); string(text) != "wrong\n" {
		t.Errorf("%q", text)
	}
	left, _ := os.ReadFile(out + ".pid")
	if about, _ := os.ReadFile("/proc/" + strings.TrimSpace(string(left)) + "/stat"); len(about) > 0 && !strings.Contains(string(about), ") Z ") {
		t.Error("what a task started outlives it")
	}
	s.waitFree(0)
}

// A task that ignores SIGTERM is killed after its time of grace, also when the agent's program was restarted meanwhile.
func TestKillPolicy(t *testing.T) {
	s := newService(t, 1, 1)
	c := s.subscribe("admin", s.token, frameworkInfo)
	offer := c.next("OFFERS")
	agent := at(offer, "offers", "offers", 0, "agent_id", "value").(string)
	stubborn := `,"command":{"value":"trap 'echo caught' TERM; while true; do sleep 0.1; done"}`
	c.call(202, launchCall(at(offer, "offers", "offers", 0, "id", "value").(string), agent, taskInfo("gentle", agent, "0.5", `,"command":{"value":"sleep 1000"}`)+","+taskInfo("stubborn", agent, "0.5", stubborn)))
	for k := 0; k < 2; k++ {
		if status := at(c.next("UPDATE"), "update", "status"); at(status, "state") != "TASK_RUNNING" {
			t.Errorf("%v", status)
		}
	}
	time.Sleep(300 * time.Millisecond) // until the trap is set
	s.agents[0].kill()
	s.agents[0].start()
	start := time.Now()
	for _, task := range []string{"gentle", "stubborn"} {
		c.call(202, `{"type":"KILL","kill":{"task_id":{"value":"`+task+`"},"kill_policy":{"grace_period":{"nanoseconds":1500000000}}}}`)
	}
	c.call(202, `{"type":"RECONCILE","reconcile":{}}`)
	for deadline := time.After(30 * time.Second); ; {
		states := s.exits()
		if len(states) == 2 {
			break
		}
		select {
		case <-deadline:
			t.Fatalf("%v: %s", states, s.agents[0].log())
		case <-time.After(20 * time.Millisecond):
		}
	}
	if took := time.Since(start); took < 1500*time.Millisecond {
		t.Errorf("the stubborn task was killed after %v", took)
	}
	s.waitFree(0)
	for _, text := range s.exits() {
		if !strings.Contains(text, `"killed":true`) {
			t.Error(text)
		}
	}
}

// exits returns how the tasks of the first agent ended.
func (s *service) exits() (texts []string) {
	paths, _ := filepath.Glob(filepath.Join(s.folder, "a0", "tasks", "*", "exit"))
	for _, path := range paths {
		text, _ := os.ReadFile(path)
		texts = append(texts, string(text))
	}
	return texts
}

func TestOutputIsRotated(t *testing.T) {
	s := newService(t, 1, 0)
	a := s.process("a0", filepath.Join(s.programs, "agent"), "-gateways", s.urls[0], "-work", "a0", "-name", "a0", "-token-file", filepath.Join(s.folder, "g0", "admin.token"),
		"-resources", "cpus:2;mem:64", "-output-size", "1", "-output-files", "2")
	a.start()
	c := s.subscribe("admin", s.token, frameworkInfo)
	offer, agent := c.offered()
	c.call(202, launchCall(offer, agent, taskInfo("t", agent, "1", `,"command":{"value":"yes | head -c 5000000; echo end"}`)))
	if status := c.outcome("t"); at(status, "state") != "TASK_FINISHED" {
		t.Errorf("%v", status)
	}
	files, _ := filepath.Glob(filepath.Join(s.folder, "a0", "tasks", "*", "sandbox", "stdout*"))
	for _, file := range files {
		if about, err := os.Stat(file); err != nil || about.Size() > 1<<20 {
			t.Errorf("%s has %d bytes (%v)", file, about.Size(), err)
		}
	}
	if text, _ := os.ReadFile(files[0]); len(files) != 3 || !strings.HasSuffix(string(text), "y\nend\n") {
		t.Errorf("%v: %.20q", files, text)
	}
	s.waitFree(0)
}

// A task whose folder cannot be made, as when the disk is full, is said to have failed.
func TestNoRoomForATask(t *testing.T) {
	s := newService(t, 1, 1)
	c := s.subscribe("admin", s.token, frameworkInfo)
	offer := c.next("OFFERS")
	agent := at(offer, "offers", "offers", 0, "agent_id", "value").(string)
	folder := filepath.Join(s.folder, "a0", "tasks")
	if err := os.RemoveAll(folder); err != nil {
		t.Fatal(err)
	}
	if err := os.WriteFile(folder, nil, 0o600); err != nil {
		t.Fatal(err)
	}
	c.call(202, launchCall(at(offer, "offers", "offers", 0, "id", "value").(string), agent, taskInfo("t1", agent, "1", `,"command":{"value":"true"}`)))
	status := c.outcome("t1")
	if message, _ := at(status, "message").(string); at(status, "state") != "TASK_FAILED" || !strings.Contains(message, "the task was not started") {
		t.Errorf("%v", status)
	}
	s.waitFree(0)
}
