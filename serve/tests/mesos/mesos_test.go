// Tests of Mesos' frameworks: unpatched mesos-go schedulers over gateways and agents that are killed. Outside the proof.

package mesos

import (
	"encoding/json"
	"fmt"
	"os"
	"path/filepath"
	"strings"
	"testing"
	"time"
)

// starts counts how often each task started, from what the tasks wrote.
func (s *service) starts(file string) map[string]int {
	text, _ := os.ReadFile(file)
	counts := map[string]int{}
	for _, id := range strings.Fields(string(text)) {
		counts[id]++
	}
	return counts
}

// checkOnce checks that no task started twice, and that as many as were asked for did.
func (s *service) checkOnce(file string, atLeast int) {
	s.t.Helper()
	counts := s.starts(file)
	for id, count := range counts {
		if count > 1 {
			s.t.Errorf("%s started %d times", id, count)
		}
	}
	if len(counts) < atLeast {
		s.t.Errorf("%d tasks started of %d", len(counts), atLeast)
	}
}

// waitFree waits until the allocator has no task.
func (s *service) waitFree(gateway int) {
	s.t.Helper()
	for end := time.Now().Add(30 * time.Second); ; time.Sleep(100 * time.Millisecond) {
		held := s.held(gateway)
		if len(held) == 0 {
			return
		}
		if time.Now().After(end) {
			s.t.Fatalf("the allocator holds %d tasks: %.300s", len(held), held)
		}
	}
}

func (s *service) command(file, then string) string {
	return fmt.Sprintf("echo $MESOS_TASK_ID >> %s; %s", file, then)
}

func TestSchedulersRunTasks(t *testing.T) {
	s := newService(t, 1, 2)
	file := filepath.Join(s.folder, "starts")
	var all []*process
	for name, flags := range map[string][]string{"protobuf": nil, "json": {"-codec", "json"}, "single": {"-single"}, "single-json": {"-single", "-codec", "json"}} {
		p := s.scheduler(name, 0, append(flags, "-tasks", "20", "-command", s.command(file, "true"), "-within", "100s")...)
		p.start()
		all = append(all, p)
	}
	for _, p := range all {
		p.wait()
	}
	s.checkOnce(file, 80)
	s.waitFree(0)
	s.checkJournal(0)
}

// A gateway, an agent's program and a scheduler are killed in turn; tasks that run outlive all of them.
func TestKills(t *testing.T) {
	s := newService(t, 1, 2)
	file := filepath.Join(s.folder, "starts")
	p := s.scheduler("one", 0, "-tasks", "60", "-command", s.command(file, "sleep 1"), "-within", "200s", "-id-file", filepath.Join(s.folder, "id"))
	p.start()
	wait := func(tasks int) {
		for end := time.Now().Add(60 * time.Second); len(s.starts(file)) < tasks && time.Now().Before(end); time.Sleep(50 * time.Millisecond) {
		}
	}
	wait(5)
	s.gateways[0].kill()
	s.gateways[0].start()
	s.waitReady(0)
	wait(25)
	s.agents[0].kill()
	time.Sleep(2 * time.Second)
	s.agents[0].start()
	wait(40)
	p.kill()
	again := s.scheduler("two", 0, "-tasks", "30", "-command", s.command(file, "true"), "-within", "100s", "-id-file", filepath.Join(s.folder, "id"))
	again.start()
	again.wait()
	if !strings.Contains(again.log(), "SUBSCRIBED as "+frameworkOf(p.log())) {
		t.Errorf("it came back as another framework: %s", again.log())
	}
	if strings.Contains(p.log()+again.log(), "TASK_LOST") {
		t.Errorf("a task was lost: %s %s", p.log(), again.log())
	}
	s.checkOnce(file, 40) // what runs when the first one is killed finishes under the second
	s.waitFree(0)
	s.checkJournal(0)
}

func frameworkOf(log string) string {
	_, rest, _ := strings.Cut(log, "SUBSCRIBED as ")
	id, _, _ := strings.Cut(rest, "\n")
	return id
}

// Three gateways: agents and schedulers go from one that is killed to another.
func TestThreeGateways(t *testing.T) {
	s := newService(t, 3, 2)
	file := filepath.Join(s.folder, "starts")
	one := s.scheduler("one", 1, "-tasks", "30", "-command", s.command(file, "sleep 0.3"), "-within", "200s")
	two := s.scheduler("two", 2, "-tasks", "30", "-codec", "json", "-command", s.command(file, "sleep 0.3"), "-within", "200s")
	one.start()
	two.start()
	for end := time.Now().Add(60 * time.Second); len(s.starts(file)) < 10 && time.Now().Before(end); time.Sleep(50 * time.Millisecond) {
	}
	s.gateways[0].kill() // which has the agents' links
	time.Sleep(3 * time.Second)
	s.gateways[0].start()
	s.waitReady(0)
	s.gateways[1].kill()
	time.Sleep(time.Second)
	s.gateways[1].start()
	s.waitReady(1)
	one.wait()
	two.wait()
	s.checkOnce(file, 60)
	s.waitFree(2)
	s.checkJournal(2)
}

// Numbers of offers begin again with each epoch. Tasks that were launched before one end after it.
func TestEpochs(t *testing.T) {
	s := newService(t, 1, 2, "-epoch-every", "60", "-save-every", "40", "-save-apart", "1s")
	file := filepath.Join(s.folder, "starts")
	p := s.scheduler("one", 0, "-tasks", "120", "-command", s.command(file, "sleep 0.5"), "-within", "200s")
	p.start()
	p.wait()
	s.checkOnce(file, 120)
	s.waitFree(0)
	var status struct{ Epoch int }
	if json.Unmarshal(s.get(0, "/drf/v1/status"), &status); status.Epoch < 2 {
		t.Errorf("only %d epochs", status.Epoch)
	}
}

// An agent that stays away is removed: its tasks are lost, and what they held is free.
func TestAgentIsGone(t *testing.T) {
	s := newService(t, 1, 1, "-mesos-agent-gone", "2s")
	p := s.scheduler("one", 0, "-tasks", "3", "-command", "sleep 1000", "-within", "100s")
	p.start()
	for end := time.Now().Add(30 * time.Second); ; time.Sleep(50 * time.Millisecond) {
		if running, _ := filepath.Glob(filepath.Join(s.folder, "a0", "tasks", "*", "pid")); len(running) == 3 {
			break
		}
		if time.Now().After(end) {
			t.Fatalf("the tasks do not run: %s", p.log())
		}
	}
	s.agents[0].kill()
	for end := time.Now().Add(30 * time.Second); strings.Count(p.log(), "TASK_LOST (REASON_AGENT_REMOVED)") < 3; time.Sleep(50 * time.Millisecond) {
		if time.Now().After(end) {
			t.Fatalf("the tasks are not lost: %s", p.log())
		}
	}
	s.waitFree(0)
	p.kill()
	s.agents[0].start() // it ends the tasks that are no longer known
	for end := time.Now().Add(30 * time.Second); ; time.Sleep(50 * time.Millisecond) {
		done, _ := filepath.Glob(filepath.Join(s.folder, "a0", "tasks", "*", "exit"))
		if len(done) == 3 {
			return
		}
		if time.Now().After(end) {
			t.Fatalf("%d of 3 tasks were ended: %s", len(done), s.agents[0].log())
		}
	}
}

// The time for which an agent can be away starts again with the service, because no agent could connect while there was no service.
func TestTimesBeginAgain(t *testing.T) {
	t.Parallel()
	s := newService(t, 1, 0, "-mesos-agent-gone", "8s")
	a := s.simulate("n1", scalar("cpus", "1"))
	a.next("REGISTERED")
	c := s.subscribe("admin", s.token, frameworkInfo)
	c.call(202, launchCall(c.offer(), "n1", taskInfo("t1", "n1", "1", commandField)))
	a.report(at(a.next("RUN"), "tasks", 0), "TASK_RUNNING", 1)
	a.body.Close()
	for end := time.Now().Add(20 * time.Second); !strings.Contains(string(s.get(0, "/drf/v1/state")), `"active":false`); time.Sleep(50 * time.Millisecond) {
		if time.Now().After(end) {
			t.Fatalf("the agent is still active: %s", s.get(0, "/drf/v1/state"))
		}
	}
	s.gateways[0].kill()
	time.Sleep(9 * time.Second)
	s.gateways[0].start()
	s.waitReady(0)
	time.Sleep(2 * time.Second) // within which an agent whose time is over is removed
	if e := s.simulate("n1", scalar("cpus", "1")).next("REGISTERED"); at(e, "tasks", 0, "task_info", "task_id", "value") != "t1" {
		t.Errorf("%v", e)
	}
}
