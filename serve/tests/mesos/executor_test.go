// Custom executors: an unpatched mesos-go program, on a real agent. Outside the proof.

package mesos

import (
	"encoding/base64"
	"fmt"
	"os"
	"path/filepath"
	"strconv"
	"strings"
	"syscall"
	"testing"
	"time"
)

// executorInfo describes the mesos-go executor.
func (s *service) executorInfo(id, arguments string) string {
	return `{"type":"CUSTOM","executor_id":{"value":"` + id + `"},"command":{"value":"exec ` + filepath.Join(s.programs, "executor") + ` ` + arguments + `"},"resources":[` + scalar("cpus", "0.5") + `]}`
}

// executed returns a task that runs a shell command by an executor.
func executed(id, agent, command, executor string) string {
	data := base64.StdEncoding.EncodeToString([]byte(command))
	if executor != "" {
		executor = `,"executor":` + executor
	}
	return taskInfo(id, agent, "0.1", `,"data":"`+data+`"`+executor)
}

// states reads updates until each task has had its states, in order, and acknowledges them. It returns the last statuses.
func (c *client) states(want map[string]string) map[string]interface{} {
	c.t.Helper()
	got, last := map[string]string{}, map[string]interface{}{}
	for left := len(want); left > 0; {
		status := at(c.next("UPDATE"), "update", "status")
		id := at(status, "task_id", "value").(string)
		if at(status, "uuid") != nil {
			c.call(202, jsonOf(object{"type": "ACKNOWLEDGE", "acknowledge": object{"agent_id": at(status, "agent_id"), "task_id": at(status, "task_id"), "uuid": at(status, "uuid")}}))
		}
		got[id], last[id] = strings.TrimSpace(got[id]+" "+strings.TrimPrefix(at(status, "state").(string), "TASK_")), status
		if !strings.HasPrefix(want[id], got[id]) {
			c.t.Fatalf("%s is %q, want %q: %v", id, got[id], want[id], status)
		}
		if got[id] == want[id] {
			left--
		}
	}
	return last
}

// offered waits for an offer of a whole processor, and returns its id and its agent. Smaller ones stay outstanding.
func (c *client) offered() (offer, agent string) {
	c.t.Helper()
	for {
		for k, one := range c.missed {
			resources, _ := at(one, "resources").([]interface{})
			for _, some := range resources {
				if value, _ := at(some, "scalar", "value").(float64); at(some, "name") == "cpus" && value >= 1 {
					c.missed = append(c.missed[:k:k], c.missed[k+1:]...)
					return at(one, "id", "value").(string), at(one, "agent_id", "value").(string)
				}
			}
		}
		some, _ := at(c.next("OFFERS"), "offers", "offers").([]interface{})
		c.missed = append(c.missed, some...)
	}
}

// pidOf waits for the process of a folder of the first agent, and returns its number.
func (s *service) pidOf(pattern string) int {
	s.t.Helper()
	for end := time.Now().Add(20 * time.Second); ; time.Sleep(20 * time.Millisecond) {
		paths, _ := filepath.Glob(filepath.Join(s.folder, "a0", pattern))
		if len(paths) == 1 {
			text, _ := os.ReadFile(paths[0])
			if pid, err := strconv.Atoi(string(text)); err == nil {
				return pid
			}
		}
		if time.Now().After(end) {
			s.t.Fatalf("%s: %v", pattern, paths)
		}
	}
}

func (c *client) shutdown(executor, agent string) {
	c.t.Helper()
	c.call(202, `{"type":"SHUTDOWN","shutdown":{"executor_id":{"value":"`+executor+`"},"agent_id":{"value":"`+agent+`"}}}`)
}

func (c *client) failure(executor string, status interface{}) {
	c.t.Helper()
	e := at(c.next("FAILURE"), "failure")
	if at(e, "executor_id", "value") != executor || at(e, "status") != status {
		c.t.Errorf("%v, want the end of %s with %v", e, executor, status)
	}
}

func TestExecutor(t *testing.T) {
	for name, arguments := range map[string]string{"protobuf": "", "json": "-json"} {
		arguments := arguments
		t.Run(name, func(t *testing.T) {
			s := newService(t, 1, 1)
			c := s.subscribe("admin", s.token, `{"user":"root","name":"n","roles":["web"],"capabilities":[{"type":"MULTI_ROLE"}]}`) // mesos-go's JSON knows no newer ones
			offer, agent := c.offered()
			info := s.executorInfo("e", arguments)
			c.call(202, launchCall(offer, agent, executed("t1", agent, "env > "+s.folder+"/part; mv "+s.folder+"/part "+s.folder+"/env; sleep 1000", info)+","+executed("t2", agent, "true", info)))
			last := c.states(map[string]string{"t1": "RUNNING", "t2": "RUNNING FINISHED"})
			if at(last["t2"], "source") != "SOURCE_EXECUTOR" || at(last["t2"], "executor_id", "value") != "e" || at(last["t2"], "agent_id", "value") != agent {
				t.Errorf("%v", last["t2"])
			}
			s.checkHeld("cpus:0.1", "cpus:0.5") // the executor is accounted once
			offer, _ = c.offered()
			c.call(202, launchCall(offer, agent, executed("t3", agent, "exit 1", info)+","+executed("t4", agent, "true", strings.Replace(info, "exec /", "true; exec /", 1))))
			last = c.states(map[string]string{"t3": "RUNNING FAILED", "t4": "ERROR"})
			if at(last["t4"], "message") != "ExecutorInfo is not compatible with existing ExecutorInfo with same ExecutorID" {
				t.Errorf("%v", last["t4"])
			}
			c.call(202, `{"type":"MESSAGE","message":{"agent_id":{"value":"`+agent+`"},"executor_id":{"value":"e"},"data":"`+base64.StdEncoding.EncodeToString([]byte("hello"))+`"}}`)
			if m := at(c.next("MESSAGE"), "message"); at(m, "data") != base64.StdEncoding.EncodeToString([]byte("HELLO")) || at(m, "executor_id", "value") != "e" || at(m, "agent_id", "value") != agent {
				t.Errorf("%v", m)
			}
			s.checkEnvironment(c.id, agent)
			c.call(202, `{"type":"KILL","kill":{"task_id":{"value":"t1"}}}`)
			c.states(map[string]string{"t1": "KILLED"})
			s.checkHeld("cpus:0.5")
			offer, _ = c.offered()
			c.call(202, `{"type":"ACCEPT","accept":{"offer_ids":[{"value":"`+offer+`"}],"operations":[{"type":"LAUNCH_GROUP","launch_group":{"executor":`+info+`,"task_group":{"tasks":[`+
				executed("g1", agent, "sleep 1000", "")+`,`+executed("g2", agent, "true", "")+`]}}}]}}`)
			c.states(map[string]string{"g1": "RUNNING", "g2": "RUNNING FINISHED"})
			if text := s.executorLog(); strings.Count(text, "event LAUNCH_GROUP") != 1 || strings.Count(text, "event LAUNCH\n") != 3 {
				t.Errorf("%s", text)
			}
			c.shutdown("e", agent)
			c.states(map[string]string{"g1": "KILLED"})
			c.failure("e", 0.0)
			s.waitFree(0)
			s.checkJournal(0)
		})
	}
}

// checkHeld checks what the allocator's tasks use.
func (s *service) checkHeld(uses ...string) {
	s.t.Helper()
	for end := time.Now().Add(20 * time.Second); ; time.Sleep(50 * time.Millisecond) {
		text := strings.Join(s.held(0), "\n")
		isRight := strings.Count(text, "\n") == len(uses)-1
		for _, use := range uses {
			isRight = isRight && strings.Contains(text, `"`+use+`"`)
		}
		if isRight {
			return
		}
		if time.Now().After(end) {
			s.t.Fatalf("the allocator holds %s, want %v", text, uses)
		}
	}
}

func (s *service) executorLog() (text string) {
	paths, _ := filepath.Glob(filepath.Join(s.folder, "a0", "executors", "*", "sandbox", "stderr"))
	for _, path := range paths {
		some, _ := os.ReadFile(path)
		text += string(some)
	}
	return text
}

// checkEnvironment checks the variables that Mesos documents for executors.
func (s *service) checkEnvironment(framework, agent string) {
	s.t.Helper()
	var text []byte
	for end := time.Now().Add(20 * time.Second); len(text) == 0 && time.Now().Before(end); time.Sleep(20 * time.Millisecond) {
		text, _ = os.ReadFile(filepath.Join(s.folder, "env"))
	}
	port, _ := os.ReadFile(filepath.Join(s.folder, "a0", "executor-port"))
	sandboxes, _ := filepath.Glob(filepath.Join(s.folder, "a0", "executors", "*", "sandbox"))
	for _, want := range []string{"MESOS_FRAMEWORK_ID=" + framework, "MESOS_EXECUTOR_ID=e", "MESOS_AGENT_ID=" + agent, "MESOS_SLAVE_ID=" + agent, "MESOS_DIRECTORY=" + sandboxes[0], "MESOS_SANDBOX=" + sandboxes[0],
		"MESOS_AGENT_ENDPOINT=127.0.0.1:" + string(port), "MESOS_CHECKPOINT=1", "MESOS_RECOVERY_TIMEOUT=15mins", "MESOS_SUBSCRIPTION_BACKOFF_MAX=2secs", "MESOS_EXECUTOR_SHUTDOWN_GRACE_PERIOD=5secs"} {
		if !strings.Contains("\n"+string(text), "\n"+want+"\n") {
			s.t.Errorf("%s is missing: %s", want, text)
		}
	}
}

// An executor that ends takes its tasks with it, whatever they do to escape.
func TestExecutorIsKilled(t *testing.T) {
	s := newService(t, 1, 1)
	c := s.subscribe("admin", s.token, frameworkInfo)
	offer, agent := c.offered()
	info := s.executorInfo("e", "")
	left := filepath.Join(s.folder, "left")
	c.call(202, launchCall(offer, agent, executed("t1", agent, "setsid sh -c 'echo $$ > "+left+"; exec sleep 1000' & sleep 1000", info)+","+executed("t2", agent, "sleep 1000", info)))
	c.states(map[string]string{"t1": "RUNNING", "t2": "RUNNING"})
	var pid int
	for end := time.Now().Add(10 * time.Second); pid == 0 && time.Now().Before(end); time.Sleep(10 * time.Millisecond) {
		text, _ := os.ReadFile(left)
		pid, _ = strconv.Atoi(strings.TrimSpace(string(text)))
	}
	syscall.Kill(s.pidOf("executors/*/pid"), syscall.SIGKILL)
	for id, status := range c.states(map[string]string{"t1": "FAILED", "t2": "FAILED"}) {
		if at(status, "reason") != "REASON_EXECUTOR_TERMINATED" || at(status, "source") != "SOURCE_AGENT" || !strings.Contains(at(status, "message").(string), "signal killed") {
			t.Errorf("%s: %v", id, status)
		}
	}
	c.failure("e", 9.0)
	s.waitFree(0)
	if about, _ := os.ReadFile(fmt.Sprintf("/proc/%d/stat", pid)); pid == 0 || len(about) > 0 && !strings.Contains(string(about), ") Z ") {
		t.Errorf("process %d outlives its executor: %s", pid, about)
	}
	for k, command := range []string{"exit 3", "sleep 1000"} { // which end, or never subscribe
		offer, agent = c.offered()
		id := fmt.Sprintf("e%d", k)
		bad := `{"executor_id":{"value":"` + id + `"},"command":{"value":"` + command + `"},"shutdown_grace_period":{"nanoseconds":300000000}}`
		task := "b" + id
		c.call(202, launchCall(offer, agent, executed(task, agent, "true", bad)))
		if k == 1 {
			c.call(202, `{"type":"KILL","kill":{"task_id":{"value":"`+task+`"}}}`)
			last := c.states(map[string]string{task: "KILLED"})
			if at(last[task], "reason") != "REASON_TASK_KILLED_DURING_LAUNCH" {
				t.Errorf("%v", last)
			}
			c.shutdown(id, agent)
			c.failure(id, 9.0)
			continue
		}
		last := c.states(map[string]string{task: "FAILED"})
		if at(last[task], "message") != "Executor exited with status 3" {
			t.Errorf("%v", last)
		}
		c.failure(id, 3*256.0)
	}
	s.waitFree(0)
}

// The agent's program is killed and started again while an executor and a command run, and tasks end meanwhile.
func TestExecutorOutlivesAgent(t *testing.T) {
	s := newService(t, 1, 1)
	c := s.subscribe("admin", s.token, frameworkInfo)
	offer, agent := c.offered()
	info := s.executorInfo("e", "")
	starts, isOver := filepath.Join(s.folder, "starts"), filepath.Join(s.folder, "over")
	until := "echo $TASK$MESOS_TASK_ID >> " + starts + "; while ! test -e " + isOver + "; do sleep 0.05; done"
	c.call(202, launchCall(offer, agent, executed("t1", agent, until, info)+","+executed("t2", agent, "echo $TASK >> "+starts+"; sleep 1000", info)+","+taskInfo("t3", agent, "0.1", `,"command":{"value":"`+until+`"}`)))
	c.states(map[string]string{"t1": "RUNNING", "t2": "RUNNING", "t3": "RUNNING"})
	s.agents[0].kill()
	os.WriteFile(isOver, nil, 0o600)
	time.Sleep(500 * time.Millisecond)
	s.agents[0].start()
	c.states(map[string]string{"t1": "FINISHED", "t3": "FINISHED"})
	offer, _ = c.offered()
	c.call(202, launchCall(offer, agent, executed("t4", agent, "true", info)))
	c.states(map[string]string{"t4": "RUNNING FINISHED"})
	s.agents[0].kill()
	syscall.Kill(s.pidOf("executors/*/pid"), syscall.SIGKILL) // while nobody looks
	s.agents[0].start()
	last := c.states(map[string]string{"t2": "FAILED"})
	if at(last["t2"], "reason") != "REASON_EXECUTOR_TERMINATED" {
		t.Errorf("%v", last)
	}
	c.failure("e", 9.0)
	s.waitFree(0)
	s.checkOnce(starts, 3)
	s.checkJournal(0)
}

// After a restart of the machine nothing runs, and process numbers belong to other processes.
func TestMachineRestarts(t *testing.T) {
	s := newService(t, 1, 1)
	c := s.subscribe("admin", s.token, frameworkInfo)
	offer, agent := c.offered()
	c.call(202, launchCall(offer, agent, executed("t1", agent, "sleep 1000", s.executorInfo("e", ""))+","+taskInfo("t2", agent, "0.1", `,"command":{"value":"sleep 1000"}`)))
	c.states(map[string]string{"t1": "RUNNING", "t2": "RUNNING"})
	s.agents[0].kill()
	innocent := s.process("innocent", "sleep", "1000")
	innocent.start()
	for _, kind := range []string{"tasks/*", "executors/*"} {
		paths, _ := filepath.Glob(filepath.Join(s.folder, "a0", kind, "supervisor"))
		for _, path := range paths {
			text, _ := os.ReadFile(path)
			pid, _ := strconv.Atoi(string(text))
			syscall.Kill(pid, syscall.SIGKILL) // its child with it
			os.WriteFile(path, []byte(strconv.Itoa(innocent.running.Process.Pid)), 0o600)
			os.WriteFile(filepath.Join(filepath.Dir(path), "started"), []byte("another start of the machine"), 0o600)
		}
	}
	s.agents[0].start()
	last := c.states(map[string]string{"t1": "FAILED", "t2": "FAILED"})
	if at(last["t1"], "reason") != "REASON_EXECUTOR_TERMINATED" || at(last["t2"], "reason") != "REASON_AGENT_RESTARTED" {
		t.Errorf("%v", last)
	}
	c.failure("e", 0.0)
	s.waitFree(0)
	select {
	case err := <-innocent.done:
		innocent.done <- err
		t.Error("a process that only has the same number was killed")
	default:
	}
}

// The tasks of a group with a default executor have its id, and end together. If a supervisor is killed, the process that it ran ends too.
func TestDefaultExecutor(t *testing.T) {
	s := newService(t, 1, 1)
	c := s.subscribe("admin", s.token, frameworkInfo)
	offer, agent := c.offered()
	left := filepath.Join(s.folder, "left")
	command := func(id, text string) string { return taskInfo(id, agent, "0.1", `,"command":{"value":"`+text+`"}`) }
	c.call(202, `{"type":"ACCEPT","accept":{"offer_ids":[{"value":"`+offer+`"}],"operations":[{"type":"LAUNCH_GROUP","launch_group":{"executor":{"type":"DEFAULT","executor_id":{"value":"e"},"resources":[`+scalar("cpus", "0.1")+
		`]},"task_group":{"tasks":[`+command("g1", `test $MESOS_EXECUTOR_ID = e`)+`,`+command("g2", `echo $$ > `+left+`; sleep 1000`)+`,`+command("g3", `(sleep 1000 & echo $! >> `+left+`.new; wait)`)+`]}}}]}}`)
	c.states(map[string]string{"g1": "RUNNING FINISHED", "g2": "RUNNING", "g3": "RUNNING"})
	pids := append(s.written(left, 1), s.written(left+".new", 1)...)
	for _, pid := range pids[1:] { // its supervisor is its grandparent
		stat, _ := os.ReadFile(fmt.Sprintf("/proc/%d/stat", pid))
		session, _ := strconv.Atoi(strings.Fields(string(stat))[5])
		syscall.Kill(session, syscall.SIGKILL)
	}
	last := c.states(map[string]string{"g3": "FAILED", "g2": "KILLED"})
	if at(last["g3"], "reason") != "REASON_AGENT_RESTARTED" || at(last["g2"], "executor_id", "value") != "e" {
		t.Errorf("%v", last)
	}
	c.failure("e", 0.0)
	s.waitFree(0)
	for _, pid := range pids {
		if about, _ := os.ReadFile(fmt.Sprintf("/proc/%d/stat", pid)); len(about) > 0 && !strings.Contains(string(about), ") Z ") {
			t.Errorf("process %d outlives its supervisor: %s", pid, about)
		}
	}
}

// written waits for numbers of processes in a file.
func (s *service) written(path string, count int) (pids []int) {
	s.t.Helper()
	for end := time.Now().Add(20 * time.Second); ; time.Sleep(20 * time.Millisecond) {
		text, _ := os.ReadFile(path)
		pids = nil
		for _, word := range strings.Fields(string(text)) {
			if pid, err := strconv.Atoi(word); err == nil {
				pids = append(pids, pid)
			}
		}
		if len(pids) >= count {
			return pids
		}
		if time.Now().After(end) {
			s.t.Fatalf("%s has %q", path, text)
		}
	}
}
