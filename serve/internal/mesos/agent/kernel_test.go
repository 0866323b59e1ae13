// Limits that the kernel enforces. They need cgroup v2 with the controllers cpu and memory; serve/tests/cgroups.py runs this test in a virtual
// machine if this machine does not have them. Outside the proof.

package agent

import (
	"context"
	"os"
	"path/filepath"
	"strconv"
	"strings"
	"testing"
	"time"

	"gateway/internal/mesos/codec"
)

// cgroupFolder returns a folder for an agent's groups, or skips the test.
func cgroupFolder(t *testing.T) string {
	t.Helper()
	const root = "/sys/fs/cgroup"
	text, _ := os.ReadFile(filepath.Join(root, "cgroup.controllers"))
	if found := " " + strings.TrimSpace(string(text)) + " "; !strings.Contains(found, " cpu ") || !strings.Contains(found, " memory ") {
		t.Skip("there is no cgroup v2 with the controllers cpu and memory")
	}
	folder := filepath.Join(root, "durzhanok-test-"+strconv.Itoa(os.Getpid()))
	if err := os.Mkdir(folder, 0o755); err != nil {
		t.Skip("no group can be made: ", err)
	}
	t.Cleanup(func() {
		for end := time.Now().Add(10 * time.Second); time.Now().Before(end); time.Sleep(50 * time.Millisecond) {
			os.Remove(filepath.Join(folder, supervisors))
			if os.Remove(folder) == nil {
				return
			}
		}
		left, _ := filepath.Glob(folder + "/*/cgroup.procs")
		t.Errorf("groups are left in %s: %v", folder, left)
	})
	return folder
}

func using(m codec.Message, cpus, mem float64) codec.Message {
	m.Add("resources", codec.New("mesos.Resource").Set("name", "cpus").Set("type", "SCALAR").Set("scalar.value", cpus))
	return m.Add("resources", codec.New("mesos.Resource").Set("name", "mem").Set("type", "SCALAR").Set("scalar.value", mem))
}

func taskOf(id, command string, cpus, mem float64) codec.Message {
	m := codec.New("mesos.TaskInfo").Set("name", id).Set("task_id.value", id).Set("agent_id.value", "a")
	if command != "" {
		m.Set("command.value", command)
	}
	return using(m, cpus, mem)
}

const hog = `perl -e '$x = "x" x 500000000; sleep 1000'` // has 500 MB, if it can

func TestKernelEnforcesLimits(t *testing.T) {
	cgroups := cgroupFolder(t)
	g := newGateway(t)
	config := Config{Folder: t.TempDir(), Name: "a", Gateways: []string{g.URL}, Principal: "p", Token: "t", Info: codec.New("mesos.AgentInfo").Set("hostname", "h"), Keep: time.Hour,
		Program: []string{os.Args[0], "supervise"}, ShutdownGrace: time.Second, RegistrationTimeout: time.Minute, RecoveryTimeout: time.Minute}
	var err error
	if config.Cgroups, _, err = FindCgroups(cgroups); err != nil {
		t.Fatal(err)
	}
	ctx, cancel := context.WithCancel(context.Background())
	defer cancel()
	a, err := New(config)
	if err != nil {
		t.Fatal(err)
	}
	go a.Run(ctx)
	none := codec.Message{}
	expect := func(id, state, reason string) {
		t.Helper()
		if status := g.status(id); status.Enum("state") != state || reason != "" && status.Enum("reason") != reason {
			t.Errorf("%s: %s %s %s, want %s %s", id, status.Enum("state"), status.Enum("reason"), status.Text("message"), state, reason)
		}
	}

	// A task within its limit of memory runs. One above it is killed, with what it started.
	g.run(taskOf("small", `x=$(head -c 4000000 /dev/zero | tr '\0' x); echo ${#x}`, 1, 48), none)
	expect("small", "TASK_RUNNING", "")
	expect("small", "TASK_FINISHED", "")
	g.run(taskOf("large", "sleep 1000 & "+hog+"; sleep 1000", 1, 48), none)
	expect("large", "TASK_RUNNING", "")
	expect("large", "TASK_FAILED", "REASON_CONTAINER_LIMITATION_MEMORY")

	// A task gets no more time of processors than its cpus.
	g.run(taskOf("busy", `while :; do :; done`, 0.2, 48), none)
	expect("busy", "TASK_RUNNING", "")
	busy := a.find(launchKey(g.launch, "f", "busy"))
	usage := func() Usage { return a.Usage(filepath.Join("tasks", busy.key, "sandbox"), busy.number("supervisor")) }
	used, begun := busy.cgroup().figure("usage_usec"), time.Now()
	time.Sleep(3 * time.Second)
	share := float64(busy.cgroup().figure("usage_usec")-used) / float64(time.Since(begun).Microseconds())
	u := usage()
	if t.Logf("a task with 0.2 cpus used %.3f processors, and was throttled %d times in %d periods", share, u.Throttled, u.Periods); share > 0.25 || share < 0.02 || u.Throttled == 0 || u.ThrottledFor == 0 {
		t.Errorf("%+v", u)
	}
	busy.kill(0)
	expect("busy", "TASK_KILLED", "")

	// An executor and its tasks have one limit, which grows and shrinks with its tasks.
	executor := using(codec.New("mesos.ExecutorInfo").Set("type", "CUSTOM").Set("executor_id.value", "e").Set("command.value", "exec "+os.Args[0]+" execute"), 1, 100)
	for k, want := range []string{"157286400", "209715200"} { // 150 and 200 MiB
		id := []string{"first", "second"}[k]
		g.run(taskOf(id, "", 0.1, 50).Set("data", []byte("sleep 1000")), executor)
		expect(id, "TASK_RUNNING", "")
		group := a.findExecutor("f", "e").cgroup()
		if limit, cpu := group.read("memory.max"), group.read("cpu.max"); limit != want || cpu != []string{"110000 100000", "120000 100000"}[k] {
			t.Errorf("with %d tasks the limits are %s and %s", k+1, limit, cpu)
		}
		if count := len(strings.Fields(group.read("cgroup.procs"))); count < 2 {
			t.Errorf("%d processes are in the group", count)
		}
	}
	a.findExecutor("f", "e").kill(0)
	g.waitIdle(a)
}

// figure returns a figure of cpu.stat.
func (g cgroup) figure(name string) int64 {
	for _, line := range strings.Split(g.read("cpu.stat"), "\n") {
		if key, value, _ := strings.Cut(line, " "); key == name {
			number, _ := strconv.ParseInt(value, 10, 64)
			return number
		}
	}
	return 0
}
