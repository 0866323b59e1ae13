// Limits, in a folder that looks like cgroup v2, and in cgroup v2 itself where root can make a group. Outside the proof.

package agent

import (
	"os"
	"os/exec"
	"path/filepath"
	"strconv"
	"strings"
	"testing"
	"time"

	"gateway/internal/mesos/codec"
)

// fakeCgroups returns a folder with the controllers' names.
func fakeCgroups(t *testing.T, controllers string) string {
	folder := filepath.Join(t.TempDir(), "durzhanok")
	if err := os.Mkdir(folder, 0o755); err != nil {
		t.Fatal(err)
	}
	for _, name := range []string{"cgroup.controllers", "../cgroup.subtree_control"} {
		if err := os.WriteFile(filepath.Join(folder, name), []byte(controllers), 0o644); err != nil {
			t.Fatal(err)
		}
	}
	return folder
}

// The files and their forms are those of the kernel's cgroup-v2.rst.
func TestLimits(t *testing.T) {
	folder := fakeCgroups(t, "cpuset cpu io memory pids\n")
	if found, _, err := FindCgroups(folder); found != folder || err != nil {
		t.Fatal(found, err)
	}
	a := &Agent{config: Config{Cgroups: folder}}
	g, err := a.newCgroup("7-ab", 0.5, 64)
	if err != nil {
		t.Fatal(err)
	}
	check := func(values map[string]string) {
		t.Helper()
		for name, want := range values {
			if got := g.read(name); got != want {
				t.Errorf("%s is %q, want %q", name, got, want)
			}
		}
	}
	check(map[string]string{"cpu.max": "50000 100000", "memory.max": "67108864", "memory.swap.max": "0", "memory.oom.group": "1"})
	g.limit(0, 0) // the least
	check(map[string]string{"cpu.max": "1000 100000", "memory.max": "33554432"})
	g.limit(2.25, 100)
	check(map[string]string{"cpu.max": "225000 100000", "memory.max": "104857600"})
	g.write("memory.current", "60000000")
	g.limit(1, 40) // 41943040 bytes: less than is in use
	check(map[string]string{"cpu.max": "100000 100000", "memory.max": "104857600"})
	g.limit(1, 60)
	check(map[string]string{"memory.max": "62914560"})
	g.write("memory.events", "low 0\nhigh 0\nmax 3\noom 0\noom_kill 0\n")
	if g.isOutOfMemory() {
		t.Error("it was not killed")
	}
	g.write("memory.events", "low 0\nhigh 0\nmax 3\noom 1\noom_kill 2\n")
	if !g.isOutOfMemory() {
		t.Error("it was killed")
	}
	if folder, reason, err := FindCgroups("none"); folder != "" || reason == nil || err != nil {
		t.Error(folder, reason, err)
	}
	if _, _, err := FindCgroups(fakeCgroups(t, "hugetlb")); err == nil || !strings.Contains(err.Error(), "expected the controllers cpu and memory") {
		t.Error(err)
	}
	if _, _, err := FindCgroups(filepath.Join(t.TempDir(), "x")); err == nil || !strings.Contains(err.Error(), "is not in cgroup v2") {
		t.Error(err)
	}
	none := cgroup("")
	if none.limit(1, 1) != nil || none.isOutOfMemory() {
		t.Error("no group has limits")
	}
}

// An executor has what it and its tasks use.
func TestLimitsOfExecutors(t *testing.T) {
	use := func(m codec.Message, cpus, mem float64) codec.Message {
		m.Add("resources", codec.New("mesos.Resource").Set("name", "cpus").Set("type", "SCALAR").Set("scalar.value", cpus))
		return m.Add("resources", codec.New("mesos.Resource").Set("name", "mem").Set("type", "SCALAR").Set("scalar.value", mem))
	}
	a := &Agent{config: Config{Cgroups: fakeCgroups(t, "cpu memory"), Program: []string{"true"}}}
	e := &executor{supervised: supervised{t.TempDir()}, sent: map[string]*task{"a": {info: use(codec.New("mesos.TaskInfo"), 1, 100)}},
		queue: [][]*task{{{info: use(codec.New("mesos.TaskInfo"), 0.25, 10)}}}, message: codec.New("durzhanok.link.Executor").Set("executor_info", use(codec.New("mesos.ExecutorInfo"), 0.5, 32))}
	if err := a.startIn(e.supervised, &process{}, "", 0.5, 32); err != nil {
		t.Fatal(err)
	}
	e.limit()
	if g := e.cgroup(); g.read("cpu.max") != "175000 100000" || g.read("memory.max") != "148897792" { // 142 MiB
		t.Error(g.read("cpu.max"), g.read("memory.max"))
	}
}

// A process starts in its group, and the group ends with all that is in it.
func TestGroupsOfProcesses(t *testing.T) {
	mounts := ""
	for _, one := range []string{"/sys/fs/cgroup", "/sys/fs/cgroup/unified"} {
		if _, err := os.Stat(filepath.Join(one, "cgroup.controllers")); err == nil {
			mounts = one
		}
	}
	folder := filepath.Join(mounts, "durzhanok-test-"+strconv.Itoa(os.Getpid()))
	if mounts == "" || os.Mkdir(folder, 0o755) != nil {
		t.Skip("no group can be made in cgroup v2")
	}
	defer os.Remove(folder)
	own, _ := os.ReadFile("/proc/self/cgroup")
	defer func() { // back to where it was
		for _, line := range strings.Split(string(own), "\n") {
			if path := strings.TrimPrefix(line, "0::"); path != line {
				os.WriteFile(filepath.Join(mounts, path, "cgroup.procs"), []byte(strconv.Itoa(os.Getpid())), 0o644)
			}
		}
		os.Remove(filepath.Join(folder, supervisors))
	}()
	g := cgroup(filepath.Join(folder, "task"))
	for _, one := range []string{filepath.Join(folder, supervisors), string(g)} {
		if err := os.Mkdir(one, 0o755); err != nil {
			t.Fatal(err)
		}
	}
	if _, err := os.Stat(filepath.Join(string(g), "cgroup.kill")); err != nil {
		t.Skip("this kernel does not have cgroup.kill")
	}
	command := exec.Command("sh", "-c", "sleep 1000 & exec sleep 1000")
	if err := g.enter(command.Start); err != nil {
		t.Fatal(err)
	}
	go command.Wait()
	in := func(pid string) string {
		text, _ := os.ReadFile("/proc/" + pid + "/cgroup")
		return string(text)
	}
	if text := in(strconv.Itoa(command.Process.Pid)); !strings.Contains(text, filepath.Base(folder)+"/task\n") {
		t.Error(text)
	}
	if text := in("self"); !strings.Contains(text, filepath.Base(folder)+"/supervisors\n") {
		t.Error(text)
	}
	for end := time.Now().Add(10 * time.Second); len(strings.Fields(g.read("cgroup.procs"))) < 2 && time.Now().Before(end); time.Sleep(10 * time.Millisecond) {
	}
	g.remove()
	if _, err := os.Stat(string(g)); !os.IsNotExist(err) {
		t.Errorf("the group is there: %v, with %q", err, g.read("cgroup.procs"))
	}
}
