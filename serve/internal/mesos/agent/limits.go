// Limits of processors and memory by cgroup v2: each supervised process has a group. Outside the proof.

package agent

import (
	"encoding/json"
	"errors"
	"fmt"
	"log"
	"os"
	"path/filepath"
	"strconv"
	"strings"
	"time"

	"gateway/internal/mesos/codec"
)

const (
	defaultCgroups = "/sys/fs/cgroup/durzhanok"
	supervisors    = "supervisors" // the group of supervisors, which count for no task

	cpuPeriod  = 100000   // microseconds
	minCPUs    = 0.01     // Mesos' least limits
	minMemory  = 32 << 20 // bytes
	controller = "+cpu +memory"
)

// FindCgroups returns the folder in which groups can be made: that of a flag, or the usual one for "auto". It returns nothing for "none", and, with
// the reason, for "auto" if limits cannot be set.
func FindCgroups(flag string) (folder string, reason error, err error) {
	switch flag {
	case "none":
		return "", errors.New("-cgroups is none"), nil
	case "auto":
		if err := prepareCgroups(defaultCgroups); err != nil {
			return "", err, nil
		}
		return defaultCgroups, nil, nil
	}
	return flag, nil, prepareCgroups(flag)
}

// prepareCgroups makes the folder of groups, and allows limits in it.
func prepareCgroups(folder string) error {
	parent := filepath.Dir(folder)
	if hasControllers(folder) != nil {
		if _, err := os.Stat(filepath.Join(parent, "cgroup.subtree_control")); err != nil {
			return fmt.Errorf("%s is not in cgroup v2: %w", folder, err)
		}
	}
	if err := os.MkdirAll(folder, 0o755); err != nil {
		return err
	}
	if err := hasControllers(folder); err != nil { // unless somebody else did it
		if err := os.WriteFile(filepath.Join(parent, "cgroup.subtree_control"), []byte(controller), 0o644); err != nil {
			return err
		}
	}
	if err := hasControllers(folder); err != nil {
		return err
	}
	if err := os.WriteFile(filepath.Join(folder, "cgroup.subtree_control"), []byte(controller), 0o644); err != nil {
		return err
	}
	return os.MkdirAll(filepath.Join(folder, supervisors), 0o755)
}

func hasControllers(folder string) error {
	text, err := os.ReadFile(filepath.Join(folder, "cgroup.controllers"))
	if err != nil {
		return err
	}
	found := map[string]bool{}
	for _, name := range strings.Fields(string(text)) {
		found[name] = true
	}
	if !found["cpu"] || !found["memory"] {
		return fmt.Errorf("%s: expected the controllers cpu and memory, found %q", folder, strings.TrimSpace(string(text)))
	}
	return nil
}

// cgroup is a group of processes: the path of its folder, or nothing where limits are not set.
type cgroup string

func (g cgroup) write(name, value string) error {
	return os.WriteFile(filepath.Join(string(g), name), []byte(value), 0o644)
}

func (g cgroup) read(name string) string {
	text, _ := os.ReadFile(filepath.Join(string(g), name))
	return strings.TrimSpace(string(text))
}

// newCgroup makes a group with limits.
func (a *Agent) newCgroup(key string, cpus, mem float64) (cgroup, error) {
	if a.config.Cgroups == "" {
		return "", nil
	}
	g := cgroup(filepath.Join(a.config.Cgroups, key))
	if err := os.Mkdir(string(g), 0o755); err != nil && !os.IsExist(err) {
		return "", err
	}
	if err := g.limit(cpus, mem); err != nil {
		return "", fmt.Errorf("its limits were not set: %w", err)
	}
	g.write("memory.swap.max", "0")  // there is none where the machine has no swap
	g.write("memory.oom.group", "1") // a task is killed as a whole
	return g, nil
}

// limit sets limits, of memory in MiB. As in Mesos, memory in use is not taken away.
func (g cgroup) limit(cpus, mem float64) error {
	if g == "" {
		return nil
	}
	if cpus < minCPUs {
		cpus = minCPUs
	}
	if err := g.write("cpu.max", fmt.Sprintf("%d %d", int64(cpus*cpuPeriod), cpuPeriod)); err != nil {
		return err
	}
	bytes := int64(mem * (1 << 20))
	if bytes < minMemory {
		bytes = minMemory
	}
	if used, err := strconv.ParseInt(g.read("memory.current"), 10, 64); err == nil && used > bytes {
		return nil
	}
	return g.write("memory.max", strconv.FormatInt(bytes, 10))
}

// enter starts something in the group: the supervisor is in the group meanwhile, so that no process is ever outside of it.
func (g cgroup) enter(start func() error) error {
	if g == "" {
		return start()
	}
	if err := g.write("cgroup.procs", strconv.Itoa(os.Getpid())); err != nil {
		return err
	}
	defer cgroup(filepath.Join(filepath.Dir(string(g)), supervisors)).write("cgroup.procs", strconv.Itoa(os.Getpid()))
	return start()
}

// isOutOfMemory reports whether a process of the group was killed because of its limit.
func (g cgroup) isOutOfMemory() bool {
	for _, line := range strings.Split(g.read("memory.events"), "\n") {
		if name, count, _ := strings.Cut(line, " "); g != "" && name == "oom_kill" && count != "0" {
			return true
		}
	}
	return false
}

// remove kills the processes that are still in the group, and removes it.
func (g cgroup) remove() {
	if g == "" {
		return
	}
	if _, err := os.Stat(filepath.Join(string(g), "cgroup.kill")); err == nil { // since Linux 5.14
		g.write("cgroup.kill", "1")
	}
	for end := time.Now().Add(time.Second); time.Now().Before(end); time.Sleep(10 * time.Millisecond) {
		if err := os.Remove(string(g)); err == nil || os.IsNotExist(err) {
			return
		}
	}
}

// cpusAndMem adds up the processors and the memory of some resources.
func cpusAndMem(lists ...[]codec.Message) (cpus, mem float64) {
	for _, list := range lists {
		for _, one := range list {
			switch one.Text("name") {
			case "cpus":
				cpus += one.Float("scalar.value")
			case "mem":
				mem += one.Float("scalar.value")
			}
		}
	}
	return cpus, mem
}

const outOfMemory = "Memory limit exceeded"

// startIn starts a process as a user, with limits.
func (a *Agent) startIn(s supervised, p *process, user string, cpus, mem float64) (err error) {
	p.OutputBytes, p.OutputFiles = a.config.OutputBytes, a.config.OutputFiles
	if p.User, err = a.accountFor(user, s.path("sandbox")); err != nil {
		return err
	}
	if p.Cgroup, err = a.newCgroup(filepath.Base(s.folder), cpus, mem); err != nil {
		return err
	}
	return s.start(a.config.Program, p)
}

// limit gives an executor the resources of the executor and its tasks. The lock is held.
func (e *executor) limit() {
	group := e.cgroup()
	if group == "" {
		return
	}
	lists := [][]codec.Message{e.message.List("executor_info.resources")}
	for _, t := range e.sent {
		lists = append(lists, t.info.List("resources"))
	}
	for _, tasks := range e.queue {
		for _, t := range tasks {
			lists = append(lists, t.info.List("resources"))
		}
	}
	cpus, mem := cpusAndMem(lists...)
	if err := group.limit(cpus, mem); err != nil {
		log.Printf("the limits of executor %s: %v", e.id, err)
	}
}

// cgroup returns the group of a process, which its supervisor knows.
func (s supervised) cgroup() cgroup {
	p := process{}
	if text, err := os.ReadFile(s.path("process")); err != nil || json.Unmarshal(text, &p) != nil {
		return ""
	}
	return p.Cgroup
}
