// The resource usage of processes, read from /proc and their cgroups. Outside the proof.

package agent

import (
	"fmt"
	"os"
	"path/filepath"
	"strconv"
	"strings"
)

// Usage is what some processes use.
type Usage struct {
	Processes, Threads int
	User, System       float64 // seconds
	Resident           uint64  // bytes

	IsLimited          bool // in a cgroup, which has the following, and the times of all its processes
	Memory             uint64
	Periods, Throttled uint64
	ThrottledFor       float64 // seconds
}

// Usage returns the current usage of the processes below a supervisor, whose sandbox is below the work folder. Without a cgroup, processes that
// ended count in their parents' times, as far as these waited for them.
func (a *Agent) Usage(sandbox string, supervisor int) (u Usage) {
	for _, pid := range descendants(supervisor) {
		u.add(pid)
	}
	group := supervised{filepath.Join(a.config.Folder, filepath.Dir(sandbox))}.cgroup()
	memory, err := strconv.ParseUint(group.read("memory.current"), 10, 64)
	if group == "" || err != nil {
		return u
	}
	u.IsLimited, u.Memory = true, memory
	for _, line := range strings.Split(group.read("cpu.stat"), "\n") {
		name, text, _ := strings.Cut(line, " ")
		value, _ := strconv.ParseUint(text, 10, 64)
		switch name {
		case "user_usec":
			u.User = float64(value) / 1e6
		case "system_usec":
			u.System = float64(value) / 1e6
		case "nr_periods":
			u.Periods = value
		case "nr_throttled":
			u.Throttled = value
		case "throttled_usec":
			u.ThrottledFor = float64(value) / 1e6
		}
	}
	return u
}

// ticks is the frequency at which the kernel counts times in /proc, on all machines with Linux.
const ticks = 100

// add adds a process: of /proc/PID/stat the times of the process and of children that it waited for, its threads and its resident pages.
func (u *Usage) add(pid int) {
	text, err := os.ReadFile(fmt.Sprintf("/proc/%d/stat", pid))
	at := strings.LastIndexByte(string(text), ')')
	if err != nil || at < 0 {
		return
	}
	fields := strings.Fields(string(text[at+1:])) // the first is the third of proc(5)
	number := func(field int) float64 {
		if field-3 >= len(fields) {
			return 0
		}
		value, _ := strconv.ParseFloat(fields[field-3], 64)
		return value
	}
	u.Processes++
	u.Threads += int(number(20))
	u.User += (number(14) + number(16)) / ticks
	u.System += (number(15) + number(17)) / ticks
	u.Resident += uint64(number(24)) * uint64(os.Getpagesize())
}
