// Random kills of gateways, agents and schedulers under load. Outside the proof.

package mesos

import (
	"fmt"
	"math/rand"
	"os"
	"path/filepath"
	"strconv"
	"strings"
	"syscall"
	"testing"
	"time"
)

// killExecutor kills one of the executors.
func (s *service) killExecutor(random *rand.Rand) {
	paths, _ := filepath.Glob(filepath.Join(s.folder, "a*", "executors", "*", "pid"))
	if len(paths) == 0 {
		return
	}
	path := paths[random.Intn(len(paths))]
	if _, err := os.Stat(filepath.Join(filepath.Dir(path), "exit")); err == nil { // its number may be another's
		return
	}
	text, _ := os.ReadFile(path)
	if pid, err := strconv.Atoi(string(text)); err == nil {
		syscall.Kill(pid, syscall.SIGKILL)
	}
}

// For 15 seconds, or as long as MESOS_CHAOS says, a process is killed each second and started again. Afterwards each scheduler completes its tasks.
func TestRandomKills(t *testing.T) {
	t.Parallel()
	s := newService(t, 3, 3, "-save-every", "300", "-save-apart", "2s")
	file, random := filepath.Join(s.folder, "starts"), rand.New(rand.NewSource(time.Now().UnixNano()))
	var all []*process
	start := func(k int, tasks string) *process {
		name := fmt.Sprintf("s%d-%d", k, len(all))
		flags := []string{"-tasks", tasks, "-command", s.command(file, "sleep 0.$(($$ % 9))"), "-within", "230s", "-id-file", filepath.Join(s.folder, fmt.Sprintf("id%d", k))}
		if k == 1 {
			flags = append(flags, "-codec", "json")
		}
		if k == 2 {
			flags = append(flags, "-executor", "exec "+filepath.Join(s.programs, "executor"))
		}
		p := s.scheduler(name, random.Intn(3), flags...)
		p.start()
		all = append(all, p)
		return p
	}
	current := []*process{start(0, "100000"), start(1, "100000"), start(2, "100000")}
	length, err := time.ParseDuration(os.Getenv("MESOS_CHAOS"))
	if err != nil {
		length = 15 * time.Second
	}
	kills := 0
	for end := time.Now().Add(length); time.Now().Before(end); kills++ {
		time.Sleep(time.Duration(500+random.Intn(1000)) * time.Millisecond)
		switch k := random.Intn(3); random.Intn(5) {
		case 0, 1:
			s.gateways[k].kill()
			time.Sleep(time.Duration(random.Intn(1500)) * time.Millisecond)
			s.gateways[k].start()
		case 2:
			s.agents[k].kill()
			time.Sleep(time.Duration(random.Intn(1500)) * time.Millisecond)
			s.agents[k].start()
		case 3:
			current[k].kill()
			current[k] = start(k, "100000")
		case 4:
			s.killExecutor(random)
		}
	}
	for k := range s.gateways {
		s.waitReady(k)
	}
	ran := len(s.starts(file))
	for k, p := range current {
		p.kill()
		last := start(k, "20")
		last.wait()
		if id := frameworkOf(all[k].log()); id != "" && !strings.Contains(last.log(), id) {
			t.Errorf("scheduler %d came back as another framework than %s: %s", k, id, last.log())
		}
	}
	s.checkOnce(file, 20)
	s.waitFree(0)
	t.Logf("%d kills, %d tasks", kills, ran)
	for _, p := range all {
		if strings.Contains(p.log(), "BAD") {
			t.Errorf("%s: %s", p.name, tail(p.log()))
		}
	}
	for _, p := range s.gateways {
		for _, word := range []string{"panic", "differs", "damaged"} {
			if strings.Contains(p.log(), word) {
				t.Errorf("%s: %s", p.name, tail(p.log()))
			}
		}
	}
}
