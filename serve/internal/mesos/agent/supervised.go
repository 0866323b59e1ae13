// Folders of processes: of a task, or of an executor. Each process has a supervisor, so that it is started once and its exit status is not lost,
// even if the agent's program ends. Outside the proof.

package agent

import (
	"encoding/json"
	"errors"
	"os"
	"os/exec"
	"path/filepath"
	"strconv"
	"strings"
	"syscall"
	"time"

	"gateway/internal/disk"
)

// supervised is a folder with a process.
type supervised struct{ folder string }

func (s supervised) path(name string) string { return filepath.Join(s.folder, name) }

// exists reports whether the folder has a file.
func (s supervised) exists(name string) bool {
	_, err := os.Stat(s.path(name))
	return err == nil
}

// number returns the number in a file, or 0.
func (s supervised) number(name string) int {
	text, _ := os.ReadFile(s.path(name))
	number, _ := strconv.Atoi(strings.TrimSpace(string(text)))
	return number
}

// start starts the supervisor. The supervisor inherits the lock, which was taken before, so the lock is free only when no supervisor runs.
func (s supervised) start(program []string, p *process) error {
	text, err := json.Marshal(p)
	if err != nil {
		return err
	}
	if err := disk.WriteFile(s.path("process"), text); err != nil {
		return err
	}
	lock, err := os.OpenFile(s.path("lock"), os.O_CREATE|os.O_RDWR, 0o600)
	if err != nil {
		return err
	}
	defer lock.Close()
	if err := syscall.Flock(int(lock.Fd()), syscall.LOCK_EX|syscall.LOCK_NB); err != nil {
		return err
	}
	if err := disk.WriteFile(s.path("started"), []byte(bootID())); err != nil {
		return err
	}
	command := exec.Command(program[0], append(append([]string(nil), program[1:]...), s.folder)...)
	command.ExtraFiles = []*os.File{lock}
	command.SysProcAttr = &syscall.SysProcAttr{Setsid: true}
	if err := command.Start(); err != nil {
		return err
	}
	go command.Wait()
	return nil
}

// runs reports whether the supervisor runs.
func (s supervised) runs() bool {
	lock, err := os.OpenFile(s.path("lock"), os.O_RDWR, 0)
	if err != nil {
		return false
	}
	defer lock.Close()
	return errors.Is(syscall.Flock(int(lock.Fd()), syscall.LOCK_SH|syscall.LOCK_NB), syscall.EWOULDBLOCK)
}

// kill asks the supervisor to end the process.
func (s supervised) kill(grace time.Duration) {
	disk.WriteFile(s.path("grace"), []byte(strconv.FormatInt(grace.Milliseconds(), 10)))
	for end := time.Now().Add(10 * time.Second); s.runs() && time.Now().Before(end); time.Sleep(20 * time.Millisecond) {
		if pid := s.number("supervisor"); pid > 0 {
			syscall.Kill(pid, syscall.SIGTERM)
			return
		}
	}
}

// exit is how a process ended.
type exit struct {
	Code        int    `json:"code"`
	Signal      string `json:"signal,omitempty"`
	Status      int    `json:"status,omitempty"`    // as wait(2) returns it
	IsKilled    bool   `json:"killed,omitempty"`    // it was asked to end
	IsUnhealthy bool   `json:"unhealthy,omitempty"` // by its health check
	Problem     string `json:"problem,omitempty"`

	IsOutOfMemory bool `json:"out_of_memory,omitempty"` // it had more memory than its limit
}

func (e exit) text() string {
	if e.Signal != "" {
		return "terminated with signal " + e.Signal
	}
	return "exited with status " + strconv.Itoa(e.Code)
}

// ended returns how the process ended. If it ended together with its supervisor, for example when the machine restarted, this is not known: then
// its remaining processes are killed, and isLost is true.
func (s supervised) ended() (e exit, hasEnded, isLost bool) {
	isRunning := s.runs() // before its exit is looked for
	text, err := os.ReadFile(s.path("exit"))
	if err == nil {
		if err := json.Unmarshal(text, &e); err != nil {
			e.Problem = err.Error()
		}
		return e, true, false
	}
	if isRunning {
		return e, false, false
	}
	s.killLeft()
	return e, true, true
}

// killLeft kills the processes that remain after a supervisor was killed: all processes of its group and of its session.
func (s supervised) killLeft() {
	s.cgroup().remove()
	boot, _ := os.ReadFile(s.path("started"))
	session := s.number("supervisor")
	about, isThere := readStat(session)
	if session == 0 || string(boot) != bootID() || isThere && !about.isZombie { // numbers of processes were used again
		return
	}
	for _, pid := range processesOf(func(about procStat) bool { return about.session == session }) {
		syscall.Kill(pid, syscall.SIGKILL)
	}
}
