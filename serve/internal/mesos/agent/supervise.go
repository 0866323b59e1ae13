// The supervisor of a process. It is a separate process, so that what it runs outlives the agent's program, and its exit status is not lost.
// Outside the proof.

package agent

import (
	"context"
	"encoding/json"
	"errors"
	"fmt"
	"os"
	"os/exec"
	"os/signal"
	"path/filepath"
	"runtime"
	"strconv"
	"strings"
	"sync"
	"syscall"
	"time"

	"golang.org/x/sys/unix"

	"gateway/internal/disk"
)

// supervisor runs a process and its descendants: a process that loses its parent becomes the supervisor's child, so the supervisor can find all of
// them in the end.
type supervisor struct {
	supervised
	process *process
	signals chan os.Signal
	output  *outputs

	mu  sync.Mutex
	own map[int]bool // children that a call of Wait waits for
}

// Supervise runs the process of a folder, and writes how it ended. SIGTERM ends the process: first gently, and after its time of grace by SIGKILL.
// The supervisor inherits the folder's lock, which the agent took: if the lock is free, the process does not run.
func Supervise(folder string) error {
	s := &supervisor{supervised: supervised{folder}, process: &process{}, signals: make(chan os.Signal, 64), own: map[int]bool{}}
	signal.Notify(s.signals, syscall.SIGTERM, syscall.SIGINT, syscall.SIGHUP, syscall.SIGCHLD)
	syscall.CloseOnExec(3) // the lock: what a process leaves behind does not hold it
	if err := unix.Prctl(unix.PR_SET_CHILD_SUBREAPER, 1, 0, 0, 0); err != nil {
		return err
	}
	text, err := os.ReadFile(s.path("process"))
	if err == nil {
		err = json.Unmarshal(text, s.process)
	}
	if err != nil {
		return err
	}
	if err := disk.WriteFile(s.path("supervisor"), []byte(strconv.Itoa(os.Getpid()))); err != nil {
		return err
	}
	runtime.LockOSThread() // the command ends with the thread that started it
	ended := s.run()
	s.killDescendants()
	if s.output != nil {
		s.output.end()
	}
	ended.IsOutOfMemory = ended.Signal != "" && s.process.Cgroup.isOutOfMemory()
	s.process.Cgroup.remove()
	line, _ := json.Marshal(ended)
	return writeWhenRoom(s.path("exit"), line, patience)
}

const (
	patience  = time.Hour   // for which a supervisor waits for room on the disk
	roomPause = time.Second // before it is tried again
)

// writeWhenRoom writes a file. On a full disk it waits until there is room: how a process ended must not be lost.
func writeWhenRoom(path string, text []byte, patience time.Duration) error {
	for end := time.Now().Add(patience); ; time.Sleep(roomPause) {
		err := disk.WriteFile(path, text)
		if !errors.Is(err, syscall.ENOSPC) && !errors.Is(err, syscall.EDQUOT) || time.Now().After(end) {
			return err
		}
	}
}

func (s *supervisor) sandbox() string { return s.path("sandbox") }

func (s *supervisor) run() exit {
	isKilled, err := s.fetchUnlessKilled()
	if isKilled {
		return exit{Problem: "killed before the command was started", IsKilled: true}
	}
	if err != nil {
		return exit{Problem: err.Error()}
	}
	command, output, err := s.process.command(s.sandbox())
	if s.output = output; err == nil {
		err = s.startOwn(command)
	}
	if err != nil {
		return exit{Problem: fmt.Sprintf("the command did not start: %v", err)}
	}
	if err := disk.WriteFile(s.path("pid"), []byte(strconv.Itoa(command.Process.Pid))); err != nil {
		command.Process.Kill()
	}
	checks := s.startChecks(command)
	ended := s.wait(command, checks.kill)
	checks.end()
	return ended
}

// wait waits until a command has ended, possibly because of a signal or its health check.
func (s *supervisor) wait(command *exec.Cmd, isUnhealthy <-chan struct{}) (ended exit) {
	group, done := -command.Process.Pid, make(chan struct{})
	go func() {
		command.Wait()
		close(done)
	}()
	kill := (<-chan time.Time)(nil)
	begin := func() {
		ended.IsKilled = true
		grace := s.grace()
		if grace > 0 {
			syscall.Kill(group, syscall.SIGTERM)
		}
		kill = time.After(grace)
	}
	for {
		select {
		case signal := <-s.signals:
			switch {
			case signal == syscall.SIGCHLD:
				s.reap()
			case signal == syscall.SIGTERM && !ended.IsKilled:
				begin()
			}
		case <-isUnhealthy:
			if !ended.IsKilled {
				ended.IsUnhealthy = true
				begin()
			}
		case <-kill:
			syscall.Kill(group, syscall.SIGKILL)
		case <-done:
			status := command.ProcessState.Sys().(syscall.WaitStatus)
			ended.Code, ended.Status = command.ProcessState.ExitCode(), int(status)
			if status.Signaled() {
				ended.Signal = status.Signal().String()
			}
			return ended
		}
	}
}

// startOwn starts a command whose Wait will be called.
func (s *supervisor) startOwn(command *exec.Cmd) error {
	s.mu.Lock()
	defer s.mu.Unlock()
	err := s.process.Cgroup.enter(command.Start)
	if err == nil {
		s.own[command.Process.Pid] = true
	}
	return err
}

// forget forgets a command whose Wait has returned.
func (s *supervisor) forget(pid int) {
	s.mu.Lock()
	defer s.mu.Unlock()
	delete(s.own, pid)
}

// reap collects the exit statuses of processes that lost their parents.
func (s *supervisor) reap() {
	s.mu.Lock()
	defer s.mu.Unlock()
	paths, _ := filepath.Glob("/proc/self/task/*/children")
	for _, path := range paths {
		text, _ := os.ReadFile(path)
		for _, word := range strings.Fields(string(text)) {
			if pid, err := strconv.Atoi(word); err == nil && !s.own[pid] {
				syscall.Wait4(pid, nil, syscall.WNOHANG, nil)
			}
		}
	}
}

// killDescendants kills all processes that remain of the command.
func (s *supervisor) killDescendants() {
	for end := time.Now().Add(10 * time.Second); time.Now().Before(end); time.Sleep(5 * time.Millisecond) {
		left := descendants(os.Getpid())
		if len(left) == 0 {
			return
		}
		for _, pid := range left {
			syscall.Kill(pid, syscall.SIGKILL)
		}
		for {
			if pid, err := syscall.Wait4(-1, nil, syscall.WNOHANG, nil); pid <= 0 || err != nil {
				break
			}
		}
	}
}

// fetchUnlessKilled fetches the URIs of a command, and reports whether it was killed meanwhile.
func (s *supervisor) fetchUnlessKilled() (isKilled bool, err error) {
	ctx, cancel := context.WithCancel(context.Background())
	defer cancel()
	done := make(chan error, 1)
	go func() {
		done <- s.process.fetch(ctx, s.sandbox())
	}()
	for {
		select {
		case err := <-done:
			return isKilled, err
		case signal := <-s.signals:
			if signal == syscall.SIGTERM {
				isKilled = true
				cancel()
			}
		}
	}
}

// grace returns the time between SIGTERM and SIGKILL: what the agent wrote, or else the process's own.
func (s *supervisor) grace() time.Duration {
	text, _ := os.ReadFile(s.path("grace"))
	ms, err := strconv.ParseInt(strings.TrimSpace(string(text)), 10, 64)
	if err != nil || ms < 0 {
		ms = s.process.GraceMS
	}
	return time.Duration(ms) * time.Millisecond
}
