// Health checks and command checks, as Mesos' command executor runs them. They run in the supervisor, so they continue while the agent's program is
// stopped. Outside the proof.

package agent

import (
	"context"
	"crypto/tls"
	"encoding/json"
	"fmt"
	"log"
	"net"
	"net/http"
	"os"
	"os/exec"
	"strings"
	"sync"
	"syscall"
	"time"

	"gateway/internal/disk"
	"gateway/internal/mesos/codec"
)

// localhost is the address of a task's ports.
const localhost = "127.0.0.1"

// checked is the result of a command's checks so far.
type checked struct {
	Count  int    `json:"count"`             // of changes
	Reason string `json:"reason"`            // of the last change
	Health *bool  `json:"healthy,omitempty"` // or nil, before the first result
	Status []byte `json:"status,omitempty"`  // CheckStatusInfo
}

// checkedOf reads what the supervisor of a task wrote.
func (s supervised) checkedOf() (c checked) {
	if text, err := os.ReadFile(s.path("checked")); err == nil {
		json.Unmarshal(text, &c)
	}
	return c
}

// checks are the health check and the check of a command.
type checks struct {
	s       *supervisor
	command *exec.Cmd // whose environment and folder COMMAND checks have
	kill    chan struct{}
	done    sync.WaitGroup
	stop    context.CancelFunc

	mu    sync.Mutex
	found checked
}

// startChecks starts the checks of a command. Kill gets a value when the command is to be killed.
func (s *supervisor) startChecks(command *exec.Cmd) *checks {
	c := &checks{s: s, command: command, kill: make(chan struct{}, 1)}
	ctx, stop := context.WithCancel(context.Background())
	c.stop = stop
	if len(s.process.HealthCheck) > 0 {
		c.done.Add(1)
		go c.runHealthCheck(ctx, codec.MustReadProtobuf("mesos.HealthCheck", s.process.HealthCheck))
	}
	if len(s.process.Check) > 0 {
		c.done.Add(1)
		go c.runCheck(ctx, codec.MustReadProtobuf("mesos.CheckInfo", s.process.Check))
	}
	return c
}

// end ends the checks.
func (c *checks) end() {
	c.stop()
	c.done.Wait()
}

func seconds(value float64) time.Duration { return time.Duration(value * float64(time.Second)) }

// wait waits, and reports whether the context is still valid. Checks without an interval wait for some time, so that others can run.
func wait(ctx context.Context, d time.Duration) bool {
	if d < 20*time.Millisecond {
		d = 20 * time.Millisecond
	}
	timer := time.NewTimer(d)
	defer timer.Stop()
	select {
	case <-timer.C:
		return true
	case <-ctx.Done():
		return false
	}
}

// runHealthCheck reports each failure, and the first success after the start or a failure. Failures in the time of grace do not count before
// the first success.
func (c *checks) runHealthCheck(ctx context.Context, check codec.Message) {
	defer c.done.Done()
	start, failures, wasHealthy := time.Now(), int64(0), false
	for pause := check.Float("delay_seconds"); wait(ctx, seconds(pause)); pause = check.Float("interval_seconds") {
		err := c.healthError(ctx, check)
		grace := seconds(check.Float("grace_period_seconds"))
		switch {
		case ctx.Err() != nil:
			return
		case err == nil && (!wasHealthy || failures > 0):
			failures, wasHealthy = 0, true
			c.found.set(c, "REASON_TASK_HEALTH_CHECK_STATUS_UPDATED", func(f *checked) { f.Health = boolean(true) })
		case err == nil:
		case !wasHealthy && grace > 0 && time.Since(start) <= grace:
		default:
			failures++
			fmt.Fprintf(c.command.Stderr, "health check failed %d times consecutively: %v\n", failures, err)
			c.found.set(c, "REASON_TASK_HEALTH_CHECK_STATUS_UPDATED", func(f *checked) { f.Health = boolean(false) })
			if failures >= int64(check.Uint("consecutive_failures")) {
				select {
				case c.kill <- struct{}{}:
				default:
				}
			}
		}
	}
}

func boolean(value bool) *bool { return &value }

// set stores a changed result durably.
func (f *checked) set(c *checks, reason string, change func(*checked)) {
	c.mu.Lock()
	defer c.mu.Unlock()
	f.Count, f.Reason = f.Count+1, reason
	change(f)
	text, _ := json.Marshal(f)
	if err := disk.WriteFile(c.s.path("checked"), text); err != nil {
		log.Printf("checks: %v", err)
	}
}

func (c *checks) healthError(ctx context.Context, check codec.Message) error {
	timeout := check.Float("timeout_seconds")
	switch check.Enum("type") {
	case "COMMAND":
		code, err := c.run(ctx, timeout, check.Sub("command"))
		if err == nil && code != 0 {
			err = fmt.Errorf("the command exited with status %d", code)
		}
		return err
	case "HTTP":
		scheme := check.Text("http.scheme")
		if scheme == "" {
			scheme = "http"
		}
		code, err := get(ctx, timeout, scheme, check.Uint("http.port"), check.Text("http.path"))
		if err == nil && (code < 200 || code >= 400) {
			err = fmt.Errorf("the answer has status %d", code)
		}
		return err
	}
	return dial(ctx, timeout, check.Uint("tcp.port"))
}

// runCheck reports each result that differs from the one before. A result that could not be determined is empty.
func (c *checks) runCheck(ctx context.Context, check codec.Message) {
	defer c.done.Done()
	last := string(emptyCheckStatus(check).Protobuf())
	for pause := check.Float("delay_seconds"); wait(ctx, seconds(pause)); pause = check.Float("interval_seconds") {
		status, timeout := emptyCheckStatus(check), check.Float("timeout_seconds")
		switch check.Enum("type") {
		case "COMMAND":
			if code, err := c.run(ctx, timeout, check.Sub("command.command")); err == nil {
				status.Set("command.exit_code", code)
			}
		case "HTTP":
			if code, err := get(ctx, timeout, "http", check.Uint("http.port"), check.Text("http.path")); err == nil {
				status.Set("http.status_code", code)
			}
		case "TCP":
			status.Set("tcp.succeeded", dial(ctx, timeout, check.Uint("tcp.port")) == nil)
		}
		if text := string(status.Protobuf()); text != last && ctx.Err() == nil {
			last = text
			c.found.set(c, "REASON_TASK_CHECK_STATUS_UPDATED", func(f *checked) { f.Status = []byte(text) })
		}
	}
}

// emptyCheckStatus returns the status of a check before its first result.
func emptyCheckStatus(check codec.Message) codec.Message {
	kind := check.Enum("type")
	status := codec.New("mesos.CheckStatusInfo").Set("type", kind)
	if names := map[string]string{"COMMAND": "Command", "HTTP": "Http", "TCP": "Tcp"}; names[kind] != "" {
		status.Set(strings.ToLower(kind), codec.New("mesos.CheckStatusInfo."+names[kind]))
	}
	return status
}

// run runs a command in the same way as the task's own, and returns its exit code. Its output goes to the task's stderr.
func (c *checks) run(ctx context.Context, timeout float64, info codec.Message) (int, error) {
	command, err := c.s.process.commandOf(info, c.s.sandbox())
	if err != nil {
		return 0, err
	}
	command.SysProcAttr.Pdeathsig = 0 // it may be started by a thread that ends
	command.Env = append(append([]string(nil), c.command.Env...), command.Env[len(c.s.process.Environment):]...)
	command.Stdout, command.Stderr = c.command.Stderr, c.command.Stderr
	if err := c.s.startOwn(command); err != nil {
		return 0, err
	}
	done := make(chan struct{})
	go func() {
		defer close(done)
		command.Wait()
		c.s.forget(command.Process.Pid)
	}()
	timer := time.NewTimer(seconds(timeout))
	defer timer.Stop()
	select {
	case <-done:
		if code := command.ProcessState.ExitCode(); code >= 0 {
			return code, nil
		}
		return 0, fmt.Errorf("the command was killed")
	case <-timer.C:
		err = fmt.Errorf("the command took longer than %v", seconds(timeout))
	case <-ctx.Done():
		err = ctx.Err()
	}
	syscall.Kill(-command.Process.Pid, syscall.SIGKILL)
	<-done
	return 0, err
}

// get returns the status of an answer, after following redirections. As in Mesos, certificates are not checked.
func get(ctx context.Context, timeout float64, scheme string, port uint64, path string) (int, error) {
	transport := &http.Transport{TLSClientConfig: &tls.Config{InsecureSkipVerify: true}, DisableKeepAlives: true}
	client := &http.Client{Transport: transport, Timeout: seconds(timeout)}
	request, err := http.NewRequestWithContext(ctx, http.MethodGet, fmt.Sprintf("%s://%s:%d%s", scheme, localhost, port, path), nil)
	if err != nil {
		return 0, err
	}
	answer, err := client.Do(request)
	if err != nil {
		return 0, err
	}
	answer.Body.Close()
	return answer.StatusCode, nil
}

func dial(ctx context.Context, timeout float64, port uint64) error {
	conn, err := (&net.Dialer{Timeout: seconds(timeout)}).DialContext(ctx, "tcp", fmt.Sprintf("%s:%d", localhost, port))
	if err == nil {
		conn.Close()
	}
	return err
}
