// The process that a supervisor runs: a command with its sandbox and its environment. Outside the proof.

package agent

import (
	"os"
	"os/exec"
	"syscall"
	"time"

	"gateway/internal/mesos/codec"
)

// process says what a supervisor is to run.
type process struct {
	Command     []byte   `json:"command"`     // CommandInfo
	Environment []string `json:"environment"` // which the command's own variables replace
	GraceMS     int64    `json:"grace_ms"`    // between SIGTERM and SIGKILL, where the agent does not say otherwise
	HealthCheck []byte   `json:"health_check,omitempty"`
	Check       []byte   `json:"check,omitempty"` // CheckInfo
	User        *account `json:"user,omitempty"`  // or the agent's own
	Cgroup      cgroup   `json:"cgroup,omitempty"`
	OutputBytes int64    `json:"output_bytes,omitempty"` // of stdout and of stderr, before a new file begins; 0 for no limit
	OutputFiles int      `json:"output_files,omitempty"` // that are kept of each, besides the one that is written
}

// defaultGrace is the time between SIGTERM and SIGKILL of a command, Mesos' default.
const defaultGrace = 3 * time.Second

// graceOf returns the time between SIGTERM and SIGKILL of a task: what a KILL said, or else its own kill policy.
func graceOf(one codec.Message) time.Duration {
	switch {
	case one.Has("grace_ms"):
		return time.Duration(one.Int("grace_ms")) * time.Millisecond
	case one.Has("task_info.kill_policy.grace_period"):
		return time.Duration(one.Int("task_info.kill_policy.grace_period.nanoseconds"))
	}
	return defaultGrace
}

// processOf returns the process of a task that is a command, with the environment that Mesos sets.
func processOf(one codec.Message, sandbox string) *process {
	info := one.Sub("task_info")
	task := info.Text("task_id.value")
	executor := task
	if one.Has("executor_id") {
		executor = one.Text("executor_id.value")
	}
	return &process{Command: info.Sub("command").Protobuf(), GraceMS: graceOf(one).Milliseconds(),
		HealthCheck: info.Sub("health_check").Protobuf(), Check: info.Sub("check").Protobuf(),
		Environment: append(environment(sandbox, one.Text("framework_id.value"), info.Text("agent_id.value"), executor), "MESOS_TASK_ID="+task)}
}

// environment returns the variables that Mesos sets for every process of a framework.
func environment(sandbox, framework, agent, executor string) []string {
	return []string{"PATH=" + os.Getenv("PATH"), "MESOS_SANDBOX=" + sandbox, "MESOS_DIRECTORY=" + sandbox, "MESOS_FRAMEWORK_ID=" + framework,
		"MESOS_AGENT_ID=" + agent, "MESOS_SLAVE_ID=" + agent, "MESOS_EXECUTOR_ID=" + executor, "LIBPROCESS_PORT=0"}
}

// command returns the command that is to be started, and its output.
func (p *process) command(sandbox string) (*exec.Cmd, *outputs, error) {
	command, err := p.commandOf(codec.MustReadProtobuf("mesos.CommandInfo", p.Command), sandbox)
	if err != nil {
		return nil, nil, err
	}
	all, err := p.pipes(sandbox, &command.Stdout, &command.Stderr)
	return command, all, err
}

// commandOf returns a command that runs as the process does, without its output.
func (p *process) commandOf(c codec.Message, sandbox string) (*exec.Cmd, error) {
	var command *exec.Cmd
	if c.Bool("shell") { // the default
		command = exec.Command("/bin/sh", "-c", c.Text("value"))
	} else {
		path, err := exec.LookPath(c.Text("value"))
		if err != nil {
			return nil, err
		}
		command = &exec.Cmd{Path: path, Args: c.Texts("arguments")}
		if len(command.Args) == 0 {
			command.Args = []string{path}
		}
	}
	command.Dir = sandbox
	command.SysProcAttr = &syscall.SysProcAttr{Setpgid: true, Pdeathsig: syscall.SIGKILL, Credential: p.User.credential()}
	command.Env = append([]string(nil), p.Environment...)
	for _, one := range c.List("environment.variables") {
		command.Env = append(command.Env, one.Text("name")+"="+one.Text("value"))
	}
	return command, nil
}
