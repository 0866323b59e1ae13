// The agent's tasks and executors, as messages of the operator API. Outside the proof.

package agentapi

import (
	"path/filepath"
	"time"

	"gateway/internal/mesos/agent"
	"gateway/internal/mesos/codec"
)

// box is a sandbox and its owner. A command has its own sandbox, even in a group, whose default executor has an id.
type box struct{ framework, executor, group, key, path string }

// container is a running process of a command or of an executor.
type container struct {
	framework, executor, name, key, sandbox string
	supervisor                              int
	resources                               []codec.Message
}

// view is the agent's current tasks and executors.
type view struct {
	agent  *agent.Agent
	folder string
	seen   []agent.Seen
	own    []agent.SeenExecutor
	boxes  []box
}

func (s *Server) view() *view {
	v := &view{agent: s.agent, folder: s.agent.Folder(), seen: s.agent.Tasks(), own: s.agent.Executors()}
	for _, e := range v.own {
		v.boxes = append(v.boxes, box{e.Executor.Text("framework_id.value"), e.Executor.Text("executor_info.executor_id.value"), "", e.Key, e.Sandbox})
	}
	for _, t := range v.seen {
		if t.IsCommand {
			v.boxes = append(v.boxes, box{t.Task.Text("framework_id.value"), taskID(t), t.Task.Text("executor_id.value"), t.Key, t.Sandbox})
		}
	}
	return v
}

// taskID returns the id of a task, which as a command is shown as its own executor.
func taskID(t agent.Seen) string { return t.Task.Text("task_info.task_id.value") }

func nameOf(t agent.Seen) string {
	return "Command Executor (Task: " + taskID(t) + ") (Command: sh -c '" + t.Task.Text("task_info.command.value") + "')"
}

// taskMessage writes a task.
func taskMessage(t agent.Seen) codec.Message {
	info := t.Task.Sub("task_info")
	m := codec.New("mesos.Task").Set("name", info.Text("name")).Set("task_id", info.Sub("task_id")).Set("framework_id", t.Task.Sub("framework_id")).
		Set("agent_id", info.Sub("agent_id")).Set("state", t.State)
	if !t.IsCommand || t.Task.Has("executor_id") {
		m.Set("executor_id.value", t.Executor)
	}
	for _, one := range info.List("resources") {
		m.Add("resources", one)
	}
	m.Set("labels", info.Sub("labels")).Set("discovery", info.Sub("discovery")).Set("container", info.Sub("container"))
	if !t.Status.IsAbsent() {
		status := t.Status.Clone()
		status.Clear("data")
		m.Add("statuses", status)
	}
	return m
}

var stages = map[int]string{agent.Queued: "queued_tasks", agent.Launched: "launched_tasks", agent.Terminated: "terminated_tasks", agent.Completed: "completed_tasks"}

func (v *view) tasks() codec.Message {
	m := codec.New("mesos.agent.Response.GetTasks")
	for _, t := range v.seen {
		m.Add(stages[t.Stage], taskMessage(t))
	}
	return m
}

// commandExecutor writes a command as the executor that Mesos has for it.
func commandExecutor(t agent.Seen) codec.Message {
	info := t.Task.Sub("task_info")
	return codec.New("mesos.ExecutorInfo").Set("executor_id.value", taskID(t)).Set("framework_id", t.Task.Sub("framework_id")).Set("name", nameOf(t)).
		Set("source", taskID(t)).Set("command", info.Sub("command"))
}

func (v *view) executors() codec.Message {
	m := codec.New("mesos.agent.Response.GetExecutors")
	add := func(info codec.Message, isDone bool) {
		field := map[bool]string{false: "executors", true: "completed_executors"}[isDone]
		m.Add(field, codec.New("mesos.agent.Response.GetExecutors.Executor").Set("executor_info", info))
	}
	for _, e := range v.own {
		add(e.Executor.Sub("executor_info").Clone().Set("framework_id", e.Executor.Sub("framework_id")), e.IsDone)
	}
	for _, t := range v.seen {
		if t.IsCommand {
			add(commandExecutor(t), t.Stage == agent.Completed)
		}
	}
	return m
}

// frameworkInfos returns the frameworks, and whether each has something that is not completed. If a framework has only commands, the agent knows
// only its id and its user.
func (v *view) frameworkInfos() (order []string, infos map[string]codec.Message, isActive map[string]bool) {
	infos, isActive = map[string]codec.Message{}, map[string]bool{}
	add := func(id string, info codec.Message, active bool) {
		if _, is := infos[id]; !is {
			order = append(order, id)
			infos[id] = codec.New("mesos.FrameworkInfo").Set("user", "").Set("name", id).Set("id.value", id)
		}
		if !info.IsAbsent() {
			infos[id] = info.Clone().Set("id.value", id)
		}
		isActive[id] = isActive[id] || active
	}
	for _, e := range v.own {
		add(e.Executor.Text("framework_id.value"), e.Executor.Sub("framework_info"), !e.IsDone)
	}
	for _, t := range v.seen {
		id := t.Task.Text("framework_id.value")
		add(id, t.Task.Sub("executor.framework_info"), t.Stage != agent.Completed)
		if infos[id].Text("user") == "" {
			infos[id].Set("user", t.Task.Text("user"))
		}
	}
	return order, infos, isActive
}

func (v *view) frameworks() codec.Message {
	m := codec.New("mesos.agent.Response.GetFrameworks")
	order, infos, isActive := v.frameworkInfos()
	for _, id := range order {
		field := map[bool]string{true: "frameworks", false: "completed_frameworks"}[isActive[id]]
		m.Add(field, codec.New("mesos.agent.Response.GetFrameworks.Framework").Set("framework_info", infos[id]))
	}
	return m
}

// running returns the commands and executors that run.
func (v *view) running() (list []container) {
	for _, e := range v.own {
		if e.Supervisor > 0 {
			info := e.Executor.Sub("executor_info")
			one := container{e.Executor.Text("framework_id.value"), info.Text("executor_id.value"), info.Text("name"), e.Key, e.Sandbox, e.Supervisor, info.List("resources")}
			for _, t := range v.seen {
				if !t.IsCommand && t.Stage == agent.Launched && t.Sandbox == e.Sandbox {
					one.resources = append(one.resources, t.Task.List("task_info.resources")...)
				}
			}
			list = append(list, one)
		}
	}
	for _, t := range v.seen {
		if t.IsCommand && t.Supervisor > 0 {
			list = append(list, container{t.Task.Text("framework_id.value"), taskID(t), nameOf(t), t.Key, t.Sandbox, t.Supervisor, t.Task.List("task_info.resources")})
		}
	}
	return list
}

// statistics writes what a container uses, and its limits as far as they are known.
func (v *view) statistics(c container) codec.Message {
	usage := v.agent.Usage(c.sandbox, c.supervisor)
	m := codec.New("mesos.ResourceStatistics").Set("timestamp", float64(time.Now().UnixMilli())/1000).Set("processes", usage.Processes).Set("threads", usage.Threads).
		Set("cpus_user_time_secs", usage.User).Set("cpus_system_time_secs", usage.System).Set("mem_rss_bytes", int64(usage.Resident))
	if usage.IsLimited {
		m.Set("mem_total_bytes", int64(usage.Memory)).Set("cpus_nr_periods", int64(usage.Periods)).Set("cpus_nr_throttled", int64(usage.Throttled)).Set("cpus_throttled_time_secs", usage.ThrottledFor)
	}
	cpus, mem := 0.0, 0.0
	for _, one := range c.resources {
		switch one.Text("name") {
		case "cpus":
			cpus += one.Float("scalar.value")
		case "mem":
			mem += one.Float("scalar.value")
		}
	}
	return m.Set("cpus_limit", cpus).Set("mem_limit_bytes", int64(mem*(1<<20)))
}

func (v *view) containers() codec.Message {
	m := codec.New("mesos.agent.Response.GetContainers")
	for _, c := range v.running() {
		m.Add("containers", codec.New("mesos.agent.Response.GetContainers.Container").Set("framework_id.value", c.framework).Set("executor_id.value", c.executor).Set("executor_name", c.name).
			Set("container_id.value", c.key).Set("container_status.executor_pid", c.supervisor).Set("resource_statistics", v.statistics(c)))
	}
	return m
}

// directory returns the absolute path of a sandbox.
func (v *view) directory(path string) string { return filepath.Join(v.folder, path) }
