// The classic endpoints of an agent: `/state` and `/monitor/statistics`. Outside the proof.

package agentapi

import (
	"encoding/json"
	"fmt"
	"net/http"
	"sort"
	"strings"

	"gateway/internal/mesos/agent"
	"gateway/internal/mesos/codec"
)

// amounts writes resources as an object: scalars as numbers, ranges and sets as texts. The four that Mesos always names are always there.
func amounts(list []codec.Message) object {
	m := object{"cpus": 0.0, "mem": 0.0, "disk": 0.0, "gpus": 0.0}
	texts := map[string][]string{}
	for _, one := range list {
		name := one.Text("name")
		switch one.Enum("type") {
		case "SCALAR":
			old, _ := m[name].(float64)
			m[name] = old + one.Float("scalar.value")
		case "RANGES":
			for _, r := range one.List("ranges.range") {
				texts[name] = append(texts[name], fmt.Sprintf("%d-%d", r.Uint("begin"), r.Uint("end")))
			}
			m[name] = "[" + strings.Join(texts[name], ", ") + "]"
		case "SET":
			texts[name] = append(texts[name], one.Texts("set.item")...)
			m[name] = "{" + strings.Join(texts[name], ", ") + "}"
		}
	}
	return m
}

// attributes writes the attributes of an agent, which are texts.
func attributes(list []codec.Message) object {
	m := object{}
	for _, one := range list {
		m[one.Text("name")] = one.Text("text.value")
	}
	return m
}

// state answers `/state`.
func (s *Server) state(w http.ResponseWriter, _ *http.Request) error {
	info, v := s.agent.Info(), s.view()
	frameworks, completed := []object{}, []object{}
	order, infos, isActive := v.frameworkInfos()
	for _, id := range order {
		if one := v.framework(id, infos[id]); isActive[id] {
			frameworks = append(frameworks, one)
		} else {
			completed = append(completed, one)
		}
	}
	return sendJSON(w, object{"version": version, "id": info.Text("id.value"), "hostname": info.Text("hostname"), "pid": fmt.Sprintf("slave(1)@%s:%d", info.Text("hostname"), info.Int("port")),
		"start_time": float64(s.started.UnixMilli()) / 1000, "resources": amounts(info.List("resources")), "attributes": attributes(info.List("attributes")),
		"frameworks": frameworks, "completed_frameworks": completed, "flags": object{"work_dir": v.folder}})
}

// framework writes a framework with its executors. A command is its own executor, as by Mesos.
func (v *view) framework(id string, info codec.Message) object {
	executors, completed := []object{}, []object{}
	add := func(one object, isDone bool) {
		if isDone {
			completed = append(completed, one)
		} else {
			executors = append(executors, one)
		}
	}
	for _, e := range v.own {
		if e.Executor.Text("framework_id.value") == id {
			add(v.executor(e.Executor.Sub("executor_info"), e.Key, e.Sandbox, func(t agent.Seen) bool { return !t.IsCommand && t.Sandbox == e.Sandbox }), e.IsDone)
		}
	}
	for _, t := range v.seen {
		if t := t; t.IsCommand && t.Task.Text("framework_id.value") == id {
			add(v.executor(commandExecutor(t), t.Key, t.Sandbox, func(other agent.Seen) bool { return other.Key == t.Key }), t.Stage == agent.Completed)
		}
	}
	m := object{"id": id, "name": info.Text("name"), "user": info.Text("user"), "failover_timeout": info.Float("failover_timeout"), "checkpoint": info.Bool("checkpoint"),
		"hostname": info.Text("hostname"), "executors": executors, "completed_executors": completed}
	if roles := info.Texts("roles"); len(roles) > 0 {
		m["roles"] = roles
	} else {
		m["role"] = info.Text("role")
	}
	return m
}

// executor writes an executor with its tasks.
func (v *view) executor(info codec.Message, key, sandbox string, has func(agent.Seen) bool) object {
	tasks := map[int][]object{agent.Queued: {}, agent.Launched: {}, agent.Completed: {}}
	used := info.List("resources")
	for _, t := range v.seen {
		if !has(t) {
			continue
		}
		stage := t.Stage
		if stage == agent.Terminated { // which Mesos lists with those that are completed
			stage = agent.Completed
		}
		if tasks[stage] = append(tasks[stage], classicTask(t)); stage != agent.Completed {
			used = append(used, t.Task.List("task_info.resources")...)
		}
	}
	return object{"id": info.Text("executor_id.value"), "name": info.Text("name"), "source": info.Text("source"), "container": key, "directory": v.directory(sandbox),
		"resources": amounts(used), "tasks": tasks[agent.Launched], "queued_tasks": tasks[agent.Queued], "completed_tasks": tasks[agent.Completed]}
}

func classicTask(t agent.Seen) object {
	m := taskMessage(t)
	statuses := []object{}
	for _, one := range m.List("statuses") {
		status := object{"state": one.Enum("state"), "timestamp": one.Float("timestamp")}
		if one.Has("healthy") {
			status["healthy"] = one.Bool("healthy")
		}
		statuses = append(statuses, status)
	}
	one := object{"id": m.Text("task_id.value"), "name": m.Text("name"), "framework_id": m.Text("framework_id.value"), "executor_id": m.Text("executor_id.value"), "slave_id": m.Text("agent_id.value"),
		"state": m.Enum("state"), "resources": amounts(m.List("resources")), "statuses": statuses}
	for _, resource := range m.List("resources") {
		if resource.Has("allocation_info") {
			one["role"] = resource.Text("allocation_info.role")
		}
	}
	if m.Has("labels") {
		labels := []json.RawMessage{}
		for _, label := range m.List("labels.labels") {
			labels = append(labels, label.JSON())
		}
		one["labels"] = labels
	}
	return one
}

// statistics answers `/monitor/statistics`.
func (s *Server) statistics(w http.ResponseWriter, _ *http.Request) error {
	list, v := []object{}, s.view()
	for _, c := range v.running() {
		list = append(list, object{"framework_id": c.framework, "executor_id": c.executor, "executor_name": c.name, "source": c.executor, "container_id": c.key,
			"statistics": json.RawMessage(v.statistics(c).JSON())})
	}
	sort.Slice(list, func(i, j int) bool { return list[i]["container_id"].(string) < list[j]["container_id"].(string) })
	return sendJSON(w, list)
}
