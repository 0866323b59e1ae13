// The state as operators see it, as messages of the operator API. Outside the proof.

package operator

import (
	"fmt"
	"sort"

	"gateway/internal/mesos/codec"
	"gateway/internal/mesos/resources"
	"gateway/internal/mesos/server"
	"gateway/internal/registry/mesos"
)

// view is the registry's rows, and the allocator's, which can be a little newer.
type view struct {
	mesos.Known
	rows *rows
}

func timeInfo(ms int64) codec.Message {
	if ms == 0 {
		return codec.Message{}
	}
	return codec.New("mesos.TimeInfo").Set("nanoseconds", ms*1_000_000)
}

func addAll(m codec.Message, field string, list []codec.Message) {
	for _, one := range list {
		m.Add(field, one)
	}
}

// agent writes an agent. Without rows its resources are those that it registered with.
func agentMessage(a mesos.Agent, r *rows) codec.Message {
	info := codec.MustReadProtobuf("mesos.AgentInfo", a.Info)
	m := codec.New("mesos.master.Response.GetAgents.Agent").Set("agent_info", info).Set("version", server.Version).Set("pid", pidOf(info))
	m.Set("registered_time", timeInfo(a.Registered)).Set("reregistered_time", timeInfo(a.Reregistered))
	m.Set("active", a.IsConnected && !a.IsDeactivated)
	for _, name := range []string{"MULTI_ROLE", "HIERARCHICAL_ROLE"} {
		m.Add("capabilities", codec.New("mesos.AgentInfo.Capability").Set("type", name))
	}
	if a.IsDeactivated {
		m.Set("deactivated", true)
	}
	if a.Drain != nil {
		m.Set("drain_info.state", a.Drain.State).Set("drain_info.config.mark_gone", a.Drain.MarkGone).Set("estimated_drain_start_time", timeInfo(a.Drain.Since))
		if a.Drain.MaxGraceMS != nil {
			m.Set("drain_info.config.max_grace_period.nanoseconds", *a.Drain.MaxGraceMS*1_000_000)
		}
	}
	if r == nil {
		addAll(m, "total_resources", info.List("resources"))
		return m
	}
	row := r.agents[a.ID]
	m.Set("active", a.IsConnected && row.isActive)
	addAll(m, "total_resources", messages(row.total, ""))
	addAll(m, "allocated_resources", allocations(r.used[a.ID]))
	addAll(m, "offered_resources", allocations(r.offered[a.ID]))
	return m
}

func pidOf(info codec.Message) string {
	return fmt.Sprintf("slave(1)@%s:%d", info.Text("hostname"), info.Int("port"))
}

// frameworkMessage writes a framework.
func frameworkMessage(f mesos.KnownFramework, r *rows) codec.Message {
	m := codec.New("mesos.master.Response.GetFrameworks.Framework").Set("framework_info", frameworkInfo(f.Subscription))
	m.Set("active", f.IsConnected).Set("connected", f.IsConnected).Set("recovered", false)
	m.Set("registered_time", timeInfo(f.Registered)).Set("reregistered_time", timeInfo(f.Reregistered)).Set("unregistered_time", timeInfo(f.Left))
	for _, o := range f.Offers {
		m.Add("offers", server.RenderOffer(f.ID, o))
	}
	if r != nil {
		addAll(m, "allocated_resources", allocations(r.usedBy[f.Name]))
		addAll(m, "offered_resources", allocations(r.offeredTo[f.Name]))
	}
	return m
}

// frameworkInfo returns a framework's description, with the principal that it subscribed as.
func frameworkInfo(sub mesos.Subscription) codec.Message {
	info := codec.MustReadProtobuf("mesos.FrameworkInfo", sub.Info)
	if !info.Has("principal") {
		info.Set("principal", sub.Principal)
	}
	return info
}

// taskMessage writes a task.
func taskMessage(f *mesos.Framework, t *mesos.Task) codec.Message {
	info := codec.MustReadProtobuf("mesos.TaskInfo", t.Info)
	m := taskOf(info, f.ID, t.Task, t.Agent, t.State, t.Moments)
	if executor := t.OwnExecutor(); executor != "" {
		m.Set("executor_id.value", executor)
	}
	if user := info.Text("command.user"); user != "" {
		m.Set("user", user)
	} else if f.User != "" {
		m.Set("user", f.User)
	}
	if t.Last != nil {
		m.Set("status_update_state", t.State)
		if len(t.Unacked) > 0 {
			m.Set("status_update_state", t.Unacked[0].State).Set("status_update_uuid", t.Unacked[0].UUID)
		}
		statuses := m.List("statuses")
		m.Clear("statuses")
		for k, one := range statuses {
			if k == len(statuses)-1 { // of which all is known
				one = server.RenderStatus(*t.Last)
				one.Clear("data")
			}
			m.Add("statuses", one)
		}
	}
	return m
}

// completedMessage writes a task that has ended.
func completedMessage(t mesos.Completed) codec.Message {
	info := codec.New("mesos.TaskInfo").Set("name", "")
	if t.Info != nil {
		info = codec.MustReadProtobuf("mesos.TaskInfo", t.Info)
	}
	m := taskOf(info, t.Framework, t.Task, t.Agent, t.State, t.Moments)
	if t.Executor != "" {
		m.Set("executor_id.value", t.Executor)
	}
	return m
}

func taskOf(info codec.Message, framework, task, agent, state string, moments []mesos.Moment) codec.Message {
	m := codec.New("mesos.Task").Set("name", info.Text("name")).Set("task_id.value", task).Set("framework_id.value", framework).Set("agent_id.value", agent).Set("state", state)
	addAll(m, "resources", info.List("resources"))
	m.Set("labels", info.Sub("labels")).Set("discovery", info.Sub("discovery")).Set("container", info.Sub("container"))
	for _, one := range moments {
		m.Add("statuses", codec.New("mesos.TaskStatus").Set("task_id.value", task).Set("agent_id.value", agent).Set("state", one.State).Set("timestamp", float64(one.At)/1000))
	}
	return m
}

func (v *view) agents() codec.Message {
	m := codec.New("mesos.master.Response.GetAgents")
	for _, a := range v.Agents {
		m.Add("agents", agentMessage(a, v.rows))
	}
	return m
}

func (v *view) frameworks() codec.Message {
	m := codec.New("mesos.master.Response.GetFrameworks")
	for _, f := range v.Frameworks {
		m.Add("frameworks", frameworkMessage(f, v.rows))
	}
	for _, f := range v.Removed {
		m.Add("completed_frameworks", removedMessage(f))
	}
	return m
}

func removedMessage(f mesos.Removed) codec.Message {
	m := codec.New("mesos.master.Response.GetFrameworks.Framework").Set("framework_info", frameworkInfo(f.Subscription))
	return m.Set("active", false).Set("connected", false).Set("recovered", false).Set("unregistered_time", timeInfo(f.At))
}

// tasks writes the tasks. One that is terminal and not yet acknowledged is among the others, as by Mesos.
func (v *view) tasks() codec.Message {
	m := codec.New("mesos.master.Response.GetTasks")
	for k := range v.Frameworks {
		f := &v.Frameworks[k]
		for n := range f.Tasks {
			m.Add("tasks", taskMessage(&f.Framework, &f.Tasks[n]))
		}
	}
	for _, t := range v.Completed {
		m.Add("completed_tasks", completedMessage(t))
	}
	return m
}

// executors writes the custom executors, and the default ones of groups whose tasks run.
func (v *view) executors() codec.Message {
	m := codec.New("mesos.master.Response.GetExecutors")
	add := func(info codec.Message, framework, agent string) {
		info.Set("framework_id.value", framework)
		m.Add("executors", codec.New("mesos.master.Response.GetExecutors.Executor").Set("executor_info", info).Set("agent_id.value", agent))
	}
	for _, f := range v.Frameworks {
		for _, e := range f.Executors {
			add(codec.MustReadProtobuf("mesos.ExecutorInfo", e.Info), f.ID, e.Agent)
		}
		seen := map[string]bool{}
		for _, t := range f.Tasks {
			if t.Group != "" && !mesos.IsTerminal(t.State) && !seen[t.Group] {
				seen[t.Group] = true
				add(codec.New("mesos.ExecutorInfo").Set("type", "DEFAULT").Set("executor_id.value", t.Executor), f.ID, t.Agent)
			}
		}
	}
	return m
}

func (v *view) state() codec.Message {
	return codec.New("mesos.master.Response.GetState").Set("get_tasks", v.tasks()).Set("get_executors", v.executors()).
		Set("get_frameworks", v.frameworks()).Set("get_agents", v.agents())
}

// roles returns the names of roles that frameworks, reservations, weights or limits have, and `*`.
func (v *view) roles() (names []string) {
	seen := map[string]bool{"*": true}
	for _, f := range v.Frameworks {
		for _, role := range f.Roles {
			seen[role] = true
		}
	}
	for role := range v.rows.weights {
		seen[role] = true
	}
	for role := range v.rows.limits {
		seen[role] = true
	}
	for role := range v.rows.reserved() {
		seen[role] = true
	}
	for role := range seen {
		names = append(names, role)
	}
	sort.Strings(names)
	return names
}

// held returns the resources that a role has been offered or uses.
func (v *view) held(role string) resources.Bundle {
	held := resources.Bundle{}
	held.Add(v.rows.usedIn[role])
	held.Add(v.rows.offeredIn[role])
	return held
}

// members returns the frameworks of a role.
func (v *view) members(role string) (ids []string) {
	for _, f := range v.Frameworks {
		for _, one := range f.Roles {
			if one == role {
				ids = append(ids, f.ID)
			}
		}
	}
	return ids
}

func (v *view) roleMessages() codec.Message {
	m := codec.New("mesos.master.Response.GetRoles")
	for _, role := range v.roles() {
		one := codec.New("mesos.Role").Set("name", role).Set("weight", v.rows.weight(role))
		for _, id := range v.members(role) {
			one.Add("frameworks", codec.New("mesos.FrameworkID").Set("value", id))
		}
		addAll(one, "resources", messages(v.held(role), ""))
		m.Add("roles", one)
	}
	return m
}

func (v *view) weightMessages() codec.Message {
	m := codec.New("mesos.master.Response.GetWeights")
	for _, role := range sortedKeys(v.rows.weights) {
		m.Add("weight_infos", codec.New("mesos.WeightInfo").Set("role", role).Set("weight", v.rows.weight(role)))
	}
	return m
}

// quotaStatus writes the limits. There are no guarantees.
func (v *view) quotaStatus() codec.Message {
	m := codec.New("mesos.quota.QuotaStatus")
	for _, role := range sortedKeys(v.rows.limits) {
		config := codec.New("mesos.quota.QuotaConfig").Set("role", role)
		for name, amount := range v.rows.limit(role) {
			config.Put("limits", name, codec.New("mesos.Value.Scalar").Set("value", amount))
		}
		m.Add("infos", codec.New("mesos.quota.QuotaInfo").Set("role", role)).Add("configs", config)
	}
	return m
}

func sortedKeys(m map[string]string) []string {
	keys := make([]string, 0, len(m))
	for key := range m {
		keys = append(keys, key)
	}
	sort.Strings(keys)
	return keys
}
