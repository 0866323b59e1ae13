// Agents, frameworks, tasks and roles in the form of the classic endpoints. Outside the proof.

package operator

import (
	"encoding/json"
	"fmt"
	"strings"

	"gateway/internal/mesos/codec"
	"gateway/internal/mesos/resources"
	"gateway/internal/mesos/server"
	"gateway/internal/registry/mesos"
)

// amounts writes resources as an object: scalars as numbers, ranges and sets as texts. The four that Mesos always names are always there.
func amounts(b resources.Bundle) object {
	m := object{}
	for _, name := range counted {
		m[name] = 0.0
	}
	scalars, ranges, items := map[string]uint64{}, map[string][]string{}, map[string][]string{}
	for _, key := range b.Keys() {
		switch v := b[key]; {
		case len(v.Ranges) > 0:
			for _, one := range v.Ranges {
				ranges[key.Name] = append(ranges[key.Name], fmt.Sprintf("%d-%d", one.First, one.Last))
			}
		case len(v.Items) > 0:
			items[key.Name] = append(items[key.Name], v.Items...)
		default:
			scalars[key.Name] += v.Scalar
		}
	}
	for name, value := range scalars {
		m[name] = float64(value) / 1000
	}
	for name, list := range ranges {
		m[name] = "[" + strings.Join(list, ", ") + "]"
	}
	for name, list := range items {
		m[name] = "{" + strings.Join(list, ", ") + "}"
	}
	return m
}

// amountsOf writes resources that are messages.
func amountsOf(list []codec.Message) object {
	b := resources.Bundle{}
	for _, one := range list {
		if some, err := resources.FromMessages([]codec.Message{one}); err == nil {
			b.Add(some)
		}
	}
	return amounts(b)
}

func amountsByRole(b byRole) object {
	m := object{}
	for role, bundle := range b {
		m[role] = amounts(bundle)
	}
	return m
}

func raws(list []codec.Message) []json.RawMessage {
	texts := []json.RawMessage{}
	for _, one := range list {
		texts = append(texts, one.JSON())
	}
	return texts
}

// attributes writes attributes as an object.
func attributes(list []codec.Message) object {
	m := object{}
	for _, one := range list {
		switch one.Enum("type") {
		case "SCALAR":
			m[one.Text("name")] = one.Float("scalar.value")
		case "TEXT":
			m[one.Text("name")] = one.Text("text.value")
		case "SET":
			m[one.Text("name")] = "{" + strings.Join(one.Texts("set.item"), ", ") + "}"
		case "RANGES":
			var ranges []string
			for _, r := range one.List("ranges.range") {
				ranges = append(ranges, fmt.Sprintf("%d-%d", r.Uint("begin"), r.Uint("end")))
			}
			m[one.Text("name")] = "[" + strings.Join(ranges, ", ") + "]"
		}
	}
	return m
}

// agentSummary is the part of `/state-summary` about an agent.
func (v *view) agentSummary(a mesos.Agent) object {
	info, row := codec.MustReadProtobuf("mesos.AgentInfo", a.Info), v.rows.agents[a.ID]
	m := object{"id": a.ID, "hostname": info.Text("hostname"), "port": info.Int("port"), "attributes": attributes(info.List("attributes")), "pid": pidOf(info),
		"registered_time": seconds(a.Registered), "resources": amounts(row.total), "used_resources": amounts(v.rows.used[a.ID].sum()), "offered_resources": amounts(v.rows.offered[a.ID].sum()),
		"reserved_resources": amountsByRole(reservations(row.total)), "unreserved_resources": amounts(unreserved(row.total)), "active": a.IsConnected && row.isActive,
		"deactivated": a.IsDeactivated, "version": server.Version, "capabilities": []string{"MULTI_ROLE", "HIERARCHICAL_ROLE"}}
	if a.Reregistered > 0 {
		m["reregistered_time"] = seconds(a.Reregistered)
	}
	if drain := agentMessage(a, nil); drain.Has("drain_info") {
		m["drain_info"], m["estimated_drain_start_time_seconds"] = raw(drain.Sub("drain_info")), seconds(a.Drain.Since)
	}
	return m
}

// classicAgents writes the agents, or the one with an id.
func (v *view) classicAgents(id string) []object {
	list := []object{}
	for _, a := range v.Agents {
		if id != "" && id != a.ID {
			continue
		}
		m, total := v.agentSummary(a), v.rows.agents[a.ID].total
		reserved := object{}
		for role := range reservations(total) {
			some := resources.Bundle{}
			for key, value := range total {
				if key.Role == role {
					some[key] = value
				}
			}
			reserved[role] = raws(messages(some, ""))
		}
		m["reserved_resources_full"], m["unreserved_resources_full"] = reserved, raws(messages(unreserved(total), ""))
		m["used_resources_full"], m["offered_resources_full"] = raws(allocations(v.rows.used[a.ID])), raws(allocations(v.rows.offered[a.ID]))
		list = append(list, m)
	}
	return list
}

// describe writes a framework's description of itself.
func describe(id string, sub mesos.Subscription) object {
	info := frameworkInfo(sub)
	capabilities := append([]string{}, sub.Capabilities...)
	m := object{"id": id, "name": info.Text("name"), "user": info.Text("user"), "failover_timeout": info.Float("failover_timeout"), "checkpoint": info.Bool("checkpoint"),
		"hostname": info.Text("hostname"), "webui_url": info.Text("webui_url"), "principal": info.Text("principal"), "capabilities": capabilities}
	if sub.Has("MULTI_ROLE") {
		m["roles"] = sub.Roles
	} else {
		m["role"] = info.Text("role")
	}
	if info.Has("labels") {
		m["labels"] = raws(info.List("labels.labels"))
	}
	return m
}

// frameworkSummary is the part of `/state-summary` about a framework.
func (v *view) frameworkSummary(f mesos.KnownFramework) object {
	m := describe(f.ID, f.Subscription)
	m["active"], m["connected"], m["recovered"] = f.IsConnected, f.IsConnected, false
	m["used_resources"], m["offered_resources"] = amounts(v.rows.usedBy[f.Name].sum()), amounts(v.rows.offeredTo[f.Name].sum())
	return m
}

// classicFrameworks writes the frameworks that exist and those that were removed, or the one with an id.
func (v *view) classicFrameworks(id string) (frameworks, completed []object) {
	frameworks, completed = []object{}, []object{}
	ended := map[string][]object{}
	for _, t := range v.Completed {
		if id == "" || id == t.Framework {
			ended[t.Framework] = append(ended[t.Framework], classicTask(completedMessage(t), t.Role))
		}
	}
	executors := map[string][]object{}
	for _, one := range v.executors().List("executors") {
		info := one.Sub("executor_info")
		framework := info.Text("framework_id.value")
		executors[framework] = append(executors[framework], object{"executor_id": info.Text("executor_id.value"), "name": info.Text("name"), "framework_id": framework,
			"slave_id": one.Text("agent_id.value"), "type": info.Enum("type"), "resources": amountsOf(info.List("resources"))})
	}
	for k := range v.Frameworks {
		f := &v.Frameworks[k]
		if id != "" && id != f.ID {
			continue
		}
		m, tasks, offers := v.frameworkSummary(*f), []object{}, []object{}
		held := v.rows.usedBy[f.Name].sum().Copy()
		held.Add(v.rows.offeredTo[f.Name].sum())
		for n := range f.Tasks {
			tasks = append(tasks, classicTask(taskMessage(&f.Framework, &f.Tasks[n]), f.Tasks[n].Role))
		}
		for _, o := range f.Offers {
			offers = append(offers, object{"id": o.ID, "framework_id": f.ID, "slave_id": o.Agent, "allocation_info": object{"role": o.Role}, "resources": amounts(parse(o.Resources))})
		}
		m["registered_time"], m["unregistered_time"], m["resources"] = seconds(f.Registered), seconds(f.Left), amounts(held)
		if f.Reregistered > 0 {
			m["reregistered_time"] = seconds(f.Reregistered)
		}
		m["tasks"], m["offers"], m["unreachable_tasks"], m["completed_tasks"], m["executors"] = tasks, offers, []object{}, orEmpty(ended[f.ID]), orEmpty(executors[f.ID])
		frameworks = append(frameworks, m)
	}
	for _, f := range v.Removed {
		if id != "" && id != f.ID {
			continue
		}
		m := describe(f.ID, f.Subscription)
		m["active"], m["connected"], m["recovered"], m["unregistered_time"] = false, false, false, seconds(f.At)
		m["used_resources"], m["offered_resources"], m["resources"] = amounts(nil), amounts(nil), amounts(nil)
		m["tasks"], m["offers"], m["unreachable_tasks"], m["completed_tasks"], m["executors"] = []object{}, []object{}, []object{}, orEmpty(ended[f.ID]), []object{}
		completed = append(completed, m)
	}
	return frameworks, completed
}

func orEmpty(list []object) []object {
	if list == nil {
		return []object{}
	}
	return list
}

// classicTask writes a task.
func classicTask(t codec.Message, role string) object {
	statuses := []object{}
	for _, one := range t.List("statuses") {
		status := object{"state": one.Enum("state"), "timestamp": one.Float("timestamp")}
		if one.Has("healthy") {
			status["healthy"] = one.Bool("healthy")
		}
		if one.Has("labels") {
			status["labels"] = raws(one.List("labels.labels"))
		}
		if one.Has("container_status") {
			status["container_status"] = raw(one.Sub("container_status"))
		}
		statuses = append(statuses, status)
	}
	m := object{"id": t.Text("task_id.value"), "name": t.Text("name"), "framework_id": t.Text("framework_id.value"), "executor_id": t.Text("executor_id.value"),
		"slave_id": t.Text("agent_id.value"), "state": t.Enum("state"), "resources": amountsOf(t.List("resources")), "role": role, "statuses": statuses}
	if t.Has("user") {
		m["user"] = t.Text("user")
	}
	if t.Has("labels") {
		m["labels"] = raws(t.List("labels.labels"))
	}
	for _, name := range []string{"discovery", "container"} {
		if t.Has(name) {
			m[name] = raw(t.Sub(name))
		}
	}
	return m
}

// classicRoles writes the roles.
func (v *view) classicRoles() []object {
	list, reserved := []object{}, v.rows.reserved()
	for _, role := range v.roles() {
		m := object{"name": role, "weight": v.rows.weight(role), "frameworks": append([]string{}, v.members(role)...), "resources": amounts(v.held(role)),
			"allocated": amounts(v.rows.usedIn[role]), "offered": amounts(v.rows.offeredIn[role]), "reserved": amounts(reserved[role])}
		if _, has := v.rows.limits[role]; has {
			m["quota"] = object{"role": role, "guarantee": object{}, "limit": v.rows.limit(role), "consumed": scalars(v.rows.consumed(role))}
		}
		list = append(list, m)
	}
	return list
}

// scalars writes the scalars of resources alone.
func scalars(b resources.Bundle) map[string]float64 {
	m := map[string]float64{}
	for key, value := range b {
		if value.Scalar > 0 {
			m[key.Name] += float64(value.Scalar) / 1000
		}
	}
	return m
}
