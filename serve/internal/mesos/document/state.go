// Agents, frameworks and tasks of a master. Outside the proof.

package document

import (
	"fmt"
	"sort"
	"strconv"
	"strings"

	"gateway/internal/mesos/resources"
)

// The minor versions of Mesos 1 whose documents are read.
const firstVersion, lastVersion = 4, 11

func (r *reader) version(v value) {
	r.cluster.Version = v.required()
	parts := strings.Split(r.cluster.Version, ".")
	if len(parts) >= 2 && parts[0] == "1" {
		if minor, err := strconv.Atoi(parts[1]); err == nil && firstVersion <= minor && minor <= lastVersion {
			return
		}
	}
	r.fail(v, "the version %q: expected 1.%d to 1.%d", r.cluster.Version, firstVersion, lastVersion)
}

// state reads the answer of /state, and the reservations in the answer of /slaves, if it was given.
func (r *reader) state(document, slaves value) {
	document, slaves = document.root(), slaves.root()
	r.version(document.field("version"))
	for _, key := range []string{"slaves", "frameworks"} {
		if !document.field(key).exists() {
			r.fail(document.field(key), "missing: expected the answer of a master's /state")
		}
	}
	document.only("the state", stateFields)
	r.agents(document.field("slaves"), slaves.field("slaves"))
	for _, v := range document.field("recovered_slaves").list() {
		r.leaveOut(v, fmt.Sprintf("the agent %q", v.field("id").text()), "it has not registered again since the master changed, and its resources are not known")
	}
	r.frameworks(document.field("frameworks"))
	for _, v := range document.field("orphan_tasks").list() {
		r.leaveOut(v, fmt.Sprintf("the task %q", v.field("id").text()), "its framework has not registered again, and is not known")
	}
	for _, v := range document.field("unregistered_frameworks").list() {
		r.leaveOut(v, fmt.Sprintf("the framework %q", v.text()), "it has not registered again, and its roles are not known")
	}
}

// byTime returns values in the order of their registration; values with the same time, or without one, in the order of the document.
func byTime(list []value) []value {
	times := make([]float64, len(list))
	order := make([]int, len(list))
	for k, v := range list {
		order[k], times[k] = k, v.field("registered_time").number()
	}
	sort.SliceStable(order, func(i, j int) bool { return times[order[i]] < times[order[j]] })
	sorted := make([]value, len(list))
	for k, place := range order {
		sorted[k] = list[place]
	}
	return sorted
}

// agent is an agent while holdings are read.
type agent struct {
	place value
	pools *pools
	used  resources.Bundle // by the holdings, without reservations
}

func (r *reader) agents(list, full value) {
	details := map[string]value{}
	for _, v := range full.list() {
		details[v.field("id").text()] = v
	}
	for _, v := range byTime(list.list()) {
		v.only("an agent", slaveFields)
		id := v.field("id")
		host := v.field("hostname").text()
		detailed, isDetailed := details[id.text()]
		if !isDetailed {
			detailed = v
		}
		a := Agent{ID: r.name(id, "agent", "agent", id.required()), Host: host, IsActive: v.field("active").flag(true)}
		if v.field("deactivated").flag(false) || v.field("drain_info").exists() {
			a.IsActive = false
		}
		if attributes := sortedKeys(v.field("attributes").object()); len(attributes) > 0 {
			r.leaveOut(v.field("attributes"), fmt.Sprintf("the attributes %s of the agent %s", strings.Join(attributes, ", "), a.ID), "the allocator has no attributes")
		}
		if v.field("domain").exists() {
			r.leaveOut(v.field("domain"), "the fault domain of the agent "+a.ID, "the allocator has no fault domains")
		}
		a.Total = r.total(v, detailed)
		a.Used = r.summary(v.field("used_resources"), false)
		r.cluster.Agents = append(r.cluster.Agents, a)
		r.onAgents = append(r.onAgents, &agent{v, r.pools(a.Total, detailed.field("used_resources_full")), resources.Bundle{}})
		r.agentOf[id.text()] = len(r.cluster.Agents) - 1
	}
}

func (r *reader) frameworks(list value) {
	var claims []claim
	for _, v := range byTime(list.list()) {
		v.only("a framework", frameworkFields)
		id := v.field("id")
		f := Framework{ID: r.name(id, "framework", "framework", id.required()), Name: v.field("name").text(), IsActive: v.field("active").flag(true), Subscribed: map[string]bool{}}
		for _, role := range r.rolesOf(v) {
			if r.role(role, role.text(), fmt.Sprintf("a role of the framework %s", f.ID)) {
				f.Subscribed[role.text()] = true
			}
		}
		for _, key := range []string{"offer_filters", "offer_constraints"} {
			if len(v.field(key).object()) > 0 {
				r.leaveOut(v.field(key), fmt.Sprintf("the %s of the framework %s", strings.ReplaceAll(key, "_", " "), f.ID), "the allocator has none")
			}
		}
		for _, role := range v.field("suppressed_roles").list() {
			delete(f.Subscribed, role.text())
			if resources.IsRole(role.text()) {
				f.Roles = append(f.Roles, role.text())
			}
		}
		if lost := v.field("unreachable_tasks").list(); len(lost) > 0 {
			r.leaveOut(v.field("unreachable_tasks"), fmt.Sprintf("%d tasks of the framework %s on agents that cannot be reached", len(lost), f.ID), "the resources of these agents are not known")
		}
		r.cluster.Offers += len(v.field("offers").list())
		r.cluster.Frameworks = append(r.cluster.Frameworks, f)
		claims = append(claims, r.claims(len(r.cluster.Frameworks)-1, v)...)
	}
	r.settle(claims)
	for k := range r.cluster.Frameworks {
		f := &r.cluster.Frameworks[k]
		roles := map[string]bool{}
		for _, role := range f.Roles {
			roles[role] = true
		}
		for role := range f.Subscribed {
			roles[role] = true
		}
		for _, h := range f.Holdings {
			roles[h.Role] = true
		}
		f.Roles = sortedKeys(roles)
	}
}

// rolesOf returns the roles of a framework, which are in `roles` if it has the capability MULTI_ROLE, and else in `role`.
func (r *reader) rolesOf(v value) []value {
	if v.field("roles").exists() {
		return v.field("roles").list()
	}
	if !v.field("role").exists() {
		r.fail(v.field("role"), "missing: expected role or roles")
	}
	return []value{v.field("role")}
}
