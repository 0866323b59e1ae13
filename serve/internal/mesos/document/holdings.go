// The resources that tasks and executors use, and the reservations that they come from. Outside the proof.

package document

import (
	"crypto/sha256"
	"encoding/hex"
	"fmt"
	"sort"

	"gateway/internal/mesos/resources"
)

// claim is the resources that a task or an executor of a framework uses, before it is known which reservations they come from.
type claim struct {
	framework int
	place     value
	what      string
	wanted    resources.Bundle // without reservations
	Holding
}

func (r *reader) claims(framework int, v value) (claims []claim) {
	f := r.cluster.Frameworks[framework]
	roles := map[string]string{} // of the tasks of executors, as an executor may not say its own
	for _, task := range v.field("tasks").list() {
		task.only("a task", taskFields)
		id, state := task.field("id"), task.field("state")
		switch {
		case isOver[state.text()]:
			continue
		case !isHeld[state.text()]:
			r.fail(state, "the state %q of a task is not known", state.text())
		}
		c := claim{framework: framework, place: task, what: fmt.Sprintf("the task %q of the framework %s", id.text(), f.ID)}
		c.Name = r.name(id, "task\x00"+f.ID, "task", id.required())
		roles[task.field("executor_id").text()+"\x00"+task.field("slave_id").text()] = task.field("role").text()
		claims = r.claim(claims, c, v, "")
	}
	for _, executor := range v.field("executors").list() {
		executor.only("an executor", executorFields)
		id := executor.field("executor_id")
		c := claim{framework: framework, place: executor, what: fmt.Sprintf("the executor %q of the framework %s", id.text(), f.ID)}
		// The id of an executor may be used on several agents, and may be that of a task.
		sum := sha256.Sum256([]byte(id.required() + "\x00" + executor.field("slave_id").text()))
		c.Name, c.IsExecutor = "executor."+hex.EncodeToString(sum[:12]), true
		if wanted := r.summary(executor.field("resources"), false); len(wanted) > 0 {
			claims = r.claim(claims, c, v, roles[id.text()+"\x00"+executor.field("slave_id").text()])
		}
	}
	return claims
}

// claim completes a claim, and appends it if the allocator can represent it. The given role is used if the claim does not name its own.
func (r *reader) claim(claims []claim, c claim, framework value, other string) []claim {
	slave, role := c.place.field("slave_id"), c.place.field("role")
	c.Role = role.text()
	if roles := r.rolesOf(framework); c.Role == "" && other != "" {
		c.Role = other
	} else if c.Role == "" && len(roles) == 1 {
		c.Role = roles[0].text()
	} else if c.Role == "" {
		r.fail(role, "missing: expected the role that the resources are allocated to")
	}
	index, isKnown := r.agentOf[slave.required()]
	c.Agent = index
	c.wanted = r.summary(c.place.field("resources"), true)
	switch {
	case !isKnown:
		r.leaveOut(slave, c.what, fmt.Sprintf("its agent %q is not registered", slave.text()))
	case !r.role(role, c.Role, c.what):
	case len(c.wanted) == 0:
		r.leaveOut(c.place.field("resources"), c.what, "it uses nothing that the allocator has")
	default:
		return append(claims, c)
	}
	return claims
}

// settle decides which reservations each claim comes from, and adds the holdings to their frameworks.
func (r *reader) settle(claims []claim) {
	sort.SliceStable(claims, func(i, j int) bool {
		a, b := &claims[i], &claims[j]
		switch {
		case a.Agent != b.Agent:
			return a.Agent < b.Agent
		case a.framework != b.framework:
			return a.framework < b.framework
		case a.Role != b.Role:
			return a.Role < b.Role
		}
		return a.Name < b.Name
	})
	for _, c := range claims {
		on := r.onAgents[c.Agent]
		on.used.Add(c.wanted)
		missing := c.wanted.Copy()
		c.Use = on.pools.take(c.Role, missing)
		if len(missing) > 0 {
			r.leaveOut(c.place, fmt.Sprintf("%s of what %s uses", missing.Text(), c.what), "the agent has too little that this role may use")
		}
		if len(c.Use) > 0 {
			f := &r.cluster.Frameworks[c.framework]
			f.Holdings = append(f.Holdings, c.Holding)
		}
	}
	for k, on := range r.onAgents {
		said := r.cluster.Agents[k].Used.Copy()
		said.Take(on.used.Copy())
		if len(said) > 0 {
			r.leaveOut(on.place.field("used_resources"), fmt.Sprintf("%s that the agent %s says is used", said.Text(), r.cluster.Agents[k].ID), "no task or executor of the document uses it")
		}
	}
}

// pools are resources of an agent from which holdings are taken.
type pools struct {
	byRole map[string]resources.Bundle // used by the tasks of each role, if the document says it
	free   resources.Bundle            // everything else
}

// take moves the resources that a role wants out of the pools, and returns them. Resources that the pools lack remain in wanted.
func (p *pools) take(role string, wanted resources.Bundle) resources.Bundle {
	taken := p.byRole[role].TakeFor(role, wanted)
	taken.Add(p.free.TakeFor(role, wanted))
	return taken
}
