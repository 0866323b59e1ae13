// Compares roles, and explains their differences. Outside the proof.

package shadow

import (
	"context"
	"errors"
	"fmt"
	"sort"
	"strings"

	"gateway/internal/mesos/document"
	"gateway/internal/mesos/resources"
)

// Kinds of reasons.
const (
	Weight      = "weight"
	Limit       = "limit"
	Reservation = "reservation"
	Granularity = "granularity"
	Demand      = "demand"
)

// Reason says why Mesos' allocation differs from the allocator's.
type Reason struct {
	Kind string `json:"kind"`
	Text string `json:"text"`
}

// Part is what a role and the roles below it hold.
type Part struct {
	Share     float64            `json:"share"`     // the dominant share
	Resources map[string]float64 `json:"resources"` // scalars
	bundle    resources.Bundle   // with reservations
}

// Role is a role in Mesos, in the allocator with the same demand, and in the allocator if its active frameworks had endless demand.
type Role struct {
	Role   string             `json:"role"`
	Weight float64            `json:"weight"`
	Limit  map[string]float64 `json:"limit,omitempty"`
	Tasks  int                `json:"tasks"`
	Mesos  Part               `json:"mesos"`
	Same   Part               `json:"same_demand"`
	Fair   Part               `json:"fair"`
	Unmet  int                `json:"unmet"` // tasks of the same demand that find no place
	Why    []Reason           `json:"why,omitempty"`
}

// comparison is the data from which the reasons are found.
type comparison struct {
	cluster    *document.Cluster
	clients    []*client
	totals     resources.Bundle
	same, fair *allocation
	free       []resources.Bundle // of each agent in Mesos
	roles      []*Role
}

// Compare computes both models of demand, and returns all roles that have frameworks or tasks, and those above them, in order.
func Compare(ctx context.Context, program string, cluster *document.Cluster) ([]*Role, error) {
	c := &comparison{cluster: cluster, totals: resources.Bundle{}}
	for _, agent := range cluster.Agents {
		c.totals.Add(scalarsOf(agent.Total))
		c.free = append(c.free, agent.Total.Copy())
	}
	for _, f := range cluster.Frameworks {
		for _, h := range f.Holdings {
			c.free[h.Agent].Take(h.Use.Copy())
		}
	}
	c.clients = clientsOf(cluster, c.totals)
	var err error
	if c.same, err = allocate(ctx, program, cluster, c.clients, false); err == nil {
		c.fair, err = allocate(ctx, program, cluster, c.clients, true)
	}
	if isFull(err) {
		err = errors.New("the cluster has more agents and frameworks than the comparison can have filters for")
	}
	if err != nil {
		return nil, err
	}
	c.listRoles()
	for _, role := range c.roles {
		role.Why = c.reasons(role)
	}
	return c.roles, nil
}

func (c *comparison) listRoles() {
	byName := map[string]*Role{}
	for k, client := range c.clients {
		for _, name := range pathOf(client.role) {
			role := byName[name]
			if role == nil {
				role = &Role{Role: name, Weight: 1, Mesos: Part{bundle: resources.Bundle{}}, Same: Part{bundle: resources.Bundle{}}, Fair: Part{bundle: resources.Bundle{}}}
				if weight, isSet := c.cluster.Weights[name]; isSet {
					role.Weight = float64(weight) / 1000
				}
				for scalar, amount := range c.cluster.Limits[name] {
					if role.Limit == nil {
						role.Limit = map[string]float64{}
					}
					role.Limit[scalar] = float64(amount) / 1000
				}
				byName[name], c.roles = role, append(c.roles, role)
			}
			role.Tasks += client.tasks
			role.Unmet += c.same.unmet[k]
			role.Mesos.bundle.Add(client.held)
			role.Same.bundle.Add(c.same.held[k])
			role.Fair.bundle.Add(c.fair.held[k])
		}
	}
	sort.Slice(c.roles, func(i, j int) bool { return c.roles[i].Role < c.roles[j].Role })
	for _, role := range c.roles {
		for _, part := range []*Part{&role.Mesos, &role.Same, &role.Fair} {
			scalars := scalarsOf(part.bundle)
			part.Share, part.Resources = share(scalars, c.totals), map[string]float64{}
			for key, v := range scalars {
				part.Resources[key.Name] = float64(v.Scalar) / 1000
			}
		}
	}
}

// pathOf returns a role and the roles above it.
func pathOf(role string) (path []string) {
	parts := strings.Split(role, "/")
	for count := len(parts); count > 0; count-- {
		path = append(path, strings.Join(parts[:count], "/"))
	}
	return path
}

// of returns the clients of a role and of the roles below it.
func (c *comparison) of(role *Role) (indexes []int) {
	for k, client := range c.clients {
		if resources.IsBelow(client.role, role.Role) {
			indexes = append(indexes, k)
		}
	}
	return indexes
}

// unit returns the share of the largest task among clients.
func (c *comparison) unit(indexes []int) (greatest float64) {
	for _, k := range indexes {
		if s := share(c.clients[k].mean, c.totals); s > greatest {
			greatest = s
		}
	}
	return greatest
}

// least is the largest difference of shares that the table does not show.
const least = 0.0005

// reasons says why a role in Mesos does not hold its fair part, and why tasks that it has in Mesos find no place.
func (c *comparison) reasons(role *Role) (why []Reason) {
	clients := c.of(role)
	difference := role.Mesos.Share - role.Fair.Share
	if role.Unmet > 0 {
		reason := c.blocked(role, clients, c.same)
		reason.Text = fmt.Sprintf("%d of its tasks find no place again: %s", role.Unmet, reason.Text)
		why = append(why, reason)
	}
	switch {
	case difference < least && -difference < least:
	case role.Unmet > 0 && difference > 0: // said already
	case difference <= c.unit(clients) && -difference <= c.unit(clients):
		why = append(why, Reason{Granularity, "within one task of its fair part"})
	case difference > 0:
		why = append(why, c.more(role, clients))
	default:
		why = append(why, c.less(role, clients))
	}
	return why
}

// more says why a role has more in Mesos than its fair part.
func (c *comparison) more(role *Role, clients []int) Reason {
	reason := c.blocked(role, clients, c.fair)
	if reason.Kind == Weight {
		others := c.others(role, func(other *Role) bool { return other.Fair.Share > other.Mesos.Share+least })
		reason.Text = fmt.Sprintf("more than its weight of %v gives it if %s", role.Weight, wantMore(others))
	}
	return reason
}

func wantMore(names []string) string {
	if len(names) == 0 {
		return "all want more"
	}
	if len(names) == 1 {
		return names[0] + " wants more"
	}
	return strings.Join(names, ", ") + " want more"
}

// others returns the names of the roles beside a role for which the test holds, at most three of them.
func (c *comparison) others(role *Role, test func(*Role) bool) (names []string) {
	above := func(name string) string { return name[:strings.LastIndexByte(name, '/')+1] }
	for _, other := range c.roles {
		if other != role && above(other.Role) == above(role.Role) && test(other) && len(names) < 3 {
			names = append(names, other.Role)
		}
	}
	return names
}

// less says why a role has less in Mesos than its fair part.
func (c *comparison) less(role *Role, clients []int) Reason {
	more := share(scalarsOf(reserved(role.Fair.bundle)), c.totals) - share(scalarsOf(reserved(role.Mesos.bundle)), c.totals)
	if more*2 >= role.Fair.Share-role.Mesos.Share {
		unused := resources.Bundle{}
		for _, free := range c.free {
			for key, v := range free {
				if key.Role != "*" && (resources.IsBelow(role.Role, key.Role) || resources.IsBelow(key.Role, role.Role)) {
					unused.Add(resources.Bundle{{Name: key.Name, Role: "*"}: {Scalar: v.Scalar}})
				}
			}
		}
		return Reason{Reservation, unused.Text() + " reserved for it is not used in Mesos"}
	}
	for _, k := range clients {
		for agent, free := range c.free {
			client := c.clients[k]
			if client.wantsMore && len(client.mean) > 0 && c.cluster.Agents[agent].IsActive && fits(client.mean, usable(free, client.role)) > 0 {
				return Reason{Demand, "one task more fits in Mesos, so it does not want more"}
			}
		}
	}
	others := c.others(role, func(other *Role) bool { return other.Mesos.Share > other.Fair.Share+least })
	if len(others) == 0 {
		return Reason{Granularity, "what is free in Mesos is too little for a task on any agent"}
	}
	return Reason{Weight, fmt.Sprintf("its weight of %v gives it more; more than their fair part have %s", role.Weight, strings.Join(others, ", "))}
}

func reserved(b resources.Bundle) resources.Bundle {
	own := resources.Bundle{}
	for key, v := range b {
		if key.Role != "*" {
			own[key] = v
		}
	}
	return own
}

// blocked says why clients whose wishes are not fulfilled get no more in an allocation. If nothing else applies, the reason is the weight.
func (c *comparison) blocked(role *Role, clients []int, a *allocation) Reason {
	for _, k := range clients {
		size := c.smallest(k, a)
		if size == nil {
			continue
		}
		for _, name := range pathOf(c.clients[k].role) {
			if limit := c.cluster.Limits[name]; limit != nil && c.exceeds(name, limit, size, a) {
				return Reason{Limit, fmt.Sprintf("the limit of %s, %s", name, limitText(limit))}
			}
		}
		all, own, together := false, false, resources.Bundle{}
		var others resources.Bundle
		for agent, free := range a.free {
			if !c.cluster.Agents[agent].IsActive {
				continue
			}
			available := usable(free, c.clients[k].role)
			together.Add(available)
			own = own || fits(size, available) > 0
			if fits(size, scalarsOf(free)) > 0 && others == nil {
				all, others = true, reserved(free)
			}
		}
		switch {
		case !own && all:
			return Reason{Reservation, "what is free is reserved for others: " + others.Text()}
		case !own && fits(size, together) > 0:
			return Reason{Granularity, scalarsOf(together).Text() + " is free, and on no agent enough for a task"}
		}
	}
	return Reason{Weight, "other roles come first"}
}

// smallest returns the smallest wish of a client that is not fulfilled.
func (c *comparison) smallest(k int, a *allocation) resources.Bundle {
	switch {
	case a.unmet[k] == 0:
		return nil
	case a.unmet[k] == endless:
		return c.clients[k].mean
	}
	return c.clients[k].wishes[len(c.clients[k].wishes)-1].size
}

// exceeds reports whether one more task exceeds the limit of a role.
func (c *comparison) exceeds(name string, limit map[string]uint64, size resources.Bundle, a *allocation) bool {
	consumed := resources.Bundle{}
	for k, client := range c.clients {
		if resources.IsBelow(client.role, name) {
			for key, v := range a.held[k] {
				if key.Role == "*" {
					consumed.Add(resources.Bundle{key: v})
				}
			}
		}
	}
	for _, agent := range c.cluster.Agents {
		for key, v := range agent.Total {
			if key.Role != "*" && resources.IsBelow(key.Role, name) {
				consumed.Add(resources.Bundle{{Name: key.Name, Role: "*"}: v})
			}
		}
	}
	for scalar, amount := range limit {
		key := resources.Key{Name: scalar, Role: "*"}
		if need := size[key].Scalar; need > 0 && consumed[key].Scalar+need > amount {
			return true
		}
	}
	return false
}

func limitText(limit map[string]uint64) string {
	var pieces []string
	for name, amount := range limit {
		pieces = append(pieces, name+":"+resources.AmountText(amount))
	}
	sort.Strings(pieces)
	return strings.Join(pieces, ";")
}
