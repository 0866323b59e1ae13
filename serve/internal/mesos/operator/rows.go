// The allocator's rows, summed up as operators ask for them. Outside the proof.

package operator

import (
	"encoding/json"
	"sort"
	"strconv"
	"strings"

	"gateway/internal/mesos/codec"
	"gateway/internal/mesos/resources"
)

// byRole is resources by the role that they are allocated to.
type byRole map[string]resources.Bundle

func (b byRole) add(role string, more resources.Bundle) {
	if b[role] == nil {
		b[role] = resources.Bundle{}
	}
	b[role].Add(more)
}

// sum returns the resources of all roles.
func (b byRole) sum() resources.Bundle {
	all := resources.Bundle{}
	for _, one := range b {
		all.Add(one)
	}
	return all
}

// agentRow is an agent as the allocator has it.
type agentRow struct {
	total    resources.Bundle
	isActive bool
}

// offerRow is an offer as the allocator has it.
type offerRow struct {
	number    uint64
	resources resources.Bundle
}

// rows is the content of the allocator's state.
type rows struct {
	agents            map[string]agentRow
	used, offered     map[string]byRole // by agent
	usedBy, offeredTo map[string]byRole // by the allocator's name of a framework
	usedIn, offeredIn byRole
	offers            map[string][]offerRow // by agent, in order
	weights           map[string]string
	limits            map[string]string
	filters           map[string]int // by role
}

func readRows(text string) *rows {
	r := &rows{agents: map[string]agentRow{}, used: map[string]byRole{}, offered: map[string]byRole{}, usedBy: map[string]byRole{}, offeredTo: map[string]byRole{},
		usedIn: byRole{}, offeredIn: byRole{}, offers: map[string][]offerRow{}, weights: map[string]string{}, limits: map[string]string{}, filters: map[string]int{}}
	for _, line := range strings.Split(text, "\n") {
		var one struct {
			Row, Agent, Framework, Role, Total, Use, Resources, Weight, Limit string
			Active                                                            bool
			Offer                                                             uint64
		}
		if json.Unmarshal([]byte(line), &one) != nil {
			continue
		}
		switch one.Row {
		case "agent":
			r.agents[one.Agent] = agentRow{parse(one.Total), one.Active}
		case "weight":
			r.weights[one.Role] = one.Weight
		case "limit":
			r.limits[one.Role] = one.Limit
		case "filter":
			r.filters[one.Role]++
		case "task":
			use := parse(one.Use)
			addTo(r.used, one.Agent, one.Role, use)
			addTo(r.usedBy, one.Framework, one.Role, use)
			r.usedIn.add(one.Role, use)
		case "offer":
			some := parse(one.Resources)
			addTo(r.offered, one.Agent, one.Role, some)
			addTo(r.offeredTo, one.Framework, one.Role, some)
			r.offeredIn.add(one.Role, some)
			r.offers[one.Agent] = append(r.offers[one.Agent], offerRow{one.Offer, some})
		}
	}
	return r
}

// parse reads the allocator's rows.
func parse(text string) resources.Bundle {
	b, _ := resources.Parse(text)
	return b
}

func addTo(m map[string]byRole, key, role string, more resources.Bundle) {
	if m[key] == nil {
		m[key] = byRole{}
	}
	m[key].add(role, more)
}

// free returns the resources of an agent that are neither used nor offered.
func (r *rows) free(agent string) resources.Bundle {
	free := r.agents[agent].total.Copy()
	free.Take(r.used[agent].sum())
	free.Take(r.offered[agent].sum())
	return free
}

// weight returns the weight of a role.
func (r *rows) weight(role string) float64 {
	if text, is := r.weights[role]; is {
		weight, _ := strconv.ParseFloat(text, 64)
		return weight
	}
	return 1
}

// limit returns the amounts of a role's limit, which may be 0.
func (r *rows) limit(role string) map[string]float64 {
	amounts := map[string]float64{}
	for _, piece := range strings.Split(r.limits[role], ";") {
		if name, amount, is := strings.Cut(piece, ":"); is {
			amounts[name], _ = strconv.ParseFloat(amount, 64)
		}
	}
	return amounts
}

// isIn reports whether a role is another role, or below it.
func isIn(role, above string) bool { return role == above || strings.HasPrefix(role, above+"/") }

// consumed returns the consumption, in Mesos' sense, of a role and those below it: unreserved resources that tasks use, and everything that is
// reserved. In the allocator, offers count too.
func (r *rows) consumed(role string) resources.Bundle {
	all := resources.Bundle{}
	for of, bundle := range r.usedIn {
		if isIn(of, role) {
			all.Add(unreserved(bundle))
		}
	}
	for of, bundle := range r.reserved() {
		if isIn(of, role) {
			all.Add(bundle)
		}
	}
	return all
}

// reserved returns the reservations of all agents, by role, as unreserved resources.
func (r *rows) reserved() byRole {
	all := byRole{}
	for _, a := range r.agents {
		for role, bundle := range reservations(a.total) {
			all.add(role, bundle)
		}
	}
	return all
}

func unreserved(b resources.Bundle) resources.Bundle {
	some := resources.Bundle{}
	for key, value := range b {
		if key.Role == "*" {
			some[key] = value
		}
	}
	return some
}

// reservations returns the reservations, by role, as unreserved resources.
func reservations(b resources.Bundle) byRole {
	all := byRole{}
	for key, value := range b {
		if key.Role != "*" {
			all.add(key.Role, resources.Bundle{resources.Key{Name: key.Name, Role: "*"}: value})
		}
	}
	return all
}

// messages writes resources as the operator API does: reservations in the older and in the newer form, and the role of an allocation.
func messages(b resources.Bundle, allocated string) []codec.Message {
	list := b.Messages(resources.Style{Allocated: allocated})
	for _, one := range list {
		if role := one.Text("role"); role != "*" {
			one.Add("reservations", codec.New("mesos.Resource.ReservationInfo").Set("type", "DYNAMIC").Set("role", role))
		}
	}
	return list
}

// allocations writes the resources of several roles.
func allocations(b byRole) (list []codec.Message) {
	for _, role := range sortedRoles(b) {
		list = append(list, messages(b[role], role)...)
	}
	return list
}

func sortedRoles(b byRole) []string {
	roles := make([]string, 0, len(b))
	for role := range b {
		roles = append(roles, role)
	}
	sort.Strings(roles)
	return roles
}
