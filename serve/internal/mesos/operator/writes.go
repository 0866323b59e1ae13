// Operators' changes in the allocator: weights, limits, reservations and frameworks. Each becomes event lines, and needs the rights that our own
// API requires for these lines. Outside the proof.

package operator

import (
	"context"
	"encoding/json"
	"errors"
	"fmt"
	"net/http"
	"sort"
	"strconv"
	"strings"

	"gateway/internal/api"
	"gateway/internal/mesos/codec"
	"gateway/internal/mesos/resources"
	"gateway/internal/mesos/server"
)

// Errors of resources that are to be reserved or unreserved.
var (
	errNotReserved = errors.New("the resources are not reserved: expected `reservations` with a role, or `role` with `reservation`")
	errLabels      = errors.New("labels of reservations are not supported")
	errStatic      = errors.New("a reservation by a call is DYNAMIC, not STATIC")
)

// mayAppend returns an error unless a caller has the rights to send some lines.
func mayAppend(c *api.Call, lines ...server.Line) error {
	for _, one := range lines {
		text, err := json.Marshal(one)
		if err != nil {
			return err
		}
		if _, err := c.By().Judge(text); err != nil {
			return api.Refuse(http.StatusForbidden, "%v", err)
		}
	}
	return nil
}

// refusals are the texts for the allocator's refusals, with their statuses.
var refusals = map[string]struct {
	status int
	text   string
}{
	"UnknownAgent":     {http.StatusBadRequest, "No agent found with specified ID"},
	"UnknownFramework": {http.StatusBadRequest, "No framework found with specified ID"},
	"DefaultRole":      {http.StatusBadRequest, "the default role '*' can have neither a limit nor a reservation"},
	"Empty":            {http.StatusBadRequest, "no resources are named"},
	"NotUnreserved":    {http.StatusBadRequest, "the resources name a reservation"},
	"BadWeight":        {http.StatusBadRequest, "a weight is from 0.001 to 1000"},
	"BadText":          {http.StatusBadRequest, "a name, a role or an amount is not valid"},
	"TooLarge":         {http.StatusBadRequest, "an amount is too large"},
	"NotCovered":       {http.StatusConflict, "the agent does not have these resources, or they are in use"},
	"OverLimit":        {http.StatusConflict, "the reservation would take the role, or a role above it, over its quota limit"},
	"TooMany":          {http.StatusConflict, "the allocator's table is full"},
	"HistoryFull":      {http.StatusServiceUnavailable, "the allocator's history is full: try again when a new epoch has begun"},
}

// refusalOf returns the answer to a refusal of the allocator's.
func refusalOf(name string, line server.Line) error {
	about, is := refusals[name]
	if !is {
		about.status, about.text = http.StatusConflict, "the allocator refused it"
	}
	return api.Refuse(about.status, "%v: %s (%s)", line["event"], about.text, name)
}

// apply appends lines that a caller has the rights to send. The first refusal is the answer.
func (o *Operator) apply(ctx context.Context, c *api.Call, lines ...server.Line) error {
	if err := mayAppend(c, lines...); err != nil {
		return err
	}
	if len(lines) == 0 {
		return nil
	}
	answers, err := o.server.Append(ctx, lines)
	if err != nil {
		return err
	}
	for k, answer := range answers {
		if answer != "ok" {
			return refusalOf(answer, lines[k])
		}
	}
	return nil
}

// checkRole returns an error unless a role can have what a call gives it.
func checkRole(role string) error {
	switch {
	case role == "":
		return invalid("a role is missing")
	case !resources.IsRole(role):
		return invalid("the role '%s' is not valid: expected 1 to 8 parts of visible characters without ( ) : ;, at most 64 bytes", role)
	}
	return nil
}

func (o *Operator) updateWeights(ctx context.Context, c *api.Call, call codec.Message) error {
	return o.setWeights(ctx, c, call.List("update_weights.weight_infos"))
}

func (o *Operator) setWeights(ctx context.Context, c *api.Call, infos []codec.Message) error {
	var lines []server.Line
	for _, one := range infos {
		role, weight := one.Text("role"), one.Float("weight")
		if err := checkRole(role); err != nil {
			return err
		}
		if !(weight >= 0.001 && weight <= 1000) {
			return invalid("Invalid weight '%v' for role '%s': expected a number from 0.001 to 1000", weight, role)
		}
		lines = append(lines, server.Line{"event": "set_weight", "role": role, "weight": strconv.FormatFloat(weight, 'f', 3, 64)})
	}
	if len(lines) == 0 {
		return mayAppend(c, server.Line{"event": "set_weight"})
	}
	return o.apply(ctx, c, lines...)
}

const noGuarantees = "guarantees are not supported: this allocator has quota limits, and reservations set resources aside (RESERVE_RESOURCES)"

func (o *Operator) updateQuota(ctx context.Context, c *api.Call, call codec.Message) error {
	return o.setLimits(ctx, c, call.List("update_quota.quota_configs"), call.Bool("update_quota.force"))
}

// setLimits sets the limits of roles. An empty list of limits removes those of its role. As in Mesos, a limit below a role's consumption needs
// force.
func (o *Operator) setLimits(ctx context.Context, c *api.Call, configs []codec.Message, isForced bool) error {
	if err := mayAppend(c, server.Line{"event": "set_limit"}); err != nil {
		return err
	}
	var lines []server.Line
	for _, one := range configs {
		role, pieces := one.Text("role"), []string(nil)
		if err := checkRole(role); err != nil {
			return err
		}
		if role == "*" {
			return invalid("the default role '*' cannot have quota")
		}
		for name, amount := range one.Map("guarantees") {
			if amount.Float("value") != 0 {
				return api.Refuse(http.StatusNotImplemented, "role '%s', '%s': %s", role, name, noGuarantees)
			}
		}
		for name, amount := range one.Map("limits") {
			thousandths, err := resources.Thousandths(amount.Float("value"))
			if err != nil {
				return invalid("the limit of '%s' for role '%s': %v", name, role, err)
			}
			pieces = append(pieces, name+":"+strconv.FormatFloat(float64(thousandths)/1000, 'f', -1, 64))
		}
		sort.Strings(pieces)
		lines = append(lines, server.Line{"event": "set_limit", "role": role, "limit": strings.Join(pieces, ";")})
	}
	if !isForced && len(configs) > 0 {
		v, err := o.view(ctx)
		if err != nil {
			return err
		}
		if err := v.rows.checkLimits(configs); err != nil {
			return err
		}
	}
	return o.apply(ctx, c, lines...)
}

// checkLimits returns an error for a limit below the consumption of its role.
func (r *rows) checkLimits(configs []codec.Message) error {
	for _, one := range configs {
		role := one.Text("role")
		consumed := scalars(r.consumed(role))
		for name, limit := range one.Map("limits") {
			if consumed[name] > limit.Float("value") {
				return api.Refuse(http.StatusBadRequest, "Invalid QuotaConfig: Role '%s' is already consuming %v of '%s'; this exceeds the requested limit %v (use 'force' to bypass this check)",
					role, consumed[name], name, limit.Float("value"))
			}
		}
	}
	return nil
}

func (o *Operator) setQuota(_ context.Context, c *api.Call, _ codec.Message) error {
	if err := mayAppend(c, server.Line{"event": "set_limit"}); err != nil {
		return err
	}
	return api.Refuse(http.StatusNotImplemented, "SET_QUOTA: %s", noGuarantees+"; UPDATE_QUOTA sets limits")
}

func (o *Operator) removeQuota(ctx context.Context, c *api.Call, call codec.Message) error {
	return o.removeLimit(ctx, c, call.Text("remove_quota.role"))
}

func (o *Operator) removeLimit(ctx context.Context, c *api.Call, role string) error {
	line := server.Line{"event": "set_limit", "role": role, "limit": ""}
	if err := mayAppend(c, line); err != nil {
		return err
	}
	if err := checkRole(role); err != nil {
		return err
	}
	v, err := o.view(ctx)
	if err != nil {
		return err
	}
	if _, has := v.rows.limits[role]; !has {
		return api.Refuse(http.StatusBadRequest, "Failed to remove quota: role '%s' has no quota set", role)
	}
	return o.apply(ctx, c, line)
}

func (o *Operator) reserveResources(ctx context.Context, c *api.Call, call codec.Message) error {
	return o.move(ctx, c, "reserve", call.Text("reserve_resources.agent_id.value"), call.List("reserve_resources.resources"))
}

func (o *Operator) unreserveResources(ctx context.Context, c *api.Call, call codec.Message) error {
	return o.move(ctx, c, "unreserve", call.Text("unreserve_resources.agent_id.value"), call.List("unreserve_resources.resources"))
}

// moveTries is how often a reservation is tried, if new offers take resources for which others had been rescinded.
const moveTries = 5

// move makes or ends reservations on an agent. If too little is free, it rescinds offers there, as Mesos does.
func (o *Operator) move(ctx context.Context, c *api.Call, event, agent string, list []codec.Message) error {
	if err := mayAppend(c, server.Line{"event": event}); err != nil {
		return err
	}
	principal := ""
	if event == "reserve" {
		principal = c.By().Name
	}
	wanted, err := readReservations(list, principal)
	if err != nil {
		return invalid("%v", err)
	}
	for try := 1; ; try++ {
		v, err := o.view(ctx)
		if err != nil {
			return err
		}
		if _, is := v.rows.agents[agent]; !is {
			return api.Refuse(http.StatusBadRequest, "No agent found with specified ID")
		}
		lines, isThere := v.rows.rescinds(event, agent, wanted)
		first := len(lines)
		for _, role := range sortedRoles(wanted) {
			lines = append(lines, server.Line{"event": event, "agent": agent, "role": role, "resources": wanted[role].Text()})
		}
		answers, err := o.server.Append(ctx, lines)
		if err != nil || len(answers) == 0 {
			return err
		}
		refused := error(nil)
		for k, answer := range answers[first:] {
			if answer != "ok" && refused == nil {
				refused = refusalOf(answer, lines[first+k])
				isThere = isThere && answer == "NotCovered"
			} else if answer == "ok" {
				delete(wanted, lines[first+k]["role"].(string))
			}
		}
		if refused == nil || !isThere || try == moveTries {
			return refused
		}
	}
}

// rescinds returns lines that rescind enough offers on an agent for a move, and whether that is possible. If not, there are no lines.
func (r *rows) rescinds(event, agent string, wanted byRole) (lines []server.Line, isThere bool) {
	missing := resources.Bundle{}
	for role, some := range wanted {
		for key, value := range some {
			if event == "unreserve" {
				key.Role = role
			}
			missing.Add(resources.Bundle{key: value})
		}
	}
	r.free(agent).Take(missing)
	for _, offer := range r.offers[agent] {
		if len(missing) > 0 && len(offer.resources.Copy().Take(missing)) > 0 {
			lines = append(lines, server.Line{"event": "rescind", "offer": offer.number})
		}
	}
	if len(missing) > 0 {
		return nil, false
	}
	return lines, true
}

// readReservations reads resources by the role that they are reserved for, in the older or the newer form, or in both as they are read. What
// is not kept of a reservation is an error. A principal is that of the caller, or empty where any may be named.
func readReservations(list []codec.Message, principal string) (byRole, error) {
	var some []codec.Message
	for _, one := range list {
		infos := one.List("reservations")
		if one.Has("reservation") {
			infos = append(infos, one.Sub("reservation"))
		}
		for _, info := range infos {
			switch {
			case info.Has("labels"):
				return nil, errLabels
			case principal != "" && info.Has("principal") && info.Text("principal") != principal:
				return nil, fmt.Errorf("the reservation's principal is '%s', and the caller's '%s'", info.Text("principal"), principal)
			case principal != "" && info.Enum("type") == "STATIC":
				return nil, errStatic
			}
		}
		if one = one.Clone(); len(one.List("reservations")) > 0 {
			one.Clear("role")
			one.Clear("reservation")
		}
		some = append(some, one)
	}
	bundle, err := resources.FromMessages(some)
	switch {
	case err != nil:
		return nil, err
	case len(unreserved(bundle)) > 0:
		return nil, errNotReserved
	}
	return reservations(bundle), nil
}

func (o *Operator) tearDown(ctx context.Context, c *api.Call, call codec.Message) error {
	return o.removeFramework(ctx, c, call.Text("teardown.framework_id.value"))
}

// removeFramework removes a framework, and ends its tasks.
func (o *Operator) removeFramework(ctx context.Context, c *api.Call, id string) error {
	if err := o.server.CatchUp(ctx); err != nil {
		return err
	}
	name, is := "", false
	o.state.Read(func() {
		if f := o.state.Frameworks[id]; f != nil {
			name, is = f.Name, true
		}
	})
	if !is {
		if err := mayAppend(c, server.Line{"event": "remove_framework", "framework": id}); err != nil {
			return err
		}
		return api.Refuse(http.StatusBadRequest, "No framework found with specified ID")
	}
	if err := mayAppend(c, server.Line{"event": "remove_framework", "framework": name}); err != nil {
		return err
	}
	return o.server.Teardown(ctx, id)
}
