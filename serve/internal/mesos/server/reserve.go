// RESERVE and UNRESERVE in an ACCEPT. Outside the proof.

package server

import (
	"net/http"
	"strings"

	"gateway/internal/api"
	"gateway/internal/mesos/codec"
	"gateway/internal/mesos/resources"
)

// move adds the line of a reservation; the resources of the offers are free before it. If it is refused, the whole call is refused.
func (a *acceptance) move(op codec.Message) error {
	kind := op.Enum("type")
	list := op.List(strings.ToLower(kind) + ".resources")
	refuse := func(status int, format string, values ...interface{}) error {
		return api.Refuse(status, kind+": "+format+"; nothing of this call was done", values...)
	}
	switch {
	case a.invalid != "":
		return refuse(http.StatusBadRequest, "%s", a.invalid)
	case len(a.note.Launches) > 0:
		return refuse(http.StatusNotImplemented, "after LAUNCH it is not supported")
	case !contains(a.Roles, a.role) || a.role == "*" || !a.by.Has("role", a.role):
		return refuse(http.StatusForbidden, "the framework may not reserve for the role '%s'", a.role)
	}
	for _, m := range list {
		if problem := a.reservationProblem(m); problem != "" {
			return refuse(http.StatusBadRequest, "resource '%s': %s", m.Text("name"), problem)
		}
	}
	reserved, err := resources.FromMessages(list)
	if err != nil {
		return refuse(http.StatusBadRequest, "%v", err)
	}
	free := resources.Bundle{}
	for _, key := range reserved.Keys() {
		if key.Role != a.role {
			return refuse(http.StatusBadRequest, "resource '%s': it is allocated to role '%s', and its reservation is for role '%s'", key.Name, a.role, key.Role)
		}
		free.Add(resources.Bundle{resources.Key{Name: key.Name, Role: "*"}: reserved[key]})
	}
	from, to := free, reserved
	if kind == "UNRESERVE" {
		from, to = reserved, free
	}
	if missing := a.missing(from); len(missing) > 0 {
		return refuse(http.StatusBadRequest, "the offers do not have %s", missing.Text())
	}
	wanted := from.Copy()
	for _, p := range a.parts {
		p.left.Take(wanted)
	}
	if len(a.parts) > 0 && len(from) > 0 {
		a.parts[0].left.Add(to) // so that an operation may follow which is of these
		a.moves = append(a.moves, map[string]interface{}{"event": strings.ToLower(kind), "agent": a.agent, "role": a.role, "resources": free.Text()})
	}
	return nil
}

// reservationProblem returns which part of a resource's reservation is not supported, or an empty text.
func (a *acceptance) reservationProblem(m codec.Message) string {
	infos := m.List("reservations")
	if m.Has("reservation") {
		infos = append(infos, m.Sub("reservation"))
	}
	for _, info := range infos {
		principal := info.Text("principal")
		switch {
		case info.Has("labels"):
			return "labels of reservations are not supported"
		case info.Has("principal") && principal != a.by.Name:
			return "the reservation's principal is '" + principal + "', and the caller's '" + a.by.Name + "'"
		case info.Enum("type") == "STATIC":
			return "a reservation by a framework is DYNAMIC, not STATIC"
		}
	}
	if role := m.Text("allocation_info.role"); m.Has("allocation_info") && role != a.role {
		return "it is allocated to role '" + role + "', and the offers to role '" + a.role + "'"
	}
	return ""
}
