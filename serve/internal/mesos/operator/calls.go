// The operator API: its calls, the rights that they need, and the answers of those that read. Outside the proof.

package operator

import (
	"context"
	"net/http"
	"sort"

	"gateway/internal/api"
	"gateway/internal/mesos/codec"
	"gateway/internal/mesos/server"
)

// invalid is the error of a call that does not pass Mesos' validation.
func invalid(format string, values ...interface{}) error {
	return api.Refuse(http.StatusBadRequest, "Failed to validate master::Call: "+format, values...)
}

// bodies are the fields that calls need.
var bodies = map[string]string{"UPDATE_WEIGHTS": "update_weights", "RESERVE_RESOURCES": "reserve_resources", "UNRESERVE_RESOURCES": "unreserve_resources",
	"SET_QUOTA": "set_quota", "UPDATE_QUOTA": "update_quota", "REMOVE_QUOTA": "remove_quota", "TEARDOWN": "teardown", "MARK_AGENT_GONE": "mark_agent_gone",
	"DRAIN_AGENT": "drain_agent", "DEACTIVATE_AGENT": "deactivate_agent", "REACTIVATE_AGENT": "reactivate_agent"}

// reads are the calls that are answered from a view.
var reads = map[string]func(*view) codec.Message{
	"GET_STATE": (*view).state, "GET_AGENTS": (*view).agents, "GET_FRAMEWORKS": (*view).frameworks, "GET_TASKS": (*view).tasks, "GET_EXECUTORS": (*view).executors,
	"GET_ROLES": (*view).roleMessages, "GET_WEIGHTS": (*view).weightMessages,
	"GET_QUOTA": func(v *view) codec.Message {
		return codec.New("mesos.master.Response.GetQuota").Set("status", v.quotaStatus())
	},
	"GET_OPERATIONS": func(*view) codec.Message { return codec.New("mesos.master.Response.GetOperations") }, // there are none
}

// change is a call that changes something, and the status of its answer.
type change struct {
	status int
	apply  func(*Operator, context.Context, *api.Call, codec.Message) error
}

var changes = map[string]change{
	"UPDATE_WEIGHTS":      {http.StatusOK, (*Operator).updateWeights},
	"UPDATE_QUOTA":        {http.StatusOK, (*Operator).updateQuota},
	"SET_QUOTA":           {http.StatusOK, (*Operator).setQuota},
	"REMOVE_QUOTA":        {http.StatusOK, (*Operator).removeQuota},
	"RESERVE_RESOURCES":   {http.StatusAccepted, (*Operator).reserveResources},
	"UNRESERVE_RESOURCES": {http.StatusAccepted, (*Operator).unreserveResources},
	"TEARDOWN":            {http.StatusOK, (*Operator).tearDown},
	"DEACTIVATE_AGENT":    {http.StatusOK, (*Operator).deactivateAgent},
	"REACTIVATE_AGENT":    {http.StatusOK, (*Operator).reactivateAgent},
	"DRAIN_AGENT":         {http.StatusOK, (*Operator).drainAgent},
	"MARK_AGENT_GONE":     {http.StatusOK, (*Operator).markAgentGone},
}

// call answers POST /api/v1.
func (o *Operator) call(c *api.Call) error {
	call, err := server.ReadCall(c, "mesos.master.Call")
	if err != nil {
		return err
	}
	form, err := codec.Accepts(c.R.Header.Get("Accept"), c.R.Header.Get("Message-Accept"))
	if err != nil {
		return api.Refuse(http.StatusNotAcceptable, "%v", err)
	}
	kind, is := call.Name("type")
	switch {
	case !is:
		return invalid("Expecting 'type' to be present")
	case !call.Has("type"): // in JSON, a name that Mesos does not have
		return api.Refuse(http.StatusBadRequest, "Failed to convert JSON into Call protobuf: Failed to find enum for '%s'", kind)
	case form.Framed && kind != "SUBSCRIBE":
		return api.Refuse(http.StatusNotAcceptable, "%v", codec.ErrNotAcceptable)
	}
	if body := bodies[kind]; body != "" && !call.Has(body) {
		return invalid("Expecting '%s' to be present", body)
	}
	if one, is := changes[kind]; is {
		if err := one.apply(o, c.R.Context(), c, call); err != nil {
			return err
		}
		c.W.WriteHeader(one.status)
		return nil
	}
	if err := mayRead(c); err != nil {
		return err
	}
	if kind == "SUBSCRIBE" {
		return o.subscribe(c, form)
	}
	answer, err := o.read(c.R.Context(), kind, call)
	if err == nil {
		send(c, form, answer)
	}
	return err
}

// read answers a call that changes nothing.
func (o *Operator) read(ctx context.Context, kind string, call codec.Message) (codec.Message, error) {
	m := codec.New("mesos.master.Response")
	switch kind {
	case "GET_HEALTH":
		return m.Set("type", kind).Set("get_health.healthy", o.server.Ready() == nil), nil
	case "GET_VERSION":
		return m.Set("type", kind).Set("get_version.version_info.version", server.Version), nil
	case "GET_FLAGS":
		flags := codec.New("mesos.master.Response.GetFlags")
		for _, name := range sortedKeys(o.config.Flags) {
			flags.Add("flags", codec.New("mesos.Flag").Set("name", name).Set("value", o.config.Flags[name]))
		}
		return m.Set("type", kind).Set("get_flags", flags), nil
	case "GET_MASTER":
		return m.Set("type", kind).Set("get_master.master_info", o.server.MasterInfo()), nil
	case "GET_METRICS":
		return o.metrics(ctx, m, call)
	}
	render := reads[kind]
	if render == nil {
		return m, api.Refuse(http.StatusNotImplemented, "%s is not supported", kind)
	}
	v, err := o.view(ctx)
	if err != nil {
		return m, err
	}
	return m.Set("type", kind).Set(fieldOf[kind], render(v)), nil
}

// fieldOf is the field of a response.
var fieldOf = map[string]string{"GET_STATE": "get_state", "GET_AGENTS": "get_agents", "GET_FRAMEWORKS": "get_frameworks", "GET_TASKS": "get_tasks",
	"GET_EXECUTORS": "get_executors", "GET_ROLES": "get_roles", "GET_WEIGHTS": "get_weights", "GET_QUOTA": "get_quota", "GET_OPERATIONS": "get_operations"}

func (o *Operator) metrics(ctx context.Context, m, call codec.Message) (codec.Message, error) {
	if timeout := call.Int("get_metrics.timeout.nanoseconds"); timeout < 0 {
		return m, api.Refuse(http.StatusBadRequest, "the timeout %d is negative", timeout)
	}
	figures, err := o.figures(ctx)
	if err != nil {
		return m, err
	}
	names := make([]string, 0, len(figures))
	for name := range figures {
		names = append(names, name)
	}
	sort.Strings(names)
	list := codec.New("mesos.master.Response.GetMetrics")
	for _, name := range names {
		list.Add("metrics", codec.New("mesos.Metric").Set("name", name).Set("value", figures[name]))
	}
	return m.Set("type", "GET_METRICS").Set("get_metrics", list), nil
}
