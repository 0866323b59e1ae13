// The classic endpoints that read: `/state`, `/slaves` and their like. Outside the proof.

package operator

import (
	"encoding/json"
	"net/http"
	"net/url"
	"sort"
	"strconv"

	"gateway/internal/api"
	"gateway/internal/mesos/codec"
	"gateway/internal/mesos/server"
	"gateway/internal/registry/mesos"
)

type object = map[string]interface{}

// sendJSON writes an answer as JSON.
func sendJSON(c *api.Call, value interface{}) error {
	c.W.Header().Set("Content-Type", "application/json")
	writer := json.NewEncoder(c.W)
	writer.SetEscapeHTML(false)
	return writer.Encode(value)
}

// classic are the endpoints that are answered from a view.
var classic = map[string]func(*Operator, *view, url.Values) interface{}{
	"/state":         func(o *Operator, v *view, _ url.Values) interface{} { return o.wholeState(v) },
	"/state-summary": func(o *Operator, v *view, _ url.Values) interface{} { return o.summary(v) },
	"/slaves": func(_ *Operator, v *view, q url.Values) interface{} {
		return object{"slaves": v.classicAgents(q.Get("slave_id")), "recovered_slaves": []object{}}
	},
	"/frameworks": func(_ *Operator, v *view, q url.Values) interface{} {
		frameworks, completed := v.classicFrameworks(q.Get("framework_id"))
		return object{"frameworks": frameworks, "completed_frameworks": completed, "unregistered_frameworks": []string{}}
	},
	"/tasks": func(_ *Operator, v *view, q url.Values) interface{} { return object{"tasks": v.page(q)} },
	"/roles": func(_ *Operator, v *view, _ url.Values) interface{} { return object{"roles": v.classicRoles()} },
}

func (o *Operator) classic(render func(*Operator, *view, url.Values) interface{}) func(*api.Call) error {
	return func(c *api.Call) error {
		if err := mayRead(c); err != nil {
			return err
		}
		v, err := o.view(c.R.Context())
		if err != nil {
			return err
		}
		return sendJSON(c, render(o, v, c.R.URL.Query()))
	}
}

func (o *Operator) version(c *api.Call) error { return sendJSON(c, object{"version": server.Version}) }

// redirect answers as a leading master does, because any gateway takes any call.
func redirect(c *api.Call) error {
	c.W.Header().Set("Location", "//"+c.R.Host)
	c.W.WriteHeader(http.StatusTemporaryRedirect)
	return nil
}

func (o *Operator) flags(c *api.Call) error {
	if err := mayRead(c); err != nil {
		return err
	}
	return sendJSON(c, object{"flags": o.config.Flags})
}

// seconds writes a time in milliseconds as Mesos does.
func seconds(ms int64) float64 { return float64(ms) / 1000 }

// about is the part about the master in the whole state and in its summary.
func (o *Operator) about(v *view) object {
	master := o.server.MasterInfo()
	return object{"hostname": master.Text("hostname"), "id": v.Cluster, "pid": master.Text("pid"), "leader": master.Text("pid"),
		"leader_info": object{"id": v.Cluster, "pid": master.Text("pid"), "port": master.Uint("port"), "hostname": master.Text("hostname")}}
}

func (o *Operator) wholeState(v *view) object {
	frameworks, completed := v.classicFrameworks("")
	all, agents, started := o.about(v), v.classicAgents(""), float64(o.started.UnixMilli())/1000
	active := 0
	for _, a := range agents {
		if a["active"] == true {
			active++
		}
	}
	for name, value := range (object{"version": server.Version, "start_time": started, "elected_time": started, "capabilities": []string{"AGENT_UPDATE", "AGENT_DRAINING", "QUOTA_V2"},
		"activated_slaves": active, "deactivated_slaves": len(agents) - active, "unreachable_slaves": 0, "flags": o.config.Flags, "slaves": agents, "recovered_slaves": []object{},
		"frameworks": frameworks, "completed_frameworks": completed, "orphan_tasks": []object{}, "unregistered_frameworks": []string{}}) {
		all[name] = value
	}
	return all
}

// summary counts tasks where the whole state lists them.
func (o *Operator) summary(v *view) object {
	byAgent, byFramework, counts := map[string]map[string]bool{}, map[string]map[string]bool{}, map[string]map[string]int{}
	count := func(key, state string) {
		if counts[key] == nil {
			counts[key] = map[string]int{}
		}
		counts[key][state]++
	}
	link := func(m map[string]map[string]bool, key, to string) {
		if m[key] == nil {
			m[key] = map[string]bool{}
		}
		m[key][to] = true
	}
	add := func(framework, agent, state string) {
		count("f/"+framework, state)
		count("a/"+agent, state)
		link(byAgent, agent, framework)
		link(byFramework, framework, agent)
	}
	for _, f := range v.Frameworks {
		for _, t := range f.Tasks {
			add(f.ID, t.Agent, t.State)
		}
	}
	for _, t := range v.Completed {
		add(t.Framework, t.Agent, t.State)
	}
	all := o.about(v)
	agents := []object{}
	for _, a := range v.Agents {
		one := v.agentSummary(a)
		one["framework_ids"] = sortedSet(byAgent[a.ID])
		addCounts(one, counts["a/"+a.ID])
		agents = append(agents, one)
	}
	frameworks := []object{}
	for _, f := range v.Frameworks {
		one := v.frameworkSummary(f)
		one["slave_ids"] = sortedSet(byFramework[f.ID])
		addCounts(one, counts["f/"+f.ID])
		frameworks = append(frameworks, one)
	}
	all["slaves"], all["frameworks"] = agents, frameworks
	return all
}

// taskStates are the states of tasks, as Mesos names them.
var taskStates = []string{"TASK_STAGING", "TASK_STARTING", "TASK_RUNNING", "TASK_KILLING", "TASK_FINISHED", "TASK_KILLED", "TASK_FAILED", "TASK_LOST", "TASK_ERROR",
	"TASK_UNREACHABLE", "TASK_DROPPED", "TASK_GONE", "TASK_GONE_BY_OPERATOR"}

func addCounts(m object, counts map[string]int) {
	for _, state := range taskStates {
		m[state] = counts[state]
	}
}

func sortedSet(set map[string]bool) []string {
	list := []string{}
	for one := range set {
		list = append(list, one)
	}
	sort.Strings(list)
	return list
}

// page returns a page of tasks, the latest first unless the caller asks for another order. As in Mesos, an invalid number means the default.
func (v *view) page(q url.Values) []object {
	type dated struct {
		at   int64
		task func() object
	}
	framework, task := q.Get("framework_id"), q.Get("task_id")
	var all []dated
	for k := range v.Frameworks {
		f := &v.Frameworks[k]
		for n := range f.Tasks {
			if t := &f.Tasks[n]; (framework == "" || framework == f.ID) && (task == "" || task == t.Task) {
				all = append(all, dated{first(t.Moments), func() object { return classicTask(taskMessage(&f.Framework, t), t.Role) }})
			}
		}
	}
	for k := range v.Completed {
		if t := &v.Completed[k]; (framework == "" || framework == t.Framework) && (task == "" || task == t.Task) {
			all = append(all, dated{first(t.Moments), func() object { return classicTask(completedMessage(*t), t.Role) }})
		}
	}
	isAscending := q.Get("order") == "asc"
	sort.SliceStable(all, func(i, j int) bool { return all[i].at != all[j].at && all[i].at < all[j].at == isAscending })
	offset, limit := numberOr(q.Get("offset"), 0), numberOr(q.Get("limit"), 100)
	tasks := []object{}
	for k := offset; k < len(all) && len(tasks) < limit; k++ {
		tasks = append(tasks, all[k].task())
	}
	return tasks
}

// first returns the time of a task's first status, or 0.
func first(moments []mesos.Moment) int64 {
	if len(moments) == 0 {
		return 0
	}
	return moments[0].At
}

func numberOr(text string, other int) int {
	if number, err := strconv.Atoi(text); err == nil && number >= 0 {
		return number
	}
	return other
}

// raw writes a message into a value that is written as JSON.
func raw(m codec.Message) json.RawMessage { return m.JSON() }
