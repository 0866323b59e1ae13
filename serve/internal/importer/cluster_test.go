// Documents of random clusters, and of states of the allocator. Outside the proof.

package importer

import (
	"bytes"
	"encoding/json"
	"fmt"
	"math/rand"
	"strconv"
	"strings"
	"testing"

	"gateway/internal/mesos/resources"
)

type stateDocument struct {
	Version    string              `json:"version"`
	Slaves     []slaveDocument     `json:"slaves"`
	Frameworks []frameworkDocument `json:"frameworks"`
}

type slaveDocument struct {
	ID         string                    `json:"id"`
	IsActive   bool                      `json:"active"`
	Resources  map[string]any            `json:"resources"`
	Used       map[string]any            `json:"used_resources"`
	Unreserved map[string]any            `json:"unreserved_resources"`
	Reserved   map[string]map[string]any `json:"reserved_resources"`
	UsedFull   []map[string]any          `json:"used_resources_full"`

	tasks int
	free  resources.Bundle // over all reservations
}

type frameworkDocument struct {
	ID         string         `json:"id"`
	IsActive   bool           `json:"active"`
	Roles      []string       `json:"roles"`
	Suppressed []string       `json:"suppressed_roles,omitempty"`
	Tasks      []taskDocument `json:"tasks"`
}

type taskDocument struct {
	ID        string         `json:"id"`
	Slave     string         `json:"slave_id"`
	State     string         `json:"state"`
	Role      string         `json:"role"`
	Resources map[string]any `json:"resources"`
}

// summaryOf returns resources as a master sums them up.
func summaryOf(b resources.Bundle) map[string]any {
	sums := resources.Bundle{}
	for key, v := range b {
		sums.Add(resources.Bundle{{Name: key.Name, Role: "*"}: v})
	}
	summary := map[string]any{}
	for key, v := range sums {
		text := strings.TrimPrefix((resources.Bundle{key: v}).Text(), key.Name+":")
		if summary[key.Name] = any(text); v.Scalar > 0 {
			summary[key.Name] = json.Number(text)
		}
	}
	return summary
}

func bundleOf(t *testing.T, summary map[string]any) resources.Bundle {
	t.Helper()
	var pieces []string
	for name, amount := range summary {
		pieces = append(pieces, fmt.Sprintf("%s:%v", name, amount))
	}
	b, err := resources.Parse(strings.Join(pieces, ";"))
	if err != nil {
		t.Fatal(err)
	}
	return b
}

// summed returns a text of the allocator without reservations.
func summed(t *testing.T, text string) string {
	t.Helper()
	b, err := resources.Parse(text)
	if err != nil {
		t.Fatal(err)
	}
	return bundleOf(t, summaryOf(b)).Text()
}

// fullOf returns resources that are allocated to a role as messages.
func fullOf(b resources.Bundle, role string) (list []map[string]any) {
	for _, key := range b.Keys() {
		v, m := b[key], map[string]any{"name": key.Name, "role": key.Role, "allocation_info": map[string]any{"role": role}}
		switch {
		case len(v.Ranges) > 0:
			var ranges []map[string]any
			for _, one := range v.Ranges {
				ranges = append(ranges, map[string]any{"begin": one.First, "end": one.Last})
			}
			m["type"], m["ranges"] = "RANGES", map[string]any{"range": ranges}
		case len(v.Items) > 0:
			m["type"], m["set"] = "SET", map[string]any{"item": v.Items}
		default:
			m["type"], m["scalar"] = "SCALAR", map[string]any{"value": json.Number(resources.AmountText(v.Scalar))}
		}
		if key.Role != "*" {
			m["reservations"] = []map[string]any{{"type": "DYNAMIC", "role": key.Role}}
		}
		list = append(list, m)
	}
	return list
}

// slaveOf returns the document of an agent whose tasks use resources in roles.
func slaveOf(id string, isActive bool, total resources.Bundle, used map[string]resources.Bundle, tasks int) slaveDocument {
	s := slaveDocument{ID: id, IsActive: isActive, Resources: summaryOf(total), Reserved: map[string]map[string]any{}, tasks: tasks}
	byRole := map[string]resources.Bundle{"*": {}}
	for key, v := range total {
		if byRole[key.Role] == nil {
			byRole[key.Role] = resources.Bundle{}
		}
		byRole[key.Role].Add(resources.Bundle{key: v})
	}
	for role, b := range byRole {
		s.Reserved[role] = summaryOf(b)
	}
	s.Unreserved = s.Reserved["*"]
	delete(s.Reserved, "*")
	all, left := resources.Bundle{}, total.Copy()
	for role, b := range used {
		all.Add(b)
		left.Take(b.Copy())
		s.UsedFull = append(s.UsedFull, fullOf(b, role)...)
	}
	s.Used, s.free = summaryOf(all), resources.Bundle{}
	for key, v := range left {
		s.free.Add(resources.Bundle{{Name: key.Name, Role: "*"}: v})
	}
	return s
}

func randomCluster(random *rand.Rand) (state *stateDocument, weights, quota any) {
	roles := []string{"eng", "eng/web", "eng/data", "ops", "*", "eng/web/x"}
	state = &stateDocument{Version: fmt.Sprintf("1.%d.0", 4+random.Intn(8))}
	for k := 0; k < 1+random.Intn(4); k++ {
		var own []string
		for _, role := range roles {
			if random.Intn(2) == 0 {
				own = append(own, role)
			}
		}
		if len(own) == 0 {
			own = roles[:1]
		}
		state.Frameworks = append(state.Frameworks, frameworkDocument{ID: fmt.Sprintf("F%d", k), IsActive: random.Intn(4) > 0, Roles: own})
	}
	for k := 0; k < 1+random.Intn(5); k++ {
		id := fmt.Sprintf("S%d", k)
		free := resources.Bundle{}
		for _, role := range []string{"*", "eng", "eng/web", "ops"} {
			for _, name := range []string{"cpus", "mem", "gpus"} {
				free.Add(resources.Bundle{{Name: name, Role: role}: {Scalar: uint64(random.Intn(3) * random.Intn(40))}})
			}
		}
		var disks, ports resources.Value
		for _, item := range []string{"sda", "sdb", "sdc"}[:random.Intn(4)] {
			disks.AddItems(item)
		}
		ports.AddRanges(resources.Range{First: 31000, Last: 31000 + uint64(random.Intn(9))})
		free.Add(resources.Bundle{{Name: "disks", Role: "*"}: disks, {Name: "ports", Role: "*"}: ports})
		total, used, tasks := free.Copy(), map[string]resources.Bundle{}, 0
		for try := random.Intn(45); try > 0; try-- {
			f := &state.Frameworks[random.Intn(len(state.Frameworks))]
			role := f.Roles[random.Intn(len(f.Roles))]
			wanted := resources.Bundle{}
			for _, key := range free.Keys() {
				if key.Role != "*" && !resources.IsBelow(role, key.Role) || random.Intn(3) == 0 {
					continue
				}
				v := free[key]
				if v.Scalar = uint64(random.Int63n(int64(v.Scalar) + 1)); v.Scalar > 0 || len(v.Items)+len(v.Ranges) > 0 {
					wanted[key] = v
				}
			}
			if use := free.Take(wanted); len(use) > 0 {
				f.Tasks = append(f.Tasks, taskDocument{ID: fmt.Sprintf("t%d.%d", k, try), Slave: id, State: "TASK_RUNNING", Role: role, Resources: summaryOf(use)})
				if used[role] == nil {
					used[role] = resources.Bundle{}
				}
				used[role].Add(use)
				tasks++
			}
		}
		state.Slaves = append(state.Slaves, slaveOf(id, random.Intn(5) > 0, total, used, tasks))
	}
	weights = []map[string]any{{"role": "eng", "weight": 0.001 * float64(1+random.Intn(1_000_000))}}
	quota = map[string]any{"configs": []map[string]any{{"role": "eng", "limits": map[string]any{"cpus": map[string]any{"value": random.Intn(2)}}}}}
	return state, weights, quota
}

// exported returns the documents of a saved state.
func exported(t *testing.T, saved []byte) (state *stateDocument, weights, quota any) {
	t.Helper()
	state = &stateDocument{Version: "1.11.0"}
	var weightList, configs []map[string]any
	index, used, tasks := map[string]int{}, map[string]map[string]resources.Bundle{}, map[string]int{}
	type row struct {
		Row, Agent, Framework, Role, Task, Use, Total, Weight, Limit string
		Active                                                       bool
		Clients                                                      []struct {
			Role       string
			Suppressed bool
		}
	}
	var agents []row
	for _, line := range bytes.Split(bytes.TrimSpace(saved), []byte("\n")) {
		var r row
		if err := json.Unmarshal(line, &r); err != nil {
			t.Fatal(err)
		}
		parse := func(text string) resources.Bundle {
			b, err := resources.Parse(text)
			if err != nil {
				t.Fatal(err)
			}
			return b
		}
		switch r.Row {
		case "agent":
			agents = append(agents, r)
			used[r.Agent] = map[string]resources.Bundle{}
		case "framework":
			f := frameworkDocument{ID: r.Framework, IsActive: true}
			for _, c := range r.Clients {
				if f.Roles = append(f.Roles, c.Role); c.Suppressed {
					f.Suppressed = append(f.Suppressed, c.Role)
				}
			}
			index[r.Framework] = len(state.Frameworks)
			state.Frameworks = append(state.Frameworks, f)
		case "task":
			use := parse(r.Use)
			f := &state.Frameworks[index[r.Framework]]
			f.Tasks = append(f.Tasks, taskDocument{ID: r.Task, Slave: r.Agent, State: "TASK_RUNNING", Role: r.Role, Resources: summaryOf(use)})
			if used[r.Agent][r.Role] == nil {
				used[r.Agent][r.Role] = resources.Bundle{}
			}
			used[r.Agent][r.Role].Add(use)
			tasks[r.Agent]++
		case "weight":
			weightList = append(weightList, map[string]any{"role": r.Role, "weight": json.Number(r.Weight)})
		case "limit":
			limits := map[string]any{}
			for _, piece := range strings.Split(r.Limit, ";") {
				name, amount, _ := strings.Cut(piece, ":")
				if _, err := strconv.ParseFloat(amount, 64); err != nil {
					t.Fatal(err)
				}
				limits[name] = map[string]any{"value": json.Number(amount)}
			}
			configs = append(configs, map[string]any{"role": r.Role, "limits": limits})
		}
	}
	for _, r := range agents {
		total, err := resources.Parse(r.Total)
		if err != nil {
			t.Fatal(err)
		}
		state.Slaves = append(state.Slaves, slaveOf(r.Agent, r.Active, total, used[r.Agent], tasks[r.Agent]))
	}
	if weightList == nil {
		weightList = []map[string]any{}
	}
	return state, weightList, map[string]any{"configs": configs}
}
