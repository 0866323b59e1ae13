// Tests of clusters for which the allocator has no room. Outside the proof.

package importer

import (
	"bytes"
	"fmt"
	"strings"
	"testing"

	"gateway/internal/mesos/document"
	"gateway/internal/mesos/resources"
)

func scalarsOf(amounts map[string]uint64) resources.Bundle {
	b := resources.Bundle{}
	for name, amount := range amounts {
		b[resources.Key{Name: name, Role: "*"}] = resources.Value{Scalar: amount}
	}
	return b
}

func machines(count int) (agents []document.Agent) {
	for k := 0; k < count; k++ {
		agents = append(agents, document.Agent{ID: fmt.Sprintf("S%d", k), IsActive: true, Total: scalarsOf(map[string]uint64{"cpus": 20_000})})
	}
	return agents
}

func framework(id string, roles ...string) document.Framework {
	f := document.Framework{ID: id, IsActive: true, Roles: roles, Subscribed: map[string]bool{}}
	for _, role := range roles {
		f.Subscribed[role] = true
	}
	return f
}

func (f *holdings) add(name string, agent int, role string, use resources.Bundle) {
	*f = append(*f, document.Holding{Name: name, Agent: agent, Role: role, Use: use})
}

type holdings []document.Holding

// What exceeds a capacity of docs/REFERENCE.md is left out, and the allocator takes the rest.
func TestCapacities(t *testing.T) {
	cpu := scalarsOf(map[string]uint64{"cpus": 1000})
	many := framework("many", "a", "b", "c", "d", "e", "f", "g", "h", "i", "j")
	(*holdings)(&many.Holdings).add("t1", 0, "a", cpu)
	(*holdings)(&many.Holdings).add("t2", 0, "j", cpu)
	var frameworks, wide []document.Framework
	for k := 0; k < 1025; k++ {
		frameworks = append(frameworks, framework(fmt.Sprintf("F%d", k), "r"))
	}
	(*holdings)(&frameworks[1024].Holdings).add("t", 0, "r", cpu)
	for k := 0; k < 513; k++ {
		wide = append(wide, framework(fmt.Sprintf("F%d", k), "a", "b", "c", "d", "e", "f", "g", "h"))
	}
	agents := machines(4097)
	last := framework("F", "r")
	(*holdings)(&last.Holdings).add("t", 4096, "r", cpu)
	names := map[string]uint64{}
	for k := 0; k < 33; k++ {
		names[fmt.Sprintf("s%02d", k)] = 1000
	}
	odd := append(machines(1), document.Agent{ID: "odd", IsActive: true, Total: scalarsOf(names)})
	huge := resources.Value{}
	for k := uint64(0); k < 20_000; k++ {
		huge.Ranges = append(huge.Ranges, resources.Range{First: 2 * k, Last: 2 * k})
	}
	heavy := append(machines(1), document.Agent{ID: "heavy", IsActive: true, Total: resources.Bundle{{Name: "ports", Role: "*"}: huge}})
	weights := map[string]uint64{}
	for k := 0; k < 4098; k++ {
		weights[fmt.Sprintf("w%04d", k)] = 2000
	}
	for name, c := range map[string]struct {
		cluster document.Cluster
		want    string // what is omitted
		lines   int    // that have the text
		text    string
	}{
		"roles": {document.Cluster{Agents: machines(1), Frameworks: []document.Framework{many}}, "2 roles of the framework many: a framework has at most 8 roles", 1, `"roles":["a","j","b","c","d","e","f","g"]`},
		"frameworks": {document.Cluster{Agents: machines(1), Frameworks: frameworks},
			"the framework F1024: there is room for 1024 frameworks; 1 tasks of the framework F1024: the framework, or the role, is left out", 1024, `"add_framework"`},
		"clients":  {document.Cluster{Frameworks: wide}, "the framework F512: there is room for 4096 clients, which are frameworks in each of their roles", 512, `"add_framework"`},
		"agents":   {document.Cluster{Agents: agents, Frameworks: []document.Framework{last}}, "the agent S4096 with 1 tasks: there is room for 4096 agents", 4096, `"add_agent"`},
		"scalars":  {document.Cluster{Agents: odd}, "the agent odd with 0 tasks: there is room for 32 names of scalars", 1, `"add_agent"`},
		"line":     {document.Cluster{Agents: heavy}, "the agent heavy with 0 tasks: its resources need more than the 65536 bytes of a line", 1, `"add_agent"`},
		"weights":  {document.Cluster{Weights: weights}, "2 weights: there is room for 4096 weights", 4096, `"set_weight"`},
		"limits":   {document.Cluster{Limits: map[string]map[string]uint64{"r": names}}, "a part of the limit of the role r: a limit has at most 32 names", 1, `s30:1;s31:1"`},
		"no roles": {document.Cluster{Frameworks: []document.Framework{framework("F")}}, "the framework F: it has no role that the allocator takes", 0, `"add_framework"`},
	} {
		lines, leftOut := Lines(&c.cluster, ByID)
		var got []string
		for _, one := range leftOut {
			got = append(got, one.What+": "+one.Reason)
		}
		if strings.Join(got, "; ") != c.want {
			t.Errorf("%s: %s", name, got)
		}
		if count := bytes.Count(lines, []byte(c.text)); count != c.lines {
			t.Errorf("%s: %d lines with %s", name, count, c.text)
		}
		if len(lines) > 0 {
			runs(t, lines)
		}
	}
}

// Forty tasks of a client on an agent need three accepts, and long ones more.
func TestManyTasks(t *testing.T) {
	for name, c := range map[string]struct{ ports, accepts int }{"short": {1, 3}, "long": {1000, 10}} {
		cluster := document.Cluster{Agents: machines(1), Frameworks: []document.Framework{framework("F", "r")}}
		for k := 0; k < 40; k++ {
			own := resources.Value{}
			for n := 0; n < c.ports; n++ {
				port := uint64(2 * (k*c.ports + n))
				own.Ranges = append(own.Ranges, resources.Range{First: port, Last: port})
			}
			(*holdings)(&cluster.Frameworks[0].Holdings).add(fmt.Sprintf("t%02d", k), 0, "r", resources.Bundle{{Name: "cpus", Role: "*"}: {Scalar: 100}, {Name: "ports", Role: "*"}: own})
		}
		cluster.Agents[0].Total[resources.Key{Name: "ports", Role: "*"}] = resources.Value{Ranges: []resources.Range{{First: 0, Last: 100_000}}}
		lines, leftOut := Lines(&cluster, ByID)
		if accepts := bytes.Count(lines, []byte(`"accept"`)); accepts != c.accepts || len(leftOut) > 0 {
			t.Errorf("%s: %d accepts, %v", name, accepts, leftOut)
		}
		runs(t, lines)
		if got := audit(t, lines); got[0].Out != 40 {
			t.Errorf("%s: %d tasks", name, got[0].Out)
		}
	}
}
