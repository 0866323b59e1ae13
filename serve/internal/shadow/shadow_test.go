// Tests of the comparison. Outside the proof.

package shadow

import (
	"context"
	"encoding/json"
	"fmt"
	"math/rand"
	"os"
	"reflect"
	"strings"
	"testing"

	"gateway/internal/mesos/document"
)

func program(t *testing.T) string {
	t.Helper()
	name := os.Getenv("DRF")
	if name == "" {
		t.Skip("DRF names no program of the allocator")
	}
	return name
}

// cluster is a small cluster, as a test writes it down.
type cluster struct {
	agents  []string           // cpus, `cpus+ROLE:cpus` with a reservation, or `!cpus` for one that is deactivated
	tasks   []string           // `ROLE AGENT cpus [times]`, or `!ROLE ..` for a framework that is not active
	weights map[string]float64 // of roles
	limits  map[string]float64 // of roles, in cpus
}

// document returns the answers of a master that has the cluster: a framework for each role.
func (c cluster) document(t *testing.T) document.Answers {
	t.Helper()
	slaves, frameworks := []map[string]any{}, []map[string]any{}
	place := map[string]int{}
	for k, text := range c.agents {
		isActive := !strings.HasPrefix(text, "!")
		own, more, _ := strings.Cut(strings.TrimPrefix(text, "!"), "+")
		slave := map[string]any{"id": fmt.Sprintf("S%d", k), "active": isActive, "unreserved_resources": map[string]any{"cpus": json.Number(own)}}
		if role, amount, isReserved := strings.Cut(more, ":"); isReserved {
			slave["reserved_resources"] = map[string]any{role: map[string]any{"cpus": json.Number(amount)}}
		}
		slaves = append(slaves, slave)
	}
	count := 0
	for _, text := range c.tasks {
		words := append(strings.Fields(text), "1")
		isActive, role := !strings.HasPrefix(words[0], "!"), strings.TrimPrefix(words[0], "!")
		if _, isKnown := place[role]; !isKnown {
			place[role] = len(frameworks)
			frameworks = append(frameworks, map[string]any{"id": "f-" + strings.ReplaceAll(role, "/", "-"), "active": isActive, "roles": []string{role}, "tasks": []any{}})
		}
		times := 0
		fmt.Sscan(words[3], &times)
		for ; times > 0; times-- {
			count++
			f := frameworks[place[role]]
			f["tasks"] = append(f["tasks"].([]any), map[string]any{"id": fmt.Sprintf("t%d", count), "slave_id": words[1], "state": "TASK_RUNNING", "role": role,
				"resources": map[string]any{"cpus": json.Number(words[2])}})
		}
	}
	weights, configs := []any{}, []any{}
	for role, weight := range c.weights {
		weights = append(weights, map[string]any{"role": role, "weight": weight})
	}
	for role, cpus := range c.limits {
		configs = append(configs, map[string]any{"role": role, "limits": map[string]any{"cpus": map[string]any{"value": cpus}}})
	}
	encode := func(name string, body any) document.Answer {
		text, err := json.Marshal(body)
		if err != nil {
			t.Fatal(err)
		}
		return document.Answer{Name: name, Body: text}
	}
	return document.Answers{
		State:   encode("state", map[string]any{"version": "1.9.0", "slaves": slaves, "frameworks": frameworks}),
		Weights: encode("weights", weights), Quota: encode("quota", map[string]any{"configs": configs}),
	}
}

// row is a role in short: the cpus in Mesos, with the same demand, and as its fair part.
type row struct {
	role              string
	mesos, same, fair float64
	why               string
}

// The allocations are computed by hand from the rules of cycles in docs/CONCEPTS.md.
func TestCompare(t *testing.T) {
	for name, c := range map[string]struct {
		cluster
		want []row
	}{
		// Four agents of 4. In four cycles, in each of which every agent gives one task, web gets 2, 3, 3 and 2, and data 2, 1, 1 and 2: within a
		// cycle a whole agent counts as offered, so the order is data web web data, web data web web, web data web web, data web web data.
		"weight": {
			cluster{agents: []string{"4", "4", "4", "4"}, tasks: []string{"data S0 1 4", "data S1 1 4", "data S2 1 4", "web S3 1 4"}, weights: map[string]float64{"web": 2}},
			[]row{
				{"data", 12, 12, 6, "weight: more than its weight of 1 gives it if web wants more"},
				{"web", 4, 4, 10, "weight: its weight of 2 gives it more; more than their fair part have data"},
			},
		},
		"within one task": {
			cluster{agents: []string{"4", "4", "4", "4"}, tasks: []string{"data S0 1 4", "data S1 1 1", "web S1 1 3", "web S2 1 4", "web S3 1 4"}, weights: map[string]float64{"web": 2}},
			[]row{{"data", 5, 5, 6, "granularity: within one task of its fair part"}, {"web", 11, 11, 10, "granularity: within one task of its fair part"}},
		},
		// The limit of data is less than what it holds, as if it had been set later.
		"limit": {
			cluster{agents: []string{"10"}, tasks: []string{"data S0 1 6", "web S0 1 2"}, limits: map[string]float64{"data": 4}},
			[]row{
				{"data", 6, 4, 4, "limit: 2 of its tasks find no place again: the limit of data, cpus:4"},
				{"web", 2, 2, 6, "demand: one task more fits in Mesos, so it does not want more"},
			},
		},
		// ops uses 1 of the 4 that are reserved for it. From then on both have 4 of 8.
		"reservation": {
			cluster{agents: []string{"4+ops:4"}, tasks: []string{"data S0 1 4", "ops S0 1 1"}},
			[]row{{"data", 4, 4, 4, ""}, {"ops", 1, 1, 4, "reservation: cpus:3 reserved for it is not used in Mesos"}},
		},
		// The resources that remain when data has the unreserved part are reserved for ops, which wants no more because it is not active.
		"reserved for others": {
			cluster{agents: []string{"4+ops:4", "!4"}, tasks: []string{"data S0 1 2", "data S1 1 4", "!ops S0 1 1"}},
			[]row{{"data", 6, 6, 8, "demand: one task more fits in Mesos, so it does not want more"}, {"ops", 1, 1, 1, ""}},
		},
		// The first cycle gives a task of a on S0 and one of b on S1. So no agent has the 6 that the task of c needs.
		"granularity": {
			cluster{agents: []string{"6", "6"}, tasks: []string{"a S0 1 2", "b S0 1 2", "c S1 6 1"}},
			[]row{
				{"a", 2, 2, 6, "demand: one task more fits in Mesos, so it does not want more"},
				{"b", 2, 2, 6, "demand: one task more fits in Mesos, so it does not want more"},
				{"c", 6, 0, 0, "granularity: 1 of its tasks find no place again: cpus:8 is free, and on no agent enough for a task"},
			},
		},
		// Roles above others have the sums. eng and ops have the same weight: 4 and 4. Within eng, the two are equal.
		"tree": {
			cluster{agents: []string{"8"}, tasks: []string{"eng/a S0 1 6", "eng/b S0 1 1", "ops S0 1 1"}},
			[]row{
				{"eng", 7, 7, 4, "weight: more than its weight of 1 gives it if ops wants more"},
				{"eng/a", 6, 6, 2, "weight: more than its weight of 1 gives it if eng/b wants more"},
				{"eng/b", 1, 1, 2, "granularity: within one task of its fair part"},
				{"ops", 1, 1, 4, "weight: its weight of 1 gives it more; more than their fair part have eng"},
			},
		},
	} {
		read, err := document.Read(c.cluster.document(t))
		if err != nil || len(read.LeftOut) > 0 {
			t.Fatalf("%s: %v %v", name, err, read)
		}
		roles, err := Compare(context.Background(), program(t), read)
		if err != nil {
			t.Errorf("%s: %v", name, err)
			continue
		}
		var got []row
		for _, role := range roles {
			var why []string
			for _, reason := range role.Why {
				why = append(why, reason.Kind+": "+reason.Text)
			}
			got = append(got, row{role.Role, role.Mesos.Resources["cpus"], role.Same.Resources["cpus"], role.Fair.Resources["cpus"], strings.Join(why, "; ")})
		}
		if !reflect.DeepEqual(got, c.want) {
			t.Errorf("%s:\n%+v\n%+v", name, got, c.want)
		}
	}
}

// The example of the DRF paper: of 9 cpus and 18 GB, three tasks of 1 cpu and 4 GB, and two of 3 cpus and 1 GB.
func TestPaper(t *testing.T) {
	state := `{"version":"1.9.0","slaves":[{"id":"S0","unreserved_resources":{"cpus":9,"mem":18432}}],"frameworks":[
		{"id":"A","roles":["a"],"tasks":[{"id":"1","slave_id":"S0","role":"a","state":"TASK_RUNNING","resources":{"cpus":1,"mem":4096}}]},
		{"id":"B","roles":["b"],"tasks":[{"id":"1","slave_id":"S0","role":"b","state":"TASK_RUNNING","resources":{"cpus":3,"mem":1024}}]}]}`
	read, err := document.Read(document.Answers{State: document.Answer{Name: "state", Body: []byte(state)}})
	if err != nil {
		t.Fatal(err)
	}
	roles, err := Compare(context.Background(), program(t), read)
	if err != nil {
		t.Fatal(err)
	}
	for k, want := range []map[string]float64{{"cpus": 3, "mem": 12288}, {"cpus": 6, "mem": 2048}} {
		if !reflect.DeepEqual(roles[k].Fair.Resources, want) {
			t.Errorf("%s: %v", roles[k].Role, roles[k].Fair.Resources)
		}
	}
}

// A large cluster is compared within a poll, and nothing is given twice.
func TestCompareLarge(t *testing.T) {
	c := cluster{weights: map[string]float64{"team0": 3}}
	for k := 0; k < 300; k++ {
		c.agents = append(c.agents, "32")
		for n := 0; n < 5; n++ {
			c.tasks = append(c.tasks, fmt.Sprintf("team%d S%d 0.%d", (k+n)%20, k, 1+(k+n)%20%9))
		}
	}
	read, err := document.Read(c.document(t))
	if err != nil {
		t.Fatal(err)
	}
	roles, err := Compare(context.Background(), program(t), read)
	if err != nil {
		t.Fatal(err)
	}
	sum := 0.0
	for _, role := range roles {
		sum += role.Fair.Share
		// Of 9600 cpus, team0 has the weight 3 among 22.
		if want := 1.0 / 22; role.Role == "team0" && (role.Fair.Share < 3*want*0.98 || role.Fair.Share > 3*want*1.02) || role.Role == "team1" && (role.Fair.Share < want*0.98 || role.Fair.Share > want*1.02) {
			t.Errorf("%s: %v", role.Role, role.Fair.Share)
		}
		if role.Unmet != 0 || role.Same.Share != role.Mesos.Share {
			t.Errorf("%s: %+v", role.Role, role)
		}
	}
	if sum > 1 || sum < 0.99 {
		t.Errorf("all have %v", sum)
	}
}

// In random clusters no limit is exceeded, nothing is given twice, and tasks of the same demand are all there or said to find no place.
func TestCompareRandom(t *testing.T) {
	for seed := int64(0); seed < 25; seed++ {
		random := rand.New(rand.NewSource(seed))
		c := cluster{weights: map[string]float64{"a": float64(1 + random.Intn(3))}, limits: map[string]float64{"b": float64(random.Intn(20)), "c": float64(random.Intn(12))}}
		total := 0
		for k := 0; k < 1+random.Intn(5); k++ {
			size := 1 + random.Intn(16)
			total += size
			c.agents = append(c.agents, fmt.Sprint(size))
			for size > 0 && random.Intn(6) > 0 {
				own := 1 + random.Intn(size)
				size -= own
				c.tasks = append(c.tasks, fmt.Sprintf("%s S%d %d", []string{"a", "b/x", "b/y", "c", "!d"}[random.Intn(5)], k, own))
			}
		}
		read, err := document.Read(c.document(t))
		if err != nil {
			t.Fatal(err)
		}
		roles, err := Compare(context.Background(), program(t), read)
		if err != nil {
			t.Fatalf("seed %d: %v", seed, err)
		}
		same, fair := 0.0, 0.0
		for _, role := range roles {
			if limit, isSet := role.Limit["cpus"]; isSet && (role.Same.Resources["cpus"] > limit || role.Fair.Resources["cpus"] > limit) {
				t.Errorf("seed %d: %+v exceeds its limit", seed, role)
			}
			if (role.Unmet == 0) != (role.Same.Resources["cpus"] == role.Mesos.Resources["cpus"]) || role.Same.Share > role.Mesos.Share {
				t.Errorf("seed %d: %+v", seed, role)
			}
			if differs := role.Mesos.Share != role.Fair.Share || role.Unmet > 0; differs != (len(role.Why) > 0) {
				t.Errorf("seed %d: %+v", seed, role)
			}
			if !strings.Contains(role.Role, "/") {
				same, fair = same+role.Same.Resources["cpus"], fair+role.Fair.Resources["cpus"]
			}
		}
		if same > float64(total) || fair > float64(total) {
			t.Errorf("seed %d: %v and %v of %d cpus are given", seed, same, fair, total)
		}
	}
}
