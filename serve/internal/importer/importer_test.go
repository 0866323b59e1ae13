// Tests of the importer. Outside the proof.

package importer

import (
	"bytes"
	"encoding/json"
	"errors"
	"fmt"
	"math/rand"
	"os"
	"os/exec"
	"path/filepath"
	"reflect"
	"strings"
	"testing"
	"time"

	"gateway/internal/mesos/document"
	"gateway/internal/mesos/resources"
)

const fixtures = "../mesos/document/testdata"

// read reads the fixture of a version.
func read(t *testing.T, version string) *document.Cluster {
	t.Helper()
	var answers document.Answers
	for name, answer := range map[string]*document.Answer{"state": &answers.State, "roles": &answers.Roles, "weights": &answers.Weights, "quota": &answers.Quota} {
		body, err := os.ReadFile(filepath.Join(fixtures, version, name+".json"))
		if err == nil {
			*answer = document.Answer{Name: name, Body: body}
		} else if name == "state" {
			t.Fatal(err)
		}
	}
	cluster, err := document.Read(answers)
	if err != nil {
		t.Fatal(err)
	}
	return cluster
}

// The lines are written by hand from the fixtures.
func TestFixtures(t *testing.T) {
	for version, leftOut := range map[string][]string{
		"1.4": nil,
		"1.8": {
			`state: slaves[0].attributes: the attributes rack, zone of the agent S0`,
			`state: slaves[0].unreserved_resources_full[4].revocable: revocable cpus`,
			`state: slaves[0].reserved_resources_full.eng[1].disk: the volume "vol-1"`,
			`state: slaves[0].reserved_resources_full.eng/web[0].reservations: the refinement of a reservation for eng`,
			`state: slaves[0].reserved_resources_full.eng/web[0].reservations: the labels of a reservation for eng/web`,
			`state: recovered_slaves[0]: the agent "S7"`,
			`state: frameworks[0].unreachable_tasks: 2 tasks of the framework F0 on agents that cannot be reached`,
			`roles: roles[3].weight: the weight 0.3333333333333333 of the role ops`,
			`quota: infos[0].guarantee: the guarantee of the role ops`,
		},
		"1.11": {
			`state: slaves[0].domain: the fault domain of the agent S0`,
			`state: frameworks[0].offer_constraints: the offer constraints of the framework F0`,
			`state: frameworks[0].tasks[0].id: the id "team_search_service.instance-0f8fad5b-d9cb-469f-a165-70867728950e._app.1"`,
			`state: frameworks[0].tasks[0].resources.cpus: the amount 0.25004`,
			`quota: configs[1].guarantees: the guarantee of the role ops`,
		},
	} {
		cluster := read(t, version)
		lines, more := Lines(cluster, ByID)
		want, err := os.ReadFile(filepath.Join("testdata", version+".jsonl"))
		if err != nil || string(lines) != string(want) || len(more) > 0 {
			t.Errorf("%s: %v %v\n%s", version, err, more, lines)
		}
		var got []string
		for _, one := range cluster.LeftOut {
			got = append(got, one.Place+": "+one.What)
		}
		if !reflect.DeepEqual(got, leftOut) {
			t.Errorf("%s: %s", version, strings.Join(got, "\n"))
		}
	}
}

func TestNames(t *testing.T) {
	lines, _ := Lines(read(t, "1.11"), ByName) // two agents have the host b1, and a framework's name has a blank
	for _, want := range []string{`"agent":"S0"`, `"agent":"S1"`, `"framework":"F0"`} {
		if !bytes.Contains(lines, []byte(want)) {
			t.Errorf("%s is missing", want)
		}
	}
	lines, _ = Lines(read(t, "1.4"), ByName)
	for _, want := range []string{`{"event":"add_agent","agent":"10.0.0.10",`, `{"event":"add_framework","framework":"marathon",`} {
		if !bytes.Contains(lines, []byte(want)) {
			t.Errorf("%s is missing", want)
		}
	}
}

func drf(t *testing.T, command string, input []byte) []byte {
	t.Helper()
	program := os.Getenv("DRF")
	if program == "" {
		t.Skip("DRF names no program of the allocator")
	}
	run := exec.Command(program, strings.Fields(command)...)
	run.Stdin = bytes.NewReader(input)
	out, err := run.Output()
	if err != nil {
		t.Fatalf("drf %s: %v", command, err)
	}
	return out
}

// runs fails unless the allocator accepts each line, and each cycle makes one offer.
func runs(t *testing.T, lines []byte) {
	t.Helper()
	replies := bytes.Split(bytes.TrimSpace(drf(t, "run", lines)), []byte("\n"))
	for k, line := range bytes.Split(bytes.TrimSpace(lines), []byte("\n")) {
		var reply struct {
			OK     bool
			Offers []json.RawMessage
		}
		if err := json.Unmarshal(replies[k], &reply); err != nil || reply.OK == bytes.Contains(line, []byte(`"cycle"`)) || !reply.OK && len(reply.Offers) != 1 {
			t.Fatalf("line %d: %s: %s", k+1, line, replies[k])
		}
	}
}

// audited is a line of `drf audit`.
type audited struct {
	Agent, Free, Total string
	Out                int
}

func audit(t *testing.T, lines []byte) (all []audited) {
	t.Helper()
	for _, line := range bytes.Split(bytes.TrimSpace(drf(t, "audit", lines)), []byte("\n")) {
		var one audited
		if err := json.Unmarshal(line, &one); err != nil {
			t.Fatal(err)
		}
		all = append(all, one)
	}
	return all
}

func TestAllocatorTakesFixtures(t *testing.T) {
	for version, want := range map[string][]audited{
		"1.4": {
			{"ad74b1bf-0000-4000-8000-000000000000-S1", "cpus:6.9;mem:16224", "cpus:8;mem:16384", 2},
			{"ad74b1bf-0000-4000-8000-000000000000-S0", "cpus:2.5;disk:20000;mem:6656;ports:[31002-32000]", "cpus:3;cpus(eng):1;disk:20000;mem:7168;mem(eng):1024;ports:[31000-32000]", 1},
		},
		"1.8": {
			{"S0", "cpus:2;cpus(eng):1;cpus(eng/web):1;disk:500;mem:7168;ports:[1001-1999,3000-3000]", "cpus:3;cpus(eng):2;cpus(eng/web):3;disk:500;disk(eng):500;mem:8192;ports:[1000-1999,3000-3000]", 3},
			{"S1", "", "cpus:0.1;gpus:1;mem:16", 2},
		},
		"1.11": {
			{"S0", "cpus:2.75;disks:{sdb};mem:3840", "cpus:4;disks:{sda,sdb};mem:4096", 2},
			{"S1", "cpus:0.3;mem:64", "cpus:0.3;mem:64", 0},
		},
	} {
		lines, _ := Lines(read(t, version), ByID)
		runs(t, lines)
		if got := audit(t, lines); !reflect.DeepEqual(got, want) {
			t.Errorf("%s: %+v", version, got)
		}
	}
}

// A thousand agents and five thousand tasks, whose sums are known, are imported in under five seconds.
func TestLargeCluster(t *testing.T) {
	const agents, tasks = 1000, 5000
	state := &stateDocument{Version: "1.9.0"}
	want := make([]audited, agents)
	used := make([]struct{ cpus, mem, count int }, agents)
	for k := 0; k < 20; k++ {
		state.Frameworks = append(state.Frameworks, frameworkDocument{ID: fmt.Sprintf("m-%04d", k), IsActive: true, Roles: []string{fmt.Sprintf("team%d", k%7)}})
	}
	for k := 0; k < tasks; k++ {
		on, f := k*7%agents, &state.Frameworks[k%20]
		f.Tasks = append(f.Tasks, taskDocument{ID: fmt.Sprintf("task.%d", k), Slave: fmt.Sprintf("m-S%d", on), State: "TASK_RUNNING", Role: f.Roles[0],
			Resources: map[string]any{"cpus": float64(k%13+1) / 10, "mem": 64 * (k%5 + 1)}})
		used[on].cpus += 100 * (k%13 + 1)
		used[on].mem += 64 * (k%5 + 1)
		used[on].count++
	}
	for k := range want {
		amounts := map[string]any{"cpus": 32, "mem": 65536}
		state.Slaves = append(state.Slaves, slaveDocument{ID: fmt.Sprintf("m-S%d", k), IsActive: true, Resources: amounts, Unreserved: amounts,
			Used: map[string]any{"cpus": float64(used[k].cpus) / 1000, "mem": used[k].mem}})
		want[k] = audited{fmt.Sprintf("m-S%d", k), fmt.Sprintf("cpus:%s;mem:%d", resources.AmountText(uint64(32000-used[k].cpus)), 65536-used[k].mem), "cpus:32;mem:65536", used[k].count}
	}
	body, err := json.Marshal(state)
	if err != nil {
		t.Fatal(err)
	}
	begun := time.Now()
	cluster, err := document.Read(document.Answers{State: document.Answer{Name: "state", Body: body}})
	if err != nil || len(cluster.LeftOut) > 0 {
		t.Fatal(err, cluster.LeftOut)
	}
	lines, _ := Lines(cluster, ByID)
	if spent := time.Since(begun); spent > 5*time.Second {
		t.Errorf("%v", spent)
	}
	runs(t, lines)
	if got := audit(t, lines); !reflect.DeepEqual(got, want) {
		t.Error("the audit does not agree with the document")
	}
}

// Random clusters, with reservations, tiny tasks, ranges, sets and limits: the allocator takes each line, has what the document has, and what is
// exported from it gives the same lines.
func TestRoundTrip(t *testing.T) {
	drf(t, "run", nil)
	for seed := int64(0); seed < 40; seed++ {
		state, weights, quota := randomCluster(rand.New(rand.NewSource(seed)))
		lines := imported(t, state, weights, quota)
		runs(t, lines)
		for k, got := range audit(t, lines) {
			slave := state.Slaves[k]
			if got.Agent != slave.ID || got.Out != slave.tasks || summed(t, got.Total) != bundleOf(t, slave.Resources).Text() || summed(t, got.Free) != slave.free.Text() {
				t.Fatalf("seed %d: %+v %+v", seed, got, slave)
			}
		}
		state, weights, quota = exported(t, drf(t, "save", lines))
		again := imported(t, state, weights, quota)
		if !bytes.Equal(lines, again) {
			t.Fatalf("seed %d:\n%s\n%s", seed, lines, again)
		}
	}
}

func imported(t *testing.T, state *stateDocument, weights, quota any) []byte {
	t.Helper()
	encode := func(name string, body any) document.Answer {
		text, err := json.Marshal(body)
		if err != nil {
			t.Fatal(err)
		}
		return document.Answer{Name: name, Body: text}
	}
	cluster, err := document.Read(document.Answers{State: encode("state", state), Weights: encode("weights", weights), Quota: encode("quota", quota)})
	if err != nil || len(cluster.LeftOut) > 0 {
		t.Fatal(err, cluster)
	}
	lines, leftOut := Lines(cluster, ByID)
	if len(leftOut) > 0 {
		t.Fatal(leftOut)
	}
	return lines
}

// A running service sends cycles of its own, which may come between any two lines.
func TestCyclesBetweenTheLines(t *testing.T) {
	for seed := int64(0); seed < 10; seed++ {
		random := rand.New(rand.NewSource(seed))
		state, weights, quota := randomCluster(random)
		lines := imported(t, state, weights, quota)
		var mixed [][]byte
		isFilled := false
		for _, line := range bytes.SplitAfter(lines, []byte("\n")) {
			isFilled = isFilled || bytes.Contains(line, []byte(`"activate_agent"`))
			for !isFilled && random.Intn(2) == 0 {
				mixed = append(mixed, []byte("{\"event\":\"cycle\",\"at\":0}\n"))
			}
			mixed = append(mixed, line)
		}
		if replies := drf(t, "run", bytes.Join(mixed, nil)); bytes.Contains(replies, []byte("refused")) {
			t.Fatalf("seed %d:\n%s", seed, replies)
		}
		if got, want := audit(t, bytes.Join(mixed, nil)), audit(t, lines); !reflect.DeepEqual(got, want) {
			t.Fatalf("seed %d: %v %v", seed, got, want)
		}
	}
}

// Whatever is wrong in a document, it is reported as an error or left out: the allocator accepts all lines that are printed.
func TestChangedDocuments(t *testing.T) {
	drf(t, "run", nil)
	accepted, refused := 0, 0
	for _, version := range []string{"1.4", "1.8", "1.11"} {
		body, err := os.ReadFile(filepath.Join(fixtures, version, "state.json"))
		if err != nil {
			t.Fatal(err)
		}
		for seed := int64(0); seed < 100; seed++ {
			random := rand.New(rand.NewSource(seed))
			var tree any
			if err := json.Unmarshal(body, &tree); err != nil {
				t.Fatal(err)
			}
			for changes := 1 + random.Intn(3); changes > 0; changes-- {
				change(random, tree)
			}
			changed, err := json.Marshal(tree)
			if err != nil {
				t.Fatal(err)
			}
			cluster, err := document.Read(document.Answers{State: document.Answer{Name: "state", Body: changed}})
			if err != nil {
				if e := (*document.Error)(nil); !errors.As(err, &e) || !strings.HasPrefix(e.Place, "state") {
					t.Fatalf("%s %d: %v", version, seed, err)
				}
				refused++
				continue
			}
			accepted++
			if lines, _ := Lines(cluster, ByName); len(lines) > 0 {
				runs(t, lines)
			}
		}
	}
	if accepted < 80 || refused < 40 {
		t.Errorf("%d accepted, %d refused: the changes are too many or too few", accepted, refused)
	}
}

// change changes a value somewhere in a tree.
func change(random *rand.Rand, tree any) {
	values := []any{nil, -1, 0, 0.0004, 1e300, 1e12, "", "x", "a/b", "*", "a b", "[1-2]", "{a}", "[2-1]", true, []any{}, map[string]any{}, []any{1}, map[string]any{"a": 1}, strings.Repeat("y", 300)}
	for {
		switch node := tree.(type) {
		case map[string]any:
			keys := sortedRoles(node)
			if len(keys) == 0 {
				return
			}
			key := keys[random.Intn(len(keys))]
			if isLeaf(node[key]) || random.Intn(12) == 0 {
				if node[key] = values[random.Intn(len(values))]; random.Intn(4) == 0 {
					delete(node, key)
				}
				return
			}
			tree = node[key]
		case []any:
			if len(node) == 0 {
				return
			}
			k := random.Intn(len(node))
			if isLeaf(node[k]) || random.Intn(12) == 0 {
				if node[k] = values[random.Intn(len(values))]; random.Intn(3) == 0 {
					node[k] = node[random.Intn(len(node))]
				}
				return
			}
			tree = node[k]
		default:
			return
		}
	}
}

func isLeaf(value any) bool {
	switch value.(type) {
	case map[string]any, []any:
		return false
	}
	return true
}
