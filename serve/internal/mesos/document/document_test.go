// Tests of documents. Outside the proof.

package document

import (
	"errors"
	"os"
	"path/filepath"
	"strings"
	"testing"

	"gateway/internal/mesos/resources"
)

// fixture returns the answers of a master of a version, after replacing a text in one of them.
func fixture(t *testing.T, version, file, old, new string) (answers Answers) {
	t.Helper()
	for name, answer := range map[string]*Answer{"state": &answers.State, "roles": &answers.Roles, "weights": &answers.Weights, "quota": &answers.Quota} {
		body, err := os.ReadFile(filepath.Join("testdata", version, name+".json"))
		if errors.Is(err, os.ErrNotExist) {
			continue
		} else if err != nil {
			t.Fatal(err)
		}
		if name == file {
			if !strings.Contains(string(body), old) {
				t.Fatalf("%s/%s.json does not have %s", version, name, old)
			}
			body = []byte(strings.Replace(string(body), old, new, 1))
		}
		*answer = Answer{name, body}
	}
	return answers
}

func TestBadDocuments(t *testing.T) {
	for _, c := range []struct{ version, file, old, new, want string }{
		{"1.4", "state", `"1.4.3"`, `"1.3.2"`, `state: version: the version "1.3.2": expected 1.4 to 1.11`},
		{"1.4", "state", `"1.4.3"`, `"1.12.0"`, `state: version: the version "1.12.0": expected 1.4 to 1.11`},
		{"1.4", "state", `"1.4.3"`, `"0.28.2"`, `state: version: the version "0.28.2": expected 1.4 to 1.11`},
		{"1.4", "state", `"version": "1.4.3",`, ``, `state: version: missing or empty: expected a text`},
		{"1.4", "state", `"slaves": [`, `"agents": [`, `state: slaves: missing: expected the answer of a master's /state`},
		{"1.4", "state", `"registered_time": 1548170100.5`, `"registered_time": "now"`, `state: slaves[0].registered_time: expected a number`},
		{"1.4", "state", `"cpus": 4.0`, `"cpus": -4.0`, `state: slaves[0].resources.cpus: the amount -4 is not from 0 to 1099511627`},
		{"1.4", "state", `"mem": 8192.0`, `"mem": 1e13`, `state: slaves[0].resources.mem: the amount 1e+13 is not from 0 to 1099511627`},
		{"1.4", "state", `"mem": 8192.0`, `"mem": 1e999`, `state: slaves[0].resources.mem: the number 1e999 is out of range`},
		{"1.4", "state", `"[31000-32000]"`, `"[31000-4294967296]"`, `state: slaves[0].resources.ports: the number "4294967296" of a range: expected 0 to 4294967295`},
		{"1.4", "state", `"[31000-32000]"`, `"[32000-31000]"`, `state: slaves[0].resources.ports: the range 32000-31000 ends before it begins`},
		{"1.4", "state", `"[31000-32000]"`, `"many"`, `state: slaves[0].resources.ports: "many": expected a number, [FIRST-LAST, ..] or {ITEM, ..}`},
		{"1.4", "state", `"TASK_RUNNING", "resources"`, `"TASK_SLEEPING", "resources"`, `state: frameworks[0].tasks[0].state: the state "TASK_SLEEPING" of a task is not known`},
		{"1.4", "state", `"role": "eng",
      "tasks"`, `"tasks"`, `state: frameworks[0].role: missing: expected role or roles`},
		{"1.4", "state", `"active": true`, `"active": 1`, `state: slaves[0].active: expected true or false`},
		{"1.8", "state", `"id": "t2"`, `"id": "t1"`, `state: frameworks[0].tasks[1].id: the id "t1" is also at state: frameworks[0].tasks[0].id`},
		{"1.4", "state", `-S1", "hostname"`, `-S0", "hostname"`, `state: slaves[0].id: the id "ad74b1bf-0000-4000-8000-000000000000-S0" is also at state: slaves[1].id`},
		{"1.4", "weights", `2.0`, `0.0`, `weights[0].weight: the weight 0: expected more than 0`},
		{"1.4", "weights", `"ops"`, `"eng"`, ``}, // its weight is 1
		{"1.4", "weights", `"ops", "weight": 1.0`, `"eng", "weight": 3.0`, `weights[1].weight: the role "eng" has two weights`},
		{"1.4", "weights", `[{"role"`, `[{role`, `weights line 1 column 3: not JSON: invalid character 'r' looking for beginning of object key string`},
		{"1.8", "state", `"type": "SCALAR"`, `"type": "TEXT"`, `state: slaves[0].reserved_resources_full.eng[0].type: the type "TEXT": expected SCALAR, RANGES or SET`},
		{"1.8", "state", `"role": "eng", "reservations"`, `"role": "ops", "reservations"`, `state: slaves[0].reserved_resources_full.eng[0].role: the role "ops" is not that of reservations, "eng"`},
		{"1.8", "state", `"begin": 1000, "end": 1999`, `"begin": 1000, "end": 1999.5`, `state: slaves[0].unreserved_resources_full[3].ranges.range[0].end: the number 1999.5 of a range: expected 0 to 4294967295`},
		{"1.8", "roles", `"weight": 2.5`, `"weight": -1`, `roles: roles[1].weight: the weight -1: expected more than 0`},
		{"1.11", "quota", `12.0`, `-1`, `quota: configs[0].limits.cpus.value: the amount -1 is not from 0 to 1099511627`},
		{"1.11", "quota", `"role": "ops"`, `"role": "data"`, `quota: configs[1].limits: the role "data" has two quotas`},
	} {
		_, err := Read(fixture(t, c.version, c.file, c.old, c.new))
		if c.want == "" && err != nil || c.want != "" && (err == nil || err.Error() != c.want) {
			t.Errorf("%s %s: %v, not %s", c.file, c.new, err, c.want)
		}
	}
}

// A document that is cut anywhere gives an error with its place.
func TestCutDocuments(t *testing.T) {
	whole := fixture(t, "1.4", "", "", "")
	body := strings.TrimSpace(string(whole.State.Body))
	for end := 0; end < len(body); end += 97 {
		whole.State.Body = []byte(body[:end])
		_, err := Read(whole)
		if e := (*Error)(nil); !errors.As(err, &e) || e.Problem != "the document is cut: expected more" || !strings.HasPrefix(e.Place, "state line ") {
			t.Fatalf("cut at %d: %v", end, err)
		}
	}
	whole.State.Body = []byte(body[:strings.Index(body, `"slaves"`)])
	if _, err := Read(whole); err == nil || err.Error() != "state line 7 column 2: the document is cut: expected more" {
		t.Error(err)
	}
	whole.State.Body = []byte(body + "\n{}")
	if _, err := Read(whole); err == nil || err.Error() != "state line 65 column 1: expected nothing after the document" {
		t.Error(err)
	}
	whole.State.Body = []byte("<html>")
	if _, err := Read(whole); err == nil || !strings.HasPrefix(err.Error(), "state line 1 column 1: not JSON") {
		t.Error(err)
	}
}

func TestLeftOut(t *testing.T) {
	for _, c := range []struct{ version, file, old, new, want string }{
		{"1.4", "state", `"port": 5051,`, `"port": 5051, "colour": "red",`, `state: slaves[0].colour: the field colour of an agent: unknown`},
		{"1.4", "state", `"flags"`, `"flag"`, `state: flag: the field flag of the state: unknown`},
		{"1.4", "state", `"role": "eng",
         "statuses"`, `"role": "a:b",
         "statuses"`, `state: frameworks[0].tasks[0].role: the task "web.1" of the framework ad74b1bf-0000-4000-8000-000000000000-0000: the role "a:b" is not 1 to 8 parts of visible characters without ( ) : ; with at most 64 bytes`},
		{"1.4", "state", `"role": "eng",
      "tasks"`, `"role": "-eng",
      "tasks"`, `state: frameworks[0].role: a role of the framework ad74b1bf-0000-4000-8000-000000000000-0000: the role "-eng" is not 1 to 8 parts of visible characters without ( ) : ; with at most 64 bytes`},
		{"1.4", "state", `-S1",
         "state": "TASK_STAGING"`, `-S9",
         "state": "TASK_STAGING"`, `state: frameworks[1].tasks[0].slave_id: the task "job-1" of the framework ad74b1bf-0000-4000-8000-000000000000-0001: its agent "ad74b1bf-0000-4000-8000-000000000000-S9" is not registered`},
		{"1.4", "state", `"mem": 1536.0, "gpus": 0.0, "cpus": 1.5, "ports": "[31000-31001]"}, "role": "eng",
         "statuses"`, `"mem": 9000.0, "gpus": 0.0, "cpus": 1.5, "ports": "[31000-31001]"}, "role": "eng",
         "statuses"`, `state: frameworks[0].tasks[0]: mem:808 of what the task "web.1" of the framework ad74b1bf-0000-4000-8000-000000000000-0000 uses: the agent has too little that this role may use`},
		{"1.4", "state", `"used_resources": {"disk": 0.0, "mem": 160.0, "gpus": 0.0, "cpus": 1.1},
      "offered`, `"used_resources": {"disk": 0.0, "mem": 160.0, "gpus": 0.0, "cpus": 2.1},
      "offered`, `state: slaves[1].used_resources: cpus:1 that the agent ad74b1bf-0000-4000-8000-000000000000-S1 says is used: no task or executor of the document uses it`},
		{"1.4", "state", `"orphan_tasks": []`, `"orphan_tasks": [{"id": "o"}]`, `state: orphan_tasks[0]: the task "o": its framework has not registered again, and is not known`},
		{"1.4", "weights", `2.0`, `1001`, `weights[0].weight: the weight 1001 of the role eng: the allocator takes weights from 0.001 to 1000`},
		{"1.11", "quota", `"role": "data"`, `"role": "*"`, `quota: configs[0].limits: the limit of the role *: this role cannot have a limit`},
		{"1.8", "state", `"role": "*", "revocable": {}`, `"role": "*", "shared": {}`, `state: slaves[0].unreserved_resources_full[4].shared: the sharing of cpus: the allocator has no shared resources: it is carried over as not shared`},
		{"1.8", "state", `"role": "*", "revocable": {}`, `"role": "*", "provider_id": {"value": "p"}`, `state: slaves[0].unreserved_resources_full[4].provider_id: the resource provider of cpus: the allocator has no resource providers: it is carried over as a resource of the agent`},
	} {
		cluster, err := Read(fixture(t, c.version, c.file, c.old, c.new))
		if err != nil {
			t.Errorf("%s: %v", c.new, err)
			continue
		}
		isThere := false
		for _, one := range cluster.LeftOut {
			isThere = isThere || one.String() == c.want
		}
		if !isThere {
			t.Errorf("%s: not %s, but %v", c.new, c.want, cluster.LeftOut)
		}
	}
}

// An unknown field that occurs often is reported once.
func TestUnknownFieldsAreCounted(t *testing.T) {
	answers := fixture(t, "1.4", "state", "", "")
	answers.State.Body = []byte(strings.ReplaceAll(string(answers.State.Body), `"port":`, `"harbour":`))
	cluster, err := Read(answers)
	want := "state: slaves[1].harbour: the field harbour of an agent: unknown, here and at 2 places in all" // the agent that registered first
	if err != nil || len(cluster.LeftOut) != 1 || cluster.LeftOut[0].String() != want {
		t.Error(err, cluster.LeftOut)
	}
}

// A reservation is used before what is unreserved, the deepest first: here the only way in which all tasks fit.
func TestReservationsAreUsedDeepestFirst(t *testing.T) {
	total, err := resources.Parse("cpus:1;cpus(a):1;cpus(a/b):1")
	if err != nil {
		t.Fatal(err)
	}
	p := &pools{free: total}
	for _, c := range []struct{ role, want string }{{"a/b", "cpus(a/b):1"}, {"a", "cpus(a):1"}, {"c", "cpus:1"}} {
		wanted := resources.Bundle{{Name: "cpus", Role: "*"}: {Scalar: 1000}}
		if got := p.take(c.role, wanted); got.Text() != c.want || len(wanted) > 0 {
			t.Errorf("%s: %s, missing %s", c.role, got.Text(), wanted.Text())
		}
	}
}

// Quotas of /roles are used if /quota was not asked (Mesos 1.9 and later).
func TestQuotaOfRoles(t *testing.T) {
	answers := fixture(t, "1.11", "", "", "")
	answers.Quota = Answer{}
	answers.Roles = Answer{"roles", []byte(`{"roles":[{"name":"data","weight":3.0,"quota":{"role":"data","consumed":{"cpus":1.0},"guarantee":{},"limit":{"cpus":12.0}}}]}`)}
	cluster, err := Read(answers)
	if err != nil || len(cluster.Limits) != 1 || cluster.Limits["data"]["cpus"] != 12_000 {
		t.Error(err, cluster)
	}
}

// An executor that does not name its role has the role of its task.
func TestRoleOfExecutor(t *testing.T) {
	state := `{"version":"1.11.0","slaves":[{"id":"S0","unreserved_resources":{"cpus":4}}],"frameworks":[{"id":"F0","roles":["a","b"],
		"tasks":[{"id":"t","slave_id":"S0","executor_id":"e","state":"TASK_RUNNING","role":"b","resources":{"cpus":1}}],
		"executors":[{"executor_id":"e","slave_id":"S0","resources":{"cpus":0.5}}]}]}`
	cluster, err := Read(Answers{State: Answer{"state", []byte(state)}})
	if err != nil || len(cluster.Frameworks[0].Holdings) != 2 || cluster.Frameworks[0].Holdings[0].Role != "b" || cluster.Frameworks[0].Holdings[1].Role != "b" {
		t.Error(err, cluster)
	}
	_, err = Read(Answers{State: Answer{"state", []byte(strings.Replace(state, `"executor_id":"e","state"`, `"executor_id":"x","state"`, 1))}})
	if err == nil || err.Error() != "state: frameworks[0].executors[0].role: missing: expected the role that the resources are allocated to" {
		t.Error(err)
	}
}
