// Tests of sums over the allocator's rows. Outside the proof.

package operator

import (
	"encoding/json"
	"net/url"
	"reflect"
	"testing"

	"gateway/internal/mesos/codec"
	"gateway/internal/registry/mesos"
)

// A state as `drf save` writes it: n1 has 2 of 10 cpus reserved for eng, f1 uses 1 of these and 1 other in eng/web, and is offered 3.
const saved = `{"clock":2000,"events":11,"next_offer":5,"row":"state"}
{"active":true,"agent":"n1","row":"agent","total":"cpus(eng):2;cpus:8;mem:1024;ports:[31000-31009]"}
{"active":false,"agent":"n2","row":"agent","total":"cpus:4"}
{"clients":[{"count":2,"role":"eng/web","suppressed":true}],"framework":"f1","row":"framework"}
{"role":"eng","row":"weight","weight":"2.5"}
{"limit":"cpus:6;gpus:0","role":"eng","row":"limit"}
{"agent":"n1","framework":"f1","offer":4,"resources":"cpus:3","role":"eng/web","row":"offer"}
{"agent":"n1","framework":"f1","offer":6,"resources":"mem:512","role":"eng/web","row":"offer"}
{"agent":"n1","framework":"f1","role":"eng/web","row":"task","task":"t1","use":"cpus(eng):1;cpus:1;ports:[31003-31003]"}
{"agent":"n1","framework":"f1","resources":"cpus:1;mem:1024","role":"eng/web","row":"filter","until":6000}
{"row":"end","rows":9,"sha256":".."}
`

func TestRows(t *testing.T) {
	r := readRows(saved)
	if free := r.free("n1").Text(); free != "cpus:4;cpus(eng):1;mem:512;ports:[31000-31002,31004-31009]" {
		t.Error(free)
	}
	if consumed := r.consumed("eng").Text(); consumed != "cpus:3;ports:[31003-31003]" { // 1 that is unreserved and used, and 2 that are reserved
		t.Error(consumed)
	}
	if limit := r.limit("eng"); !reflect.DeepEqual(limit, map[string]float64{"cpus": 6, "gpus": 0}) || r.weight("eng") != 2.5 || r.weight("other") != 1 || r.filters["eng/web"] != 1 {
		t.Error(limit, r.weights, r.filters)
	}
	if r.agents["n2"].isActive || !r.agents["n1"].isActive {
		t.Error(r.agents)
	}
}

// Offers are rescinded if too little is free, and only those that have some of the wanted resources.
func TestRescinds(t *testing.T) {
	for _, c := range []struct {
		event, resources string
		want             string
		isThere          bool
	}{
		{"reserve", "cpus:4", "null", true},
		{"reserve", "cpus:5", `[{"event":"rescind","offer":4}]`, true},
		{"reserve", "cpus:7;mem:600", `[{"event":"rescind","offer":4},{"event":"rescind","offer":6}]`, true},
		{"reserve", "mem:600", `[{"event":"rescind","offer":6}]`, true},
		{"reserve", "cpus:8", "null", false}, // 1 is in use
		{"unreserve", "cpus:1", "null", true},
		{"unreserve", "cpus:2", "null", false},
	} {
		lines, isThere := readRows(saved).rescinds(c.event, "n1", byRole{"eng": parse(c.resources)})
		if text, _ := json.Marshal(lines); string(text) != c.want || isThere != c.isThere {
			t.Errorf("%s %s: %s %v", c.event, c.resources, text, isThere)
		}
	}
}

func TestAmounts(t *testing.T) {
	text, _ := json.Marshal(amounts(parse("cpus(eng):2;cpus:1.5;ports:[31000-31005,31010-32000];disks:{sda,sdb};mem:64")))
	if want := `{"cpus":3.5,"disk":0,"disks":"{sda, sdb}","gpus":0,"mem":64,"ports":"[31000-31005, 31010-32000]"}`; string(text) != want {
		t.Errorf("%s, want %s", text, want)
	}
}

func TestReadReservations(t *testing.T) {
	read := func(text string, principal string) (byRole, error) {
		m, err := codec.ReadJSON("mesos.Resource", []byte(`{"name":"cpus","type":"SCALAR","scalar":{"value":1.5}`+text+`}`))
		if err != nil {
			t.Fatal(err)
		}
		return readReservations([]codec.Message{m}, principal)
	}
	for _, text := range []string{`,"role":"eng","reservation":{}`, `,"reservations":[{"type":"DYNAMIC","role":"eng"}]`, `,"role":"eng","reservation":{},"reservations":[{"type":"DYNAMIC","role":"eng"}]`,
		`,"role":"eng","reservation":{"principal":"ops"}`} {
		for _, principal := range []string{"", "ops"} {
			if all, err := read(text, principal); err != nil || len(all) != 1 || all["eng"].Text() != "cpus:1.5" {
				t.Errorf("%s: %v %v", text, all, err)
			}
		}
	}
	for _, text := range []string{``, `,"role":"*"`, `,"reservations":[{"role":"a"},{"role":"a/b"}]`, `,"role":"eng","revocable":{}`,
		`,"role":"eng","reservation":{"labels":{"labels":[{"key":"k"}]}}`, `,"role":"eng","reservation":{"principal":"other"}`, `,"reservations":[{"type":"STATIC","role":"eng"}]`} {
		if all, err := read(text, "ops"); err == nil {
			t.Errorf("%s was accepted: %v", text, all)
		}
	}
}

// Pages of tasks, as Mesos documents `limit`, `offset` and `order`.
func TestPage(t *testing.T) {
	info := codec.New("mesos.TaskInfo").Set("name", "n").Set("task_id.value", "t").Set("agent_id.value", "n1").Protobuf()
	v := &view{rows: readRows("")}
	f := mesos.KnownFramework{Framework: mesos.Framework{ID: "f1"}}
	for k, name := range []string{"a", "b", "c"} {
		f.Tasks = append(f.Tasks, mesos.Task{Launch: mesos.Launch{Task: name, Agent: "n1", Info: info}, State: "TASK_RUNNING", Moments: []mesos.Moment{{State: "TASK_RUNNING", At: int64(1000 * (k + 1))}}})
	}
	v.Frameworks = append(v.Frameworks, f)
	v.Completed = append(v.Completed, mesos.Completed{Framework: "f2", Task: "d", Agent: "n1", State: "TASK_FINISHED", Moments: []mesos.Moment{{State: "TASK_RUNNING", At: 500}, {State: "TASK_FINISHED", At: 9000}}})
	for query, want := range map[string]string{
		"": "c b a d", "order=asc": "d a b c", "order=desc&limit=2": "c b", "limit=2&offset=1": "b a", "limit=1&offset=9": "", "limit=x&offset=-1": "c b a d", "limit=0": "",
		"framework_id=f2": "d", "framework_id=f1&task_id=b": "b", "task_id=nothing": "",
	} {
		q, _ := url.ParseQuery(query)
		got := ""
		for _, task := range v.page(q) {
			got += " " + task["id"].(string)
		}
		if want != "" {
			want = " " + want
		}
		if got != want {
			t.Errorf("%s:%s, want%s", query, got, want)
		}
	}
}

func TestDurations(t *testing.T) {
	for text, want := range map[string]bool{"5secs": true, "1.5mins": true, "10ms": true, "5": false, "secs": false, "-1secs": false, "5s": false, "": false} {
		if isDuration(text) != want {
			t.Errorf("%q: want %v", text, want)
		}
	}
}

func TestShares(t *testing.T) {
	f := map[string]float64{}
	addShares(f, []byte(`{"nodes":[{"count":1,"held":"cpus:1","path":"a/b","share":"1/4","weighted":"1/8"},{"path":"a/b/.","share":"1/4"},{"path":"a/b/./f","share":"1/4"}],"total":"cpus:4"}`))
	if !reflect.DeepEqual(f, map[string]float64{"allocator/mesos/roles/a/b/shares/dominant": 0.25}) {
		t.Error(f)
	}
}
