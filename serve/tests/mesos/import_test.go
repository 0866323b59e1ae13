// Our own master endpoints as a source of imports and of shadows. Outside the proof.

package mesos

import (
	"bytes"
	"encoding/json"
	"net/url"
	"os"
	"os/exec"
	"path/filepath"
	"reflect"
	"sort"
	"strings"
	"testing"
)

// stateOf returns what an import must not change: totals of agents, what tasks use by agent and role, weights and limits.
func stateOf(t *testing.T, rows [][]byte) (lines []string) {
	t.Helper()
	for _, text := range rows {
		var row struct{ Row, Agent, Role, Total, Use, Weight, Limit string }
		if err := json.Unmarshal(text, &row); err != nil {
			t.Fatal(err, string(text))
		}
		switch row.Row {
		case "agent", "task", "weight", "limit":
			lines = append(lines, strings.Join([]string{row.Row, row.Agent, row.Role, row.Total, row.Use, row.Weight, row.Limit}, " "))
		}
	}
	sort.Strings(lines)
	return lines
}

// The state of a service is imported from its `/master/state`, and the allocator then has what the service's allocator has.
func TestImportOfService(t *testing.T) {
	s := newService(t, 1, 0)
	a, c, _ := s.cluster()
	c.call(202, `{"type":"REVIVE"}`)
	c.taskOn(a, "t2", "1.5", "")
	s.change(200, "PUT", "/weights", `[{"role":"web","weight":2.5}]`)
	s.change(200, "POST", "/quota", `{"role":"web","limits":{"cpus":{"value":3},"gpus":{"value":0}}}`)
	s.change(202, "POST", "/reserve", "slaveId=n1&resources="+url.QueryEscape(`[{"name":"mem","type":"SCALAR","scalar":{"value":24},"role":"eng","reservation":{}}]`))
	folder := t.TempDir()
	for _, call := range []string{"state", "slaves", "roles", "weights", "quota"} {
		if err := os.WriteFile(filepath.Join(folder, call+".json"), s.get(0, "/master/"+call), 0o600); err != nil {
			t.Fatal(err)
		}
	}
	var lines, notes bytes.Buffer
	gateway := exec.Command(filepath.Join(s.programs, "gateway"), "import", "-partial", folder)
	gateway.Stdout, gateway.Stderr = &lines, &notes
	if err := gateway.Run(); err != nil {
		t.Fatal(err, notes.String())
	}
	if left := strings.Count(notes.String(), "left out: "); left != 1 || !strings.Contains(notes.String(), "the attributes rack of the agent n1") {
		t.Errorf("%s", notes.String())
	}
	save := exec.Command(os.Getenv("DRF"), "save")
	save.Stdin = &lines
	saved, err := save.Output()
	if err != nil {
		t.Fatal(err)
	}
	var own struct{ Rows []json.RawMessage }
	if err := json.Unmarshal(s.get(0, "/drf/v1/state"), &own); err != nil {
		t.Fatal(err)
	}
	var rows [][]byte
	for _, row := range own.Rows {
		rows = append(rows, row)
	}
	want, got := stateOf(t, rows), stateOf(t, bytes.Split(bytes.TrimSpace(saved), []byte("\n")))
	if len(want) != 5 || !reflect.DeepEqual(got, want) {
		t.Errorf("%s\n%s", strings.Join(got, "\n"), strings.Join(want, "\n"))
	}
	shadow := exec.Command(filepath.Join(s.programs, "gateway"), "shadow", "-once", "-json", "-drf", os.Getenv("DRF"), "-principal", "admin", "-secret-file",
		filepath.Join(s.folder, "g0", "admin.token"), s.urls[0])
	text, err := shadow.Output()
	if err != nil {
		t.Fatal(err)
	}
	// Two tasks of 1 and 1.5 of 4 cpus, with a limit of 3. A third of the mean of 1.25 would exceed it, and so would three.
	report := parse(string(text))
	for _, one := range []struct {
		path []interface{}
		want interface{}
	}{
		{[]interface{}{"tasks"}, 2.0}, {[]interface{}{"roles", 0, "role"}, "web"}, {[]interface{}{"roles", 0, "weight"}, 2.5},
		{[]interface{}{"roles", 0, "mesos", "resources", "cpus"}, 2.5}, {[]interface{}{"roles", 0, "same_demand", "resources", "cpus"}, 2.5},
		{[]interface{}{"roles", 0, "fair", "resources", "cpus"}, 2.5}, {[]interface{}{"roles", 0, "limit", "cpus"}, 3.0},
	} {
		if got := at(report, one.path...); got != one.want {
			t.Errorf("%v: %v, want %v", one.path, got, one.want)
		}
	}
}
