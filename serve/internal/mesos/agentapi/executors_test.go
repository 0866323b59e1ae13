// Tests of a custom executor and its tasks, on a folder that the tests write themselves. Outside the proof.

package agentapi

import (
	"context"
	"crypto/sha256"
	"fmt"
	"os"
	"path/filepath"
	"testing"

	"gateway/internal/mesos/agent"
	"gateway/internal/mesos/codec"
)

func keyOf(launch int, framework, id string) string {
	sum := sha256.Sum256([]byte(framework + "/" + id))
	return fmt.Sprintf("%d-%x", launch, sum[:6])
}

// newExecutorServer returns a server whose agent has the executor e of the framework f, with three tasks: one that the executor did not get, one
// that runs, and one that has ended.
func newExecutorServer(t *testing.T) (*Server, string) {
	t.Helper()
	folder, err := filepath.EvalSymlinks(t.TempDir())
	if err != nil {
		t.Fatal(err)
	}
	write := func(path string, text []byte) {
		path = filepath.Join(folder, path)
		if err := os.MkdirAll(filepath.Dir(path), 0o755); err != nil {
			t.Fatal(err)
		}
		if err := os.WriteFile(path, text, 0o644); err != nil {
			t.Fatal(err)
		}
	}
	e := codec.New("durzhanok.link.Executor").Set("framework_id.value", "f").Set("launch", 5).Set("executor_info.executor_id.value", "e").Set("executor_info.name", "the executor")
	e.Set("framework_info.user", "me").Set("framework_info.name", "fw")
	e.Sub("framework_info").Add("roles", "web")
	e.Sub("executor_info").Add("resources", codec.New("mesos.Resource").Set("name", "cpus").Set("type", "SCALAR").Set("scalar.value", 0.5))
	box := filepath.Join("executors", keyOf(5, "f", "e"))
	write(box+"/executor", e.Protobuf())
	write(box+"/token", []byte(secret))
	write(box+"/sandbox/stdout", []byte("output of e"))
	for k, states := range [][]string{nil, {"TASK_RUNNING"}, {"TASK_RUNNING", "TASK_FINISHED"}} {
		id := fmt.Sprintf("t%d", k)
		one := codec.New("durzhanok.link.Task").Set("framework_id.value", "f").Set("launch", 6+k).Set("executor", e)
		one.Set("task_info.name", id).Set("task_info.task_id.value", id).Set("task_info.agent_id.value", "n").Set("task_info.executor", e.Sub("executor_info"))
		one.Sub("task_info").Add("resources", codec.New("mesos.Resource").Set("name", "cpus").Set("type", "SCALAR").Set("scalar.value", 1.0))
		task := filepath.Join("tasks", keyOf(6+k, "f", id))
		write(task+"/task", one.Protobuf())
		for n, state := range states {
			write(task+"/sent", nil)
			write(fmt.Sprintf("%s/update-%06d", task, n), codec.New("mesos.TaskStatus").Set("task_id.value", id).Set("state", state).Set("uuid", []byte(fmt.Sprintf("%016d", 10*k+n))).Set("timestamp", 7.5).Protobuf())
		}
	}
	for k, id := range []string{"g1", "g2"} { // a group of two commands, whose default executor is d
		one := codec.New("durzhanok.link.Task").Set("framework_id.value", "f").Set("launch", 9).Set("group", "g").Set("executor_id.value", "d")
		one.Set("task_info.name", id).Set("task_info.task_id.value", id).Set("task_info.agent_id.value", "n").Set("task_info.command.value", "true")
		task := fmt.Sprintf("tasks/k-%d", k)
		write(task+"/task", one.Protobuf())
		write(task+"/sandbox/stdout", []byte("output of "+id))
	}
	a, err := agent.New(agent.Config{Folder: folder, Name: "n", Gateways: []string{"http://127.0.0.1:1"}, Info: codec.New("mesos.AgentInfo").Set("hostname", "h")})
	if err != nil {
		t.Fatal(err)
	}
	return New(a, func(context.Context, string, string) error { return nil }), folder
}

func TestExecutors(t *testing.T) {
	s, folder := newExecutorServer(t)
	for _, c := range []struct {
		call string
		path keys
		want interface{}
	}{
		{"GET_TASKS", keys{"get_tasks", "queued_tasks", 0, "task_id", "value"}, "t0"},
		{"GET_TASKS", keys{"get_tasks", "queued_tasks", 0, "state"}, "TASK_STAGING"},
		{"GET_TASKS", keys{"get_tasks", "launched_tasks", 0, "task_id", "value"}, "t1"},
		{"GET_TASKS", keys{"get_tasks", "launched_tasks", 0, "executor_id", "value"}, "e"},
		{"GET_TASKS", keys{"get_tasks", "launched_tasks", 0, "statuses", 0, "timestamp"}, 7.5},
		{"GET_TASKS", keys{"get_tasks", "terminated_tasks", 0, "state"}, "TASK_FINISHED"},
		{"GET_EXECUTORS", keys{"get_executors", "executors", 0, "executor_info", "name"}, "the executor"},
		{"GET_EXECUTORS", keys{"get_executors", "executors", 0, "executor_info", "framework_id", "value"}, "f"},
		{"GET_EXECUTORS", keys{"get_executors", "executors", 1, "executor_info", "executor_id", "value"}, "g1"},
		{"GET_EXECUTORS", keys{"get_executors", "executors", 3}, nil},
		{"GET_TASKS", keys{"get_tasks", "launched_tasks", 1, "executor_id", "value"}, "d"},
		{"GET_FRAMEWORKS", keys{"get_frameworks", "frameworks", 0, "framework_info", "name"}, "fw"},
		{"GET_CONTAINERS", keys{"get_containers", "containers"}, nil}, // it does not run
	} {
		if w := s.ask("POST", "/api/v1", "", `{"type":"`+c.call+`"}`); w.Code != 200 || at(w.Body.Bytes(), c.path...) != c.want {
			t.Errorf("%s: %v: %d %v, want %v", c.call, c.path, w.Code, at(w.Body.Bytes(), c.path...), c.want)
		}
	}
	text := s.ask("GET", "/state", "", "").Body.Bytes()
	for _, c := range []struct {
		path keys
		want interface{}
	}{
		{keys{"roles", 0}, "web"}, {keys{"name"}, "fw"}, {keys{"executors", 0, "id"}, "e"}, {keys{"executors", 2, "directory"}, folder + "/tasks/k-1/sandbox"},
		{keys{"executors", 0, "directory"}, folder + "/executors/" + keyOf(5, "f", "e") + "/sandbox"},
		{keys{"executors", 0, "queued_tasks", 0, "id"}, "t0"}, {keys{"executors", 0, "tasks", 0, "id"}, "t1"}, {keys{"executors", 0, "completed_tasks", 0, "id"}, "t2"},
		{keys{"executors", 0, "resources", "cpus"}, 2.5}, // its own 0.5, and 1 of each task that has not ended
	} {
		if got := at(text, append(keys{"frameworks", 0}, c.path...)...); got != c.want {
			t.Errorf("%v: %v, want %v", c.path, got, c.want)
		}
	}
	for path, want := range map[string]string{"e/runs/latest/stdout": "output of e", "g1/runs/latest/stdout": "output of g1", "d/runs/latest/tasks/g1/stdout": "output of g1",
		"d/runs/latest/tasks/g2/stdout": "output of g2"} {
		if w := s.ask("GET", "/files/read?offset=0&path=/frameworks/f/executors/"+path, "", ""); at(w.Body.Bytes(), "data") != want {
			t.Errorf("%s: %d %s", path, w.Code, w.Body)
		}
	}
	if w := s.ask("GET", "/files/read?offset=0&path=/frameworks/f/executors/e/runs/latest/../token", "", ""); w.Code != 404 {
		t.Errorf("%d %s", w.Code, w.Body)
	}
}
