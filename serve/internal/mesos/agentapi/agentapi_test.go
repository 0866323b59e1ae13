// Tests of the calls, on an agent's folder that the tests write themselves. Outside the proof.

package agentapi

import (
	"context"
	"encoding/base64"
	"encoding/json"
	"net/http"
	"net/http/httptest"
	"net/url"
	"os"
	"path/filepath"
	"strings"
	"testing"

	"gateway/internal/mesos/agent"
	"gateway/internal/mesos/codec"
)

const secret = "SECRET"

// newServer returns a server whose agent has three commands: t1 has finished, and this is acknowledged; t2 has failed, and this is not
// acknowledged; t3 is not started. Callers have the rights that their header names.
func newServer(t *testing.T) (*Server, string) {
	t.Helper()
	folder, err := filepath.EvalSymlinks(t.TempDir())
	if err != nil {
		t.Fatal(err)
	}
	write := func(path, text string) {
		path = filepath.Join(folder, path)
		if err := os.MkdirAll(filepath.Dir(path), 0o755); err != nil {
			t.Fatal(err)
		}
		if err := os.WriteFile(path, []byte(text), 0o644); err != nil {
			t.Fatal(err)
		}
	}
	for k, id := range []string{"t1", "t2", "t3"} {
		one := codec.New("durzhanok.link.Task").Set("framework_id.value", "f").Set("launch", k+1).Set("user", "me")
		one.Set("task_info.name", "name of "+id).Set("task_info.task_id.value", id).Set("task_info.agent_id.value", "n").Set("task_info.command.value", "true")
		one.Sub("task_info").Add("resources", codec.New("mesos.Resource").Set("name", "cpus").Set("type", "SCALAR").Set("scalar.value", 1.5).Set("allocation_info.role", "web"))
		box := filepath.Join("tasks", "k-"+id)
		write(box+"/task", string(one.Protobuf()))
		write(box+"/sandbox/stdout", "output of "+id)
		write(box+"/token", secret)
	}
	write("tasks/k-t1/started", "")
	write("tasks/k-t1/exit", `{"code":0}`)
	write("tasks/k-t1/done", "")
	write("tasks/k-t2/started", "")
	write("tasks/k-t2/exit", `{"code":3}`)
	write("secret", secret)
	a, err := agent.New(agent.Config{Folder: folder, Name: "n", Gateways: []string{"http://127.0.0.1:1"}, Info: codec.New("mesos.AgentInfo").Set("hostname", "h").Set("port", 5051)})
	if err != nil {
		t.Fatal(err)
	}
	return New(a, func(_ context.Context, authorization, right string) error {
		if !strings.Contains(authorization, right) {
			return &agent.Denied{Status: http.StatusForbidden, Text: "no right to " + right}
		}
		return nil
	}), folder
}

func (s *Server) ask(method, path, rights, body string, headers ...string) *httptest.ResponseRecorder {
	r, w := httptest.NewRequest(method, path, strings.NewReader(body)), httptest.NewRecorder()
	r.Header.Set("Authorization", rights)
	r.Header.Set("Content-Type", codec.TypeJSON)
	for k := 0; k < len(headers); k += 2 {
		r.Header.Set(headers[k], headers[k+1])
	}
	s.ServeHTTP(w, r)
	return w
}

// at returns the JSON value at a path of keys and indexes, or nil.
func at(text []byte, path ...interface{}) (value interface{}) {
	json.Unmarshal(text, &value)
	for _, key := range path {
		switch key := key.(type) {
		case string:
			in, _ := value.(map[string]interface{})
			value = in[key]
		case int:
			in, _ := value.([]interface{})
			if key >= len(in) {
				return nil
			}
			value = in[key]
		}
	}
	return value
}

type keys []interface{}

func TestCalls(t *testing.T) {
	s, _ := newServer(t)
	for _, c := range []struct {
		call string
		path keys
		want interface{}
	}{
		{"GET_HEALTH", keys{"get_health", "healthy"}, true},
		{"GET_VERSION", keys{"get_version", "version_info", "version"}, "1.11.0"},
		{"GET_AGENT", keys{"get_agent", "agent_info", "hostname"}, "h"},
		{"GET_TASKS", keys{"get_tasks", "completed_tasks", 0, "task_id", "value"}, "t1"},
		{"GET_TASKS", keys{"get_tasks", "completed_tasks", 0, "state"}, "TASK_FINISHED"},
		{"GET_TASKS", keys{"get_tasks", "terminated_tasks", 0, "state"}, "TASK_FAILED"},
		{"GET_TASKS", keys{"get_tasks", "terminated_tasks", 0, "statuses", 0, "message"}, "Command exited with status 3"},
		{"GET_TASKS", keys{"get_tasks", "launched_tasks", 0, "state"}, "TASK_STAGING"},
		{"GET_TASKS", keys{"get_tasks", "launched_tasks", 0, "framework_id", "value"}, "f"},
		{"GET_TASKS", keys{"get_tasks", "launched_tasks", 0, "resources", 0, "scalar", "value"}, 1.5},
		{"GET_STATE", keys{"get_state", "get_tasks", "terminated_tasks", 0, "name"}, "name of t2"},
		{"GET_STATE", keys{"get_state", "get_frameworks", "frameworks", 0, "framework_info", "user"}, "me"},
		{"GET_STATE", keys{"get_state", "get_executors", "executors", 0, "executor_info", "executor_id", "value"}, "t2"},
		{"GET_EXECUTORS", keys{"get_executors", "completed_executors", 0, "executor_info", "executor_id", "value"}, "t1"},
		{"GET_FRAMEWORKS", keys{"get_frameworks", "frameworks", 0, "framework_info", "id", "value"}, "f"},
		{"GET_CONTAINERS", keys{"get_containers", "containers"}, nil}, // nothing runs
	} {
		w := s.ask("POST", "/api/v1", "read", `{"type":"`+c.call+`"}`)
		if text := w.Body.Bytes(); w.Code != 200 || at(text, "type") != c.call || at(text, c.path...) != c.want {
			t.Errorf("%s: %v: %d %v, want %v", c.call, c.path, w.Code, at(text, c.path...), c.want)
		}
		w = s.ask("POST", "/slave(1)/api/v1", "read", `{"type":"`+c.call+`"}`, "Accept", codec.TypeProtobuf)
		m, err := codec.ReadProtobuf("mesos.agent.Response", w.Body.Bytes())
		if err != nil || w.Header().Get("Content-Type") != codec.TypeProtobuf || at(m.JSON(), c.path...) != c.want {
			t.Errorf("%s as protobuf: %v: %v %v, want %v", c.call, c.path, err, at(m.JSON(), c.path...), c.want)
		}
	}
}

func TestState(t *testing.T) {
	s, folder := newServer(t)
	for _, c := range []struct {
		path keys
		want interface{}
	}{
		{keys{"version"}, "1.11.0"}, {keys{"hostname"}, "h"}, {keys{"pid"}, "slave(1)@h:5051"}, {keys{"flags", "work_dir"}, folder},
		{keys{"frameworks", 0, "id"}, "f"}, {keys{"frameworks", 0, "user"}, "me"},
		{keys{"frameworks", 0, "executors", 0, "id"}, "t2"}, {keys{"frameworks", 0, "executors", 1, "id"}, "t3"},
		{keys{"frameworks", 0, "executors", 0, "directory"}, folder + "/tasks/k-t2/sandbox"},
		{keys{"frameworks", 0, "executors", 1, "resources", "cpus"}, 1.5}, {keys{"frameworks", 0, "executors", 1, "resources", "mem"}, 0.0},
		{keys{"frameworks", 0, "executors", 1, "tasks", 0, "id"}, "t3"}, {keys{"frameworks", 0, "executors", 1, "tasks", 0, "role"}, "web"},
		{keys{"frameworks", 0, "executors", 0, "completed_tasks", 0, "state"}, "TASK_FAILED"},
		{keys{"frameworks", 0, "completed_executors", 0, "completed_tasks", 0, "state"}, "TASK_FINISHED"},
		{keys{"completed_frameworks", 0}, nil},
	} {
		for _, name := range []string{"/state", "/slave(1)/state", "/state.json"} {
			w := s.ask("GET", name, "read", "")
			if got := at(w.Body.Bytes(), c.path...); w.Code != 200 || w.Header().Get("Content-Type") != "application/json" || got != c.want {
				t.Errorf("%s: %v: %d %v, want %v", name, c.path, w.Code, got, c.want)
			}
		}
	}
	if w := s.ask("GET", "/monitor/statistics", "read", ""); w.Code != 200 || strings.TrimSpace(w.Body.String()) != "[]" {
		t.Error(w.Code, w.Body)
	}
}

func TestFiles(t *testing.T) {
	s, folder := newServer(t)
	box := folder + "/tasks/k-t2/sandbox"
	os.Mkdir(box+"/sub", 0o750)
	os.WriteFile(box+"/binary", []byte{0, 255, 'x'}, 0o600)
	os.WriteFile(box+"/long", make([]byte, 3*maxRead), 0o600)
	read := func(name, more string) *httptest.ResponseRecorder {
		return s.ask("GET", "/files/read?path="+url.QueryEscape(name)+more, "operate", "")
	}
	for _, c := range []struct{ name, more, want string }{
		{box + "/stdout", "&offset=0", `{"data":"output of t2","offset":0}`},
		{box + "/stdout", "&offset=7&length=2", `{"data":"of","offset":7}`},
		{box + "/stdout", "&offset=-1", `{"data":"","offset":12}`},
		{box + "/stdout", "", `{"data":"","offset":12}`},
		{box + "/stdout", "&offset=99", `{"data":"","offset":99}`},
		{"/frameworks/f/executors/t2/runs/latest/stdout", "&offset=0", `{"data":"output of t2","offset":0}`},
		{"/frameworks/f/executors/t1/runs/k-t1/stdout", "&offset=0", `{"data":"output of t1","offset":0}`},
	} {
		w := read(c.name, c.more)
		if w.Code != 200 || strings.TrimSpace(w.Body.String()) != c.want {
			t.Errorf("%s%s: %d %s, want %s", c.name, c.more, w.Code, w.Body, c.want)
		}
	}
	if w := read(box+"/long", "&offset=0&length=99999999"); len(at(w.Body.Bytes(), "data").(string)) != maxRead {
		t.Errorf("%d bytes", len(at(w.Body.Bytes(), "data").(string)))
	}
	w := s.ask("GET", "/files/browse?path="+url.QueryEscape(box), "operate", "")
	var names []string
	for k := 0; at(w.Body.Bytes(), k) != nil; k++ {
		names = append(names, at(w.Body.Bytes(), k, "path").(string)+" "+at(w.Body.Bytes(), k, "mode").(string))
	}
	if text := strings.ReplaceAll(strings.Join(names, ", "), box, ""); w.Code != 200 || text != "/binary -rw-------, /long -rw-------, /stdout -rw-r--r--, /sub drwxr-x---" || at(w.Body.Bytes(), 2, "size") != 12.0 || at(w.Body.Bytes(), 2, "nlink") != 1.0 {
		t.Errorf("%d %s", w.Code, w.Body)
	}
	w = s.ask("POST", "/api/v1", "read operate", `{"type":"LIST_FILES","list_files":{"path":"`+box+`"}}`)
	if at(w.Body.Bytes(), "list_files", "file_infos", 2, "path") != box+"/stdout" || at(w.Body.Bytes(), "list_files", "file_infos", 2, "size") != 12.0 || at(w.Body.Bytes(), "list_files", "file_infos", 2, "mode") != float64(0o100644) {
		t.Errorf("%d %s", w.Code, w.Body)
	}
	w = s.ask("POST", "/api/v1", "read operate", `{"type":"READ_FILE","read_file":{"path":"`+box+`/binary","offset":1,"length":9}}`)
	if data, _ := at(w.Body.Bytes(), "read_file", "data").(string); data != base64.StdEncoding.EncodeToString([]byte{255, 'x'}) || at(w.Body.Bytes(), "read_file", "size") != 3.0 {
		t.Errorf("%d %s", w.Code, w.Body)
	}
	w = s.ask("POST", "/api/v1", "read operate", `{"type":"READ_FILE","read_file":{"path":"`+box+`/stdout","offset":18446744073709551615}}`)
	if at(w.Body.Bytes(), "read_file", "size") != 12.0 || w.Code != 200 {
		t.Errorf("%d %s", w.Code, w.Body)
	}
}

// Whatever the path, and whatever a task puts into its sandbox, nothing outside of the sandbox is shown.
func TestNothingOutsideIsShown(t *testing.T) {
	s, folder := newServer(t)
	box := folder + "/tasks/k-t2/sandbox"
	for name, to := range map[string]string{"up": "../token", "far": "../../../secret", "top": "/", "passwd": "/etc/passwd", "self": "/proc/self/environ", "other": "../../k-t1/sandbox/stdout"} {
		if err := os.Symlink(to, box+"/"+name); err != nil {
			t.Fatal(err)
		}
	}
	os.Rename(folder+"/tasks/k-t3/sandbox", folder+"/tasks/k-t3/moved")
	os.Symlink("/etc", folder+"/tasks/k-t3/sandbox")
	virtual := "/frameworks/f/executors/t2/runs/latest"
	var names []string
	for _, base := range []string{box, virtual} {
		for _, one := range []string{"/up", "/far", "/top/etc/passwd", "/passwd", "/self", "/other", "/../token", "/../../../secret", "/sub/../../token", "/../sandbox/../token", "/top"} {
			names = append(names, base+one)
		}
	}
	names = append(names, folder+"/secret", folder+"/id", folder+"/tasks/k-t2/token", folder+"/tasks/k-t2/task", folder+"/tasks/k-t2", folder+"/tasks", folder, "/", "", ".", "..", "/etc/passwd", "etc/passwd",
		folder+"/tasks/k-t3/sandbox/passwd", folder+"/tasks/../secret", folder+"/tasks/k-t2/sandbox/../../../secret", folder+"/executors", folder+"/tasks//k-t2/token", folder+"/tasks/k-t2/./token",
		folder+"x/tasks/k-t2/sandbox/stdout", folder+"/other/k-t2/sandbox/stdout", "/frameworks/f/executors/../executors/t9/runs/latest/stdout", "/frameworks/f/executors/t2/runs/other/stdout", "\x00", box+"/stdout\x00")
	for _, name := range names {
		quoted, _ := json.Marshal(name)
		for what, w := range map[string]*httptest.ResponseRecorder{
			"read":      s.ask("GET", "/files/read?offset=0&path="+url.QueryEscape(name), "operate", ""),
			"browse":    s.ask("GET", "/files/browse?path="+url.QueryEscape(name), "operate", ""),
			"READ_FILE": s.ask("POST", "/api/v1", "read operate", `{"type":"READ_FILE","read_file":{"path":`+string(quoted)+`,"offset":0}}`),
			"LIST":      s.ask("POST", "/api/v1", "read operate", `{"type":"LIST_FILES","list_files":{"path":`+string(quoted)+`}}`),
		} {
			if w.Code < 400 || w.Code >= 500 || strings.Contains(w.Body.String(), secret) || strings.Contains(w.Body.String(), "root:") {
				t.Errorf("%s of %q: %d %.200s", what, name, w.Code, w.Body)
			}
		}
	}
}

func TestRefusals(t *testing.T) {
	s, folder := newServer(t)
	file := url.QueryEscape(folder + "/tasks/k-t2/sandbox/stdout")
	for _, c := range []struct {
		method, path, rights, body string
		headers                    []string
		status                     int
		want                       string
	}{
		{"POST", "/api/v1", "", `{"type":"GET_STATE"}`, nil, 403, "no right to read"},
		{"GET", "/state", "operate", "", nil, 403, "no right to read"},
		{"GET", "/monitor/statistics", "", "", nil, 403, "no right to read"},
		{"GET", "/files/read?offset=0&path=" + file, "read", "", nil, 403, "no right to operate"},
		{"GET", "/files/browse?path=" + file, "read", "", nil, 403, "no right to operate"},
		{"POST", "/api/v1", "read", `{"type":"READ_FILE","read_file":{"path":"x","offset":0}}`, nil, 403, "no right to operate"},
		{"POST", "/api/v1", "read", `{"type":"LIST_FILES","list_files":{"path":"x"}}`, nil, 403, "no right to operate"},
		{"POST", "/api/v1", "read", `{}`, nil, 400, "Expecting 'type' to be present"},
		{"POST", "/api/v1", "read", `{"type":"NO_SUCH"}`, nil, 400, "Failed to find enum for 'NO_SUCH'"},
		{"POST", "/api/v1", "read", `{"type":"PRUNE_IMAGES"}`, nil, 501, "PRUNE_IMAGES is not supported"},
		{"POST", "/api/v1", "read", `{"type":"GET_STATE"}`, []string{"Accept", codec.TypeRecordIO}, 406, "Expecting 'Accept' to allow"},
		{"POST", "/api/v1", "read", `{"type":"READ_FILE"}`, nil, 400, "Expecting 'read_file' to be present"},
		{"POST", "/api/v1", "read", `{"type":"READ_FILE","read_file":{"path":"x"}}`, nil, 400, "offset"},
		{"POST", "/api/v1", "read", `{"type":"READ_FILE","read_file":{"path":7,"offset":0}}`, nil, 400, "is not a string"},
		{"POST", "/api/v1", "read", `{"type":"LAUNCH_NESTED_CONTAINER","launch_nested_container":{"container_id":{"value":"c"}}}`, nil, 501, "LAUNCH_NESTED_CONTAINER is not supported"},
		{"POST", "/api/v1", "read", `{"type":"UNKNOWN"}`, nil, 501, "UNKNOWN is not supported"},
		{"POST", "/api/v1", "read", `{"type":"GET_STATE"}`, []string{"Content-Type", "text/plain"}, 415, "Expecting 'Content-Type' of"},
		{"POST", "/api/v1", "read", `{"type":"GET_STATE"}`, []string{"Accept", "text/html"}, 406, "Expecting 'Accept' to allow"},
		{"GET", "/api/v1", "read", "", nil, 405, "Expecting one of { 'POST' }, but received 'GET'"},
		{"POST", "/state", "read", "", nil, 405, "Expecting one of { 'GET' }, but received 'POST'"},
		{"GET", "/files/read?offset=0", "operate", "", nil, 400, "Expecting 'path=value' in query."},
		{"GET", "/files/browse", "operate", "", nil, 400, "Expecting 'path=value' in query."},
		{"GET", "/files/read?offset=x&path=" + file, "operate", "", nil, 400, "Failed to parse offset"},
		{"GET", "/files/read?offset=-2&path=" + file, "operate", "", nil, 400, "Negative offset provided: -2."},
		{"GET", "/files/read?offset=0&length=-5&path=" + file, "operate", "", nil, 400, "Negative length provided: -5."},
		{"GET", "/files/read?offset=0&path=" + url.QueryEscape(folder+"/tasks/k-t2/sandbox"), "operate", "", nil, 400, "Cannot read a directory."},
		{"GET", "/files/browse?path=" + file, "operate", "", nil, 404, "is not found"},
		{"GET", "/files/download?path=" + file, "operate", "", nil, 404, "there is no /files/download"},
		{"GET", "/health", "", "", nil, 200, ""},
		{"GET", "/sandbox", "read", "", nil, 403, "no right to operate"},
		{"GET", "/sandbox", "operate", "", nil, 200, `<script type="module" src="/sandbox.js"></script>`},
		{"GET", "/sandbox.js", "", "", nil, 200, "addEventListener"},
		{"GET", "/sandbox.html", "operate", "", nil, 404, "there is no /sandbox.html"},
	} {
		w := s.ask(c.method, c.path, c.rights, c.body, c.headers...)
		if w.Code != c.status || !strings.Contains(w.Body.String(), c.want) {
			t.Errorf("%s %s %s: %d %s, want %d %s", c.method, c.path, c.body, w.Code, w.Body, c.status, c.want)
		}
	}
}
