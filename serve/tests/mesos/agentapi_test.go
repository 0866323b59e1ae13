// Operators' calls to an agent: by raw HTTP, and through mesos-go's own client, unpatched. Outside the proof.

package mesos

import (
	"context"
	"fmt"
	"net/http"
	"net/url"
	"path/filepath"
	"strings"
	"testing"
	"time"

	"github.com/mesos/mesos-go/api/v1/lib/agent"
	"github.com/mesos/mesos-go/api/v1/lib/agent/calls"
	"github.com/mesos/mesos-go/api/v1/lib/encoding/codecs"
	"github.com/mesos/mesos-go/api/v1/lib/httpcli"
	"github.com/mesos/mesos-go/api/v1/lib/httpcli/httpagent"
)

// onAgent starts an agent that operators can ask, runs a command there, and returns the agent's URL and its work folder.
func (s *service) onAgent(command string) (address, folder string, c *client) {
	s.t.Helper()
	folder = filepath.Join(s.folder, "a")
	p := s.process("a", filepath.Join(s.programs, "agent"), "-gateways", strings.Join(s.urls, ","), "-work", folder, "-name", "a", "-hostname", "localhost",
		"-token-file", filepath.Join(s.folder, "g0", "admin.token"), "-resources", "cpus:2;mem:1024", "-listen", "127.0.0.1:0")
	s.agents = append(s.agents, p)
	p.start()
	c = s.subscribe("admin", s.token, `{"user":"root","name":"n","roles":["web"],"failover_timeout":100,"capabilities":[{"type":"MULTI_ROLE"}]}`)
	offer := at(c.next("OFFERS"), "offers", "offers", 0)
	id := at(offer, "agent_id", "value").(string)
	c.call(202, launchCall(at(offer, "id", "value").(string), id, taskInfo("t1", id, "1.5", `,"command":{"value":`+jsonOf(command)+`}`)))
	c.acknowledge("TASK_RUNNING")
	return fmt.Sprintf("http://127.0.0.1:%v", s.agentField(id, "agent_info", "port")), folder, c
}

// ask sends a request to an agent.
func (s *service) ask(address, method, path, principal, token, body string) (int, interface{}) {
	s.t.Helper()
	other := *s
	other.urls = []string{address}
	status, value, _ := other.fetch(method, path, principal, token, body)
	return status, value
}

func TestAgentOperatorAPI(t *testing.T) {
	s := newService(t, 1, 0)
	reader, none := s.addToken("reader", "read"), s.addToken("none", "agent:x") // which ends streams
	address, folder, c := s.onAgent("echo hello; ln -s /etc/passwd outside; ln -s ../task above; sleep 1000")
	state := func() interface{} {
		_, value := s.ask(address, "GET", "/slave(1)/state", "admin", s.token, "")
		return value
	}
	value := state()
	directory, _ := at(value, "frameworks", 0, "executors", 0, "directory").(string)
	if at(value, "frameworks", 0, "id") != c.id || at(value, "frameworks", 0, "executors", 0, "tasks", 0, "state") != "TASK_RUNNING" || at(value, "resources", "cpus") != 2.0 ||
		at(value, "frameworks", 0, "executors", 0, "resources", "cpus") != 1.5 || !strings.HasPrefix(directory, folder+"/tasks/") {
		t.Fatalf("%v", value)
	}
	read := func(path string) (int, interface{}) {
		return s.ask(address, "GET", "/files/read?offset=0&path="+url.QueryEscape(path), "admin", s.token, "")
	}
	for end := time.Now().Add(20 * time.Second); ; time.Sleep(50 * time.Millisecond) { // as it is written
		if status, value := read(directory + "/stdout"); status == 200 && at(value, "data") == "hello\n" {
			break
		}
		if time.Now().After(end) {
			t.Fatal(read(directory + "/stdout"))
		}
	}
	for end := time.Now().Add(20 * time.Second); ; time.Sleep(50 * time.Millisecond) {
		if _, value := s.ask(address, "GET", "/files/browse?path="+url.QueryEscape(directory), "admin", s.token, ""); len(value.([]interface{})) == 4 {
			break
		}
		if time.Now().After(end) {
			t.Fatal("the sandbox does not have 4 files")
		}
	}
	for _, path := range []string{directory + "/outside", directory + "/above", directory + "/../task", folder + "/id"} {
		if status, value := read(path); status != 404 {
			t.Errorf("%s: %d %v", path, status, value)
		}
	}
	if status, value := s.ask(address, "GET", "/monitor/statistics", "reader", reader, ""); status != 200 || at(value, 0, "executor_id") != "t1" || at(value, 0, "statistics", "cpus_limit") != 1.5 ||
		at(value, 0, "statistics", "mem_rss_bytes").(float64) < 1<<12 || at(value, 0, "statistics", "processes").(float64) < 2 {
		t.Errorf("%d %v", status, value)
	}
	for _, one := range []struct {
		status                         int
		method, path, principal, token string
		body                           string
	}{
		{200, "GET", "/state", "reader", reader, ""},
		{403, "GET", "/state", "none", none, ""},
		{401, "GET", "/state", "", "", ""},
		{401, "GET", "/state", "reader", "wrong", ""},
		{403, "GET", "/files/read?offset=0&path=" + url.QueryEscape(directory+"/stdout"), "reader", reader, ""},
		{403, "GET", "/files/browse?path=" + url.QueryEscape(directory), "reader", reader, ""},
		{200, "GET", "/health", "", "", ""},
		{404, "POST", "/api/v1/executor", "admin", s.token, ""}, // which is on a port of its own
	} {
		if status, value := s.ask(address, one.method, one.path, one.principal, one.token, one.body); status != one.status {
			t.Errorf("%s %s of %q: %d %v, want %d", one.method, one.path, one.principal, status, value, one.status)
		}
	}
	c.call(202, `{"type":"KILL","kill":{"task_id":{"value":"t1"}}}`)
	c.acknowledge("TASK_KILLED")
	for end := time.Now().Add(20 * time.Second); at(state(), "completed_frameworks", 0, "completed_executors", 0, "completed_tasks", 0, "state") != "TASK_KILLED"; time.Sleep(50 * time.Millisecond) {
		if time.Now().After(end) {
			t.Fatalf("%v", state())
		}
	}
	if status, value := read(directory + "/stdout"); status != 200 || at(value, "data") != "hello\n" { // it is kept for a while
		t.Errorf("%d %v", status, value)
	}
	s.gateways[0].kill()
	if status, value := s.ask(address, "GET", "/state", "none", none, ""); status != http.StatusServiceUnavailable {
		t.Errorf("without a gateway: %d %v", status, value)
	}
}

func TestAgentLibrary(t *testing.T) {
	s := newService(t, 1, 0)
	address, _, c := s.onAgent("echo hello; sleep 1000")
	directory := ""
	for _, kind := range []string{"json", "protobuf"} {
		codec := codecs.ByMediaType[codecs.MediaTypeProtobuf]
		if kind == "json" {
			codec = codecs.ByMediaType[codecs.MediaTypeJSON]
		}
		sender := httpagent.NewSender(httpcli.New(httpcli.Endpoint(address+"/api/v1"), httpcli.Codec(codec), httpcli.Do(httpcli.With(httpcli.BasicAuth("admin", s.token), httpcli.Timeout(time.Minute)))).Send)
		ask := func(call *agent.Call) *agent.Response {
			t.Helper()
			answer, err := sender.Send(context.Background(), calls.NonStreaming(call))
			if err != nil {
				t.Fatalf("%s: %v: %v", kind, call.Type, err)
			}
			defer answer.Close()
			m := &agent.Response{}
			if err := answer.Decode(m); err != nil || m.Type.String() != call.Type.String() {
				t.Fatalf("%s: %v: %v %v", kind, call.Type, m.Type, err)
			}
			return m
		}
		if !ask(calls.GetHealth()).GetHealth.Healthy || ask(calls.GetVersion()).GetVersion.VersionInfo.Version != "1.11.0" || ask(calls.GetAgent()).GetAgent.AgentInfo.Hostname != "localhost" {
			t.Errorf("%s: health, version or agent are not as expected", kind)
		}
		if tasks := ask(calls.GetTasks()).GetTasks.LaunchedTasks; len(tasks) != 1 || tasks[0].TaskID.Value != "t1" || tasks[0].FrameworkID.Value != c.id {
			t.Errorf("%s: %v", kind, tasks)
		}
		if state := ask(calls.GetState()).GetState; len(state.GetTasks.LaunchedTasks) != 1 || len(state.GetExecutors.Executors) != 1 || len(state.GetFrameworks.Frameworks) != 1 {
			t.Errorf("%s: %v", kind, state)
		}
		if all := ask(calls.GetExecutors()).GetExecutors.Executors; len(all) != 1 || all[0].ExecutorInfo.ExecutorID.Value != "t1" {
			t.Errorf("%s: %v", kind, all)
		}
		containers := ask(calls.GetContainers()).GetContainers.Containers
		if len(containers) != 1 || containers[0].ResourceStatistics.GetCPUsLimit() != 1.5 || containers[0].ContainerStatus.GetExecutorPID() == 0 {
			t.Fatalf("%s: %v", kind, containers)
		}
		directory = "/frameworks/" + c.id + "/executors/t1/runs/" + containers[0].ContainerID.Value
		var names []string
		for _, one := range ask(calls.ListFiles(directory)).ListFiles.FileInfos {
			names = append(names, filepath.Base(one.Path))
		}
		if strings.Join(names, " ") != "stderr stdout" {
			t.Errorf("%s: %v", kind, names)
		}
		for end := time.Now().Add(20 * time.Second); ; time.Sleep(50 * time.Millisecond) {
			if file := ask(calls.ReadFileWithLength(directory+"/stdout", 1, 3)).ReadFile; string(file.Data) == "ell" && file.Size == 6 {
				break
			}
			if time.Now().After(end) {
				t.Fatalf("%s: the output does not come", kind)
			}
		}
	}
	c.call(202, `{"type":"KILL","kill":{"task_id":{"value":"t1"}}}`) // it would outlive the test
	c.acknowledge("TASK_KILLED")
}
