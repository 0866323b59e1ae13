// A gateway, a supervisor and an executor for tests of a whole agent. Outside the proof.

package agent

import (
	"bufio"
	"bytes"
	"encoding/json"
	"io"
	"net/http"
	"net/http/httptest"
	"os"
	"os/exec"
	"testing"
	"time"

	"gateway/internal/mesos/codec"
)

// The program of the tests is also a supervisor, and an executor.
func TestMain(m *testing.M) {
	switch {
	case len(os.Args) == 3 && os.Args[1] == "supervise":
		if Supervise(os.Args[2]) != nil {
			os.Exit(1)
		}
		os.Exit(0)
	case len(os.Args) == 2 && os.Args[1] == "execute":
		execute()
		os.Exit(0)
	}
	os.Exit(m.Run())
}

// execute runs the data of each task as a shell command, and reports that it runs.
func execute() {
	ids := `"framework_id":{"value":"` + os.Getenv("MESOS_FRAMEWORK_ID") + `"},"executor_id":{"value":"` + os.Getenv("MESOS_EXECUTOR_ID") + `"}`
	post := func(call string) io.Reader {
		request, _ := http.NewRequest(http.MethodPost, "http://"+os.Getenv("MESOS_AGENT_ENDPOINT")+"/api/v1/executor", bytes.NewReader([]byte(`{`+ids+`,`+call+`}`)))
		request.Header.Set("Content-Type", codec.TypeJSON)
		request.Header.Set("Authorization", "Bearer "+os.Getenv("MESOS_EXECUTOR_AUTHENTICATION_TOKEN"))
		answer, err := http.DefaultClient.Do(request)
		if err != nil {
			os.Exit(1)
		}
		return answer.Body
	}
	for in := bufio.NewReader(post(`"type":"SUBSCRIBE","subscribe":{}`)); ; {
		text, err := codec.ReadRecord(in, 1<<20)
		if err != nil {
			return
		}
		var event struct {
			Launch struct {
				Task struct {
					Data   []byte
					TaskID json.RawMessage `json:"task_id"`
				}
			}
		}
		json.Unmarshal(text, &event)
		task := event.Launch.Task
		if len(task.Data) == 0 {
			continue
		}
		exec.Command("/bin/sh", "-c", string(task.Data)).Start()
		uuid, _ := json.Marshal(append([]byte(randomHex(4)), randomHex(4)...))
		post(`"type":"UPDATE","update":{"status":{"task_id":` + string(task.TaskID) + `,"state":"TASK_RUNNING","source":"SOURCE_EXECUTOR","uuid":` + string(uuid) + `}}`)
	}
}

// fakeGateway is the gateway of one agent.
type fakeGateway struct {
	*testing.T
	*httptest.Server
	events chan codec.Message // for the agent
	calls  chan codec.Message // of the agent, but REGISTER
	launch int64
}

func newGateway(t *testing.T) *fakeGateway {
	g := &fakeGateway{T: t, events: make(chan codec.Message, 100), calls: make(chan codec.Message, 100)}
	g.Server = httptest.NewServer(http.HandlerFunc(func(w http.ResponseWriter, r *http.Request) {
		body, _ := io.ReadAll(r.Body)
		call, err := codec.ReadProtobuf("durzhanok.link.Call", body)
		if err != nil {
			http.Error(w, err.Error(), http.StatusBadRequest)
			return
		}
		if call.Enum("type") != "REGISTER" {
			g.calls <- call
			w.WriteHeader(http.StatusAccepted)
			return
		}
		form, _ := codec.Accepts(r.Header.Get("Accept"), "")
		for {
			w.(http.Flusher).Flush()
			select {
			case e := <-g.events:
				w.Write(form.Record(e))
			case <-time.After(2 * time.Second):
				w.Write(form.Record(codec.New("durzhanok.link.Event").Set("type", "HEARTBEAT")))
			case <-r.Context().Done():
				return
			}
		}
	}))
	t.Cleanup(func() {
		g.CloseClientConnections()
		g.Close()
	})
	return g
}

// run sends a task to the agent.
func (g *fakeGateway) run(task codec.Message, executor codec.Message) {
	g.launch++
	one := codec.New("durzhanok.link.Task").Set("framework_id.value", "f").Set("launch", g.launch).Set("state", "TASK_STAGING").Set("task_info", task)
	if !executor.IsAbsent() {
		one.Set("executor", codec.New("durzhanok.link.Executor").Set("framework_id.value", "f").Set("launch", 1).Set("executor_info", executor))
	}
	g.events <- codec.New("durzhanok.link.Event").Set("type", "RUN").Add("tasks", one)
}

// waitIdle waits until an agent has neither tasks nor executors, and writes nothing more.
func (g *fakeGateway) waitIdle(a *Agent) {
	g.Helper()
	for end := time.Now().Add(time.Minute); ; time.Sleep(10 * time.Millisecond) {
		a.mu.Lock()
		left := len(a.tasks) + len(a.executors)
		a.mu.Unlock()
		if left == 0 {
			return
		}
		if time.Now().After(end) {
			g.Fatalf("%d tasks and executors are left", left)
		}
	}
}

// status waits for the next status of a task.
func (g *fakeGateway) status(id string) codec.Message {
	g.Helper()
	for late := time.After(5 * time.Minute); ; {
		select {
		case call := <-g.calls:
			if status := call.Sub("status"); status.Text("task_id.value") == id {
				return status
			}
		case <-late:
			g.Fatalf("no status of %s came", id)
		}
	}
}
