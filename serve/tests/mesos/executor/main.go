// Command executor is a custom executor over mesos-go's v1 library, unpatched: it runs the shell command in each task's data. It has no
// token, as programs that were written for Mesos' defaults have none. Outside the proof.
package main

import (
	"context"
	"flag"
	"log"
	"net/url"
	"os"
	"os/exec"
	"strings"
	"sync"
	"syscall"
	"time"

	"github.com/pborman/uuid"

	mesos "github.com/mesos/mesos-go/api/v1/lib"
	"github.com/mesos/mesos-go/api/v1/lib/encoding"
	"github.com/mesos/mesos-go/api/v1/lib/encoding/codecs"
	"github.com/mesos/mesos-go/api/v1/lib/executor"
	"github.com/mesos/mesos-go/api/v1/lib/executor/calls"
	"github.com/mesos/mesos-go/api/v1/lib/executor/config"
	"github.com/mesos/mesos-go/api/v1/lib/httpcli"
	"github.com/mesos/mesos-go/api/v1/lib/httpcli/httpexec"
)

// program is the executor. Its lock guards the unacknowledged updates and tasks, and the commands that run.
type program struct {
	config config.Config
	sender calls.Sender

	mu      sync.Mutex
	tasks   map[string]mesos.TaskInfo
	updates map[string]executor.Call_Update
	running map[string]*exec.Cmd
	killed  map[string]bool
}

func main() {
	useJSON := flag.Bool("json", false, "speak JSON")
	flag.Parse()
	log.SetFlags(log.Lmicroseconds)
	conf, err := config.FromEnv()
	if err != nil {
		log.Fatal(err)
	}
	codec := codecs.ByMediaType[codecs.MediaTypeProtobuf]
	if *useJSON {
		codec = codecs.ByMediaType[codecs.MediaTypeJSON]
	}
	api := url.URL{Scheme: "http", Host: conf.AgentEndpoint, Path: "/api/v1/executor"}
	client := func(timeout time.Duration) *httpcli.Client {
		return httpcli.New(httpcli.Endpoint(api.String()), httpcli.Codec(codec), httpcli.Do(httpcli.With(httpcli.Timeout(timeout))))
	}
	with := []executor.CallOpt{calls.Framework(conf.FrameworkID), calls.Executor(conf.ExecutorID)}
	sender := func(c *httpcli.Client) calls.Sender {
		return calls.SenderWith(httpexec.NewSender(c.Send), with...)
	}
	p := &program{config: conf, sender: sender(client(10 * time.Second)), tasks: map[string]mesos.TaskInfo{}, updates: map[string]executor.Call_Update{},
		running: map[string]*exec.Cmd{}, killed: map[string]bool{}}
	subscriber := sender(client(365 * 24 * time.Hour))
	for lost := time.Now(); time.Since(lost) < conf.RecoveryTimeout; time.Sleep(100 * time.Millisecond) {
		response, err := subscriber.Send(context.Background(), calls.NonStreaming(p.subscription()))
		if err == nil {
			log.Print("SUBSCRIBED")
			err = p.follow(response)
			lost = time.Now()
		}
		if response != nil {
			response.Close()
		}
		log.Printf("the subscription ended: %v", err)
	}
	log.Fatal("no agent came back")
}

// subscription returns a SUBSCRIBE with the unacknowledged updates and tasks.
func (p *program) subscription() *executor.Call {
	p.mu.Lock()
	defer p.mu.Unlock()
	var tasks []mesos.TaskInfo
	for _, t := range p.tasks {
		tasks = append(tasks, t)
	}
	var updates []executor.Call_Update
	for _, u := range p.updates {
		updates = append(updates, u)
	}
	return calls.Subscribe(tasks, updates)
}

func (p *program) follow(decoder encoding.Decoder) error {
	for {
		var e executor.Event
		if err := decoder.Decode(&e); err != nil {
			return err
		}
		log.Printf("event %s", e.GetType())
		switch e.GetType() {
		case executor.Event_LAUNCH:
			p.launch(e.Launch.Task)
		case executor.Event_LAUNCH_GROUP:
			for _, t := range e.LaunchGroup.TaskGroup.Tasks {
				p.launch(t)
			}
		case executor.Event_KILL:
			p.kill(e.Kill.TaskID.Value)
		case executor.Event_ACKNOWLEDGED:
			p.mu.Lock()
			delete(p.updates, string(e.Acknowledged.UUID))
			delete(p.tasks, e.Acknowledged.TaskID.Value)
			p.mu.Unlock()
		case executor.Event_MESSAGE:
			p.message(string(e.Message.Data))
		case executor.Event_SHUTDOWN:
			go p.shutDown()
		case executor.Event_ERROR:
			log.Fatalf("ERROR: %s", e.Error.Message)
		}
	}
}

func (p *program) launch(t mesos.TaskInfo) {
	id := t.TaskID.Value
	command := exec.Command("/bin/sh", "-c", string(t.Data))
	command.Env = append(os.Environ(), "TASK="+id, "MESOS_TASK_ID="+id)
	command.SysProcAttr = &syscall.SysProcAttr{Setpgid: true}
	p.mu.Lock()
	p.tasks[id] = t
	err := command.Start()
	p.running[id] = command
	p.mu.Unlock()
	if err != nil {
		p.update(id, mesos.TASK_FAILED)
		return
	}
	p.update(id, mesos.TASK_RUNNING)
	go func() {
		state := mesos.TASK_FINISHED
		if command.Wait() != nil {
			state = mesos.TASK_FAILED
		}
		p.mu.Lock()
		delete(p.running, id)
		if p.killed[id] {
			state = mesos.TASK_KILLED
		}
		p.mu.Unlock()
		p.update(id, state)
	}()
}

func (p *program) kill(id string) {
	p.mu.Lock()
	defer p.mu.Unlock()
	if command := p.running[id]; command != nil {
		p.killed[id] = true
		syscall.Kill(-command.Process.Pid, syscall.SIGKILL)
	}
}

// update sends a status. If it is not acknowledged, the next subscription sends it again.
func (p *program) update(id string, state mesos.TaskState) {
	status := mesos.TaskStatus{TaskID: mesos.TaskID{Value: id}, ExecutorID: &mesos.ExecutorID{Value: p.config.ExecutorID}, State: &state,
		Source: mesos.SOURCE_EXECUTOR.Enum(), UUID: uuid.NewRandom()}
	call := calls.Update(status)
	p.mu.Lock()
	p.updates[string(status.UUID)] = *call.Update
	p.mu.Unlock()
	p.send(call)
}

func (p *program) send(call *executor.Call) {
	response, err := p.sender.Send(context.Background(), calls.NonStreaming(call))
	if response != nil {
		response.Close()
	}
	if err != nil {
		log.Printf("%s: %v", call.GetType(), err)
	}
}

// message answers a message of the framework, or does what it says.
func (p *program) message(text string) {
	if text == "die" {
		os.Exit(7)
	}
	p.send(calls.Message([]byte(strings.ToUpper(text))))
}

func (p *program) shutDown() {
	p.mu.Lock()
	var ids []string
	for id := range p.running {
		ids = append(ids, id)
	}
	p.mu.Unlock()
	for _, id := range ids {
		p.kill(id)
	}
	for len(ids) > 0 {
		time.Sleep(10 * time.Millisecond)
		p.mu.Lock()
		isDone := len(p.running) == 0 && len(p.updates) == 0
		p.mu.Unlock()
		if isDone {
			break
		}
	}
	os.Exit(0)
}
