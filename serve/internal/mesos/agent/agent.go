// Package agent runs tasks on a machine: it registers at a gateway, starts the commands that it gets, and reports their states until these are
// acknowledged. Outside the proof.
package agent

import (
	"bufio"
	"bytes"
	"context"
	"errors"
	"fmt"
	"io"
	"log"
	"net"
	"net/http"
	"os"
	"path/filepath"
	"strings"
	"sync"
	"time"

	"gateway/internal/disk"
	"gateway/internal/mesos/codec"
)

// Config says how an agent runs.
type Config struct {
	Folder    string   // of its id and its tasks
	Name      string   // that its id begins with
	Gateways  []string // URLs
	Principal string
	Token     string
	Info      codec.Message // AgentInfo, without an id
	Keep      time.Duration // for which sandboxes of ended tasks are kept
	Program   []string      // that supervises a task, when the task's folder is appended

	ShutdownGrace       time.Duration // from SHUTDOWN to the end of an executor that does not say otherwise
	RegistrationTimeout time.Duration // in which an executor must subscribe, after its start and after the agent's
	RecoveryTimeout     time.Duration // in which executors try to subscribe again

	SwitchUser bool   // tasks run as their frameworks' users, or else as the agent's
	Cgroups    string // folder of groups with limits, or nothing

	OutputBytes int64 // of stdout and of stderr, before a new file begins
	OutputFiles int   // that are kept of each
}

// Agent is a running agent.
type Agent struct {
	config Config
	id     string
	client *http.Client

	listener net.Listener // for executors
	endpoint string       // its address

	mu        sync.Mutex
	gateway   int // the one in use
	tasks     map[string]*task
	executors map[string]*executor
}

// New opens an agent's folder, and resumes the tasks in it.
func New(config Config) (*Agent, error) {
	a := &Agent{config: config, tasks: map[string]*task{}, executors: map[string]*executor{}, client: &http.Client{Transport: &http.Transport{ResponseHeaderTimeout: 25 * time.Second, MaxIdleConnsPerHost: 16}}}
	folder, err := filepath.Abs(config.Folder) // tasks get to know it
	if err != nil {
		return nil, err
	}
	a.config.Folder, config.Folder = folder, folder
	for _, kind := range []string{"tasks", "executors"} {
		if err := os.MkdirAll(filepath.Join(config.Folder, kind), 0o700); err != nil {
			return nil, err
		}
	}
	if _, err := disk.TryLock(filepath.Join(config.Folder, "lock")); err != nil {
		return nil, fmt.Errorf("%s: another agent uses it (%w)", config.Folder, err)
	}
	path := filepath.Join(config.Folder, "id")
	text, err := os.ReadFile(path)
	if os.IsNotExist(err) { // a lost folder is another agent
		text = []byte(config.Name + "-" + randomHex(6))
		err = disk.WriteFile(path, text)
	}
	if err != nil {
		return nil, err
	}
	a.id = strings.TrimSpace(string(text))
	for kind, takeUp := range map[string]func(string) error{"tasks": a.takeUp, "executors": a.takeUpExecutor} {
		folders, err := os.ReadDir(filepath.Join(config.Folder, kind))
		if err != nil {
			return nil, err
		}
		for _, folder := range folders {
			if err := takeUp(filepath.Join(config.Folder, kind, folder.Name())); err != nil {
				log.Printf("the folder %s/%s is left alone: %v", kind, folder.Name(), err)
			}
		}
	}
	a.adopt()
	a.listener, err = a.listen()
	return a, err
}

// ID returns the agent's id.
func (a *Agent) ID() string { return a.id }

// Run keeps a link to one of the gateways until the context ends. Tasks keep running after that.
func (a *Agent) Run(ctx context.Context) {
	a.mu.Lock()
	for _, t := range a.tasks {
		go a.watch(ctx, t)
	}
	for _, e := range a.executors {
		go a.tend(ctx, e)
	}
	a.mu.Unlock()
	go a.serve(ctx, a.listener)
	go a.collect(ctx)
	for wait := 100 * time.Millisecond; ctx.Err() == nil; {
		start := time.Now()
		err := a.link(ctx)
		if ctx.Err() != nil {
			return
		}
		log.Printf("the link to %s ended: %v", a.url(), err)
		a.next()
		if wait *= 2; wait > 2*time.Second || time.Since(start) > 10*time.Second {
			wait = 2 * time.Second
		}
		select {
		case <-time.After(wait / 2):
		case <-ctx.Done():
		}
	}
}

func (a *Agent) url() string {
	a.mu.Lock()
	defer a.mu.Unlock()
	return a.config.Gateways[a.gateway%len(a.config.Gateways)]
}

// next changes to another gateway.
func (a *Agent) next() {
	a.mu.Lock()
	defer a.mu.Unlock()
	a.gateway++
}

func (a *Agent) call(kind string) codec.Message {
	return codec.New("durzhanok.link.Call").Set("type", kind).Set("agent_id.value", a.id)
}

// post sends a call of the link.
func (a *Agent) post(ctx context.Context, url string, call codec.Message) (*http.Response, error) {
	request, err := http.NewRequestWithContext(ctx, http.MethodPost, strings.TrimSuffix(url, "/")+"/drf/v1/agent-link", bytes.NewReader(call.Protobuf()))
	if err != nil {
		return nil, err
	}
	request.Header.Set("Content-Type", codec.TypeProtobuf)
	request.Header.Set("Accept", codec.TypeProtobuf)
	request.SetBasicAuth(a.config.Principal, a.config.Token)
	answer, err := a.client.Do(request)
	if err != nil {
		return nil, err
	}
	if answer.StatusCode != http.StatusOK && answer.StatusCode != http.StatusAccepted {
		text, _ := io.ReadAll(io.LimitReader(answer.Body, 1000))
		answer.Body.Close()
		return nil, &httpError{answer.StatusCode, fmt.Sprintf("%s: %s", answer.Status, bytes.TrimSpace(text))}
	}
	return answer, nil
}

const (
	maxRecord  = 256 << 20
	silentTime = 20 * time.Second // without a heartbeat, of which there is one each 5 seconds
)

// link registers, and does what the gateway says, until the link ends.
func (a *Agent) link(ctx context.Context) error {
	ctx, cancel := context.WithCancel(ctx)
	defer cancel()
	answer, err := a.post(ctx, a.url(), a.call("REGISTER").Set("agent_info", a.config.Info))
	if err != nil {
		return err
	}
	defer answer.Body.Close()
	silence := time.AfterFunc(silentTime, cancel)
	in := bufio.NewReaderSize(answer.Body, 1<<16)
	for {
		text, err := codec.ReadRecord(in, maxRecord)
		if err != nil {
			return err
		}
		silence.Reset(silentTime)
		e, err := codec.ReadProtobuf("durzhanok.link.Event", text)
		if err != nil {
			return err
		}
		if e.Enum("type") == "ERROR" {
			return fmt.Errorf("the gateway ended it: %s", e.Text("error"))
		}
		a.do(e)
	}
}

// do handles an event.
func (a *Agent) do(e codec.Message) {
	switch e.Enum("type") {
	case "REGISTERED":
		log.Printf("registered as %s at %s", a.id, a.url())
		expected := map[string]bool{}
		for _, one := range e.List("executors") {
			expected[filepath.Base(executorFolder(a, one))] = true
		}
		a.endOtherExecutors(expected)
		expected = map[string]bool{}
		var missing []codec.Message
		for _, one := range e.List("tasks") {
			if expected[keyOf(one)] = true; a.expect(one) {
				missing = append(missing, one)
			}
		}
		a.endOthers(expected)
		a.startAll(missing)
		for _, one := range e.List("executors") {
			a.expectExecutor(one)
		}
	case "RUN":
		a.startAll(e.List("tasks"))
	case "KILL":
		a.kill(e.Sub("kill"))
	case "SHUTDOWN":
		for _, one := range e.List("executors") {
			a.expectExecutor(one)
		}
	case "MESSAGE":
		if to := a.findExecutor(e.Text("message.framework_id.value"), e.Text("message.executor_id.value")); to != nil {
			to.tell(e.Bytes("message.data"))
		}
	}
}

// expect compares a task that the gateway knows with the tasks of this agent, and reports whether it is to be started.
func (a *Agent) expect(one codec.Message) bool {
	known := a.find(keyOf(one)) != nil || a.repeat(one)
	switch {
	case one.Bool("killing"):
		a.kill(one)
	case known:
	case one.Enum("state") == "TASK_STAGING":
		return true
	default:
		a.reject(one, "TASK_LOST", "REASON_AGENT_RESTARTED", "the agent does not know the task: its folder was lost")
	}
	return false
}

// endOthers kills tasks that the gateway does not know: tasks of frameworks that were removed, or that were reported as lost.
func (a *Agent) endOthers(expected map[string]bool) {
	a.mu.Lock()
	var others []*task
	for key, t := range a.tasks {
		if !expected[key] {
			others = append(others, t)
		}
	}
	a.mu.Unlock()
	for _, t := range others {
		log.Printf("task %s is not known to the gateway: it is killed", t.id)
		if t.isRunBy {
			a.killByExecutor(t, codec.New("durzhanok.link.Task"))
			continue
		}
		t.kill(time.Second)
	}
}

func (a *Agent) find(key string) *task {
	a.mu.Lock()
	defer a.mu.Unlock()
	return a.tasks[key]
}

// report sends a status until a gateway acknowledges it; from then on the service repeats it. A status is skipped if no gateway takes it because
// too many are waiting for the framework and the task has ended, so that the report of the end is not delayed.
func (a *Agent) report(ctx context.Context, t *task, status codec.Message) bool {
	call := a.call("UPDATE").Set("framework_id.value", t.framework).Set("launch", t.launch).Set("status", status)
	return a.sendUnless(ctx, call, func(err error) bool {
		refused := (*httpError)(nil)
		return errors.As(err, &refused) && refused.status == http.StatusTooManyRequests && !isTerminal(status.Enum("state")) && t.isOver()
	})
}

// send sends a call until a gateway takes it, and reports whether one did.
func (a *Agent) send(ctx context.Context, call codec.Message) bool {
	return a.sendUnless(ctx, call, func(error) bool { return false })
}

// sendUnless sends a call until a gateway takes it, or it is to be skipped because of an error. It returns false when the context ends before.
func (a *Agent) sendUnless(ctx context.Context, call codec.Message, isSkipped func(error) bool) bool {
	for wait := 50 * time.Millisecond; ; {
		one, cancel := context.WithTimeout(ctx, 25*time.Second)
		answer, err := a.post(one, a.url(), call)
		if err == nil {
			io.Copy(io.Discard, answer.Body)
			answer.Body.Close()
		}
		cancel()
		if err == nil || isSkipped(err) {
			return true
		}
		if wait *= 2; wait > 2*time.Second {
			wait = 2 * time.Second
		}
		select {
		case <-time.After(wait):
		case <-ctx.Done():
			return false
		}
	}
}

// collect removes folders of tasks and of executors that ended some time ago.
func (a *Agent) collect(ctx context.Context) {
	for ctx.Err() == nil {
		paths, _ := filepath.Glob(filepath.Join(a.config.Folder, "*", "*", "done"))
		for _, path := range paths {
			if about, err := os.Stat(path); err == nil && time.Since(about.ModTime()) > a.config.Keep {
				os.RemoveAll(filepath.Dir(path))
			}
		}
		select {
		case <-time.After(time.Minute):
		case <-ctx.Done():
		}
	}
}
