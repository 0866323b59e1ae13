// Custom executors: each is a process that subscribes at the agent and runs tasks of its framework. Outside the proof.

package agent

import (
	"context"
	"fmt"
	"log"
	"os"
	"path/filepath"
	"sync"
	"time"

	"gateway/internal/disk"
	"gateway/internal/mesos/codec"
)

// executor is a custom executor whose end is not yet acknowledged.
type executor struct {
	supervised
	key           string
	id, framework string
	launch        int64
	message       codec.Message // durzhanok.link.Executor
	token         string
	grace         time.Duration // from SHUTDOWN to SIGKILL
	outbox        chan []byte   // messages to its framework

	mu     sync.Mutex
	since  time.Time     // since when it may take to subscribe
	stream *subscription // or nil
	queue  [][]*task     // not sent yet; tasks of a group are together
	sent   map[string]*task
	ending time.Time // since when it is to end
	reason string    // why its tasks ended with it, or empty
	why    string
	isOver bool // it has ended: it takes no task

	hasSubscribed bool
}

func executorFolder(a *Agent, one codec.Message) string {
	return filepath.Join(a.config.Folder, "executors", launchKey(one.Int("launch"), one.Text("framework_id.value"), one.Text("executor_info.executor_id.value")))
}

func (a *Agent) newExecutor(folder string, one codec.Message) *executor {
	e := &executor{supervised: supervised{folder}, key: filepath.Base(folder), id: one.Text("executor_info.executor_id.value"), framework: one.Text("framework_id.value"),
		launch: one.Int("launch"), message: one, grace: a.config.ShutdownGrace, outbox: make(chan []byte, 256), since: time.Now(), sent: map[string]*task{}}
	if one.Has("executor_info.shutdown_grace_period") {
		e.grace = time.Duration(one.Int("executor_info.shutdown_grace_period.nanoseconds"))
	}
	return e
}

// takeUpExecutor adds the executor of a folder, unless its end is acknowledged.
func (a *Agent) takeUpExecutor(folder string) error {
	text, err := os.ReadFile(filepath.Join(folder, "executor"))
	if err != nil {
		return err
	}
	one, err := codec.ReadProtobuf("durzhanok.link.Executor", text)
	if err != nil {
		return err
	}
	e := a.newExecutor(folder, one)
	if e.exists("done") {
		return nil
	}
	token, err := os.ReadFile(e.path("token"))
	e.token = string(token)
	a.executors[e.key] = e
	return err
}

// adopt gives executors the tasks that they had before the agent's program was restarted.
func (a *Agent) adopt() {
	queued := map[string][]*task{}
	for _, t := range a.tasks {
		if _, isOver := t.hasUpdates(); !t.isRunBy || isOver {
			continue
		}
		e := a.executors[t.runner]
		switch {
		case e == nil:
			t.fail("TASK_FAILED", "REASON_EXECUTOR_TERMINATED", "Executor terminated")
		case t.exists("sent"):
			e.sent[t.id] = t
		case t.group == "":
			e.queue = append(e.queue, []*task{t})
		default:
			key := e.key + "/" + t.group
			queued[key] = append(queued[key], t)
		}
	}
	for _, group := range queued {
		e := a.executors[group[0].runner]
		e.queue = append(e.queue, group)
	}
}

// startByExecutor passes tasks to their executor, which is started if it does not run.
func (a *Agent) startByExecutor(list []codec.Message) {
	var tasks []*task
	for _, one := range list {
		t, err := a.add(one)
		if err != nil {
			a.reject(one, "TASK_FAILED", "REASON_CONTAINER_LAUNCH_FAILED", "the task was not started: "+err.Error())
		}
		if t != nil {
			tasks = append(tasks, t)
			go a.watch(context.Background(), t)
		}
	}
	if len(tasks) == 0 {
		return
	}
	e, err := a.executorOf(list[0].Sub("executor"))
	if err != nil {
		failAll(tasks, "TASK_FAILED", "REASON_CONTAINER_LAUNCH_FAILED", "the executor was not started: "+err.Error())
		a.expectExecutor(list[0].Sub("executor")) // it has ended, unless its folder was made
		return
	}
	if e == nil {
		failAll(tasks, "TASK_DROPPED", "REASON_EXECUTOR_TERMINATED", "Executor terminated")
		return
	}
	e.run(tasks)
}

func failAll(tasks []*task, state, reason, message string) {
	for _, t := range tasks {
		t.fail(state, reason, message)
	}
}

// executorOf returns a running executor; it starts one that was never started, and returns nil for one that has ended.
func (a *Agent) executorOf(one codec.Message) (*executor, error) {
	a.mu.Lock()
	defer a.mu.Unlock()
	e := a.newExecutor(executorFolder(a, one), one)
	if known := a.executors[e.key]; known != nil {
		return known, nil
	}
	if e.exists("executor") {
		return nil, nil
	}
	e.token = randomHex(24)
	err := os.MkdirAll(e.path("sandbox"), 0o755)
	if err == nil {
		err = disk.WriteFile(e.path("token"), []byte(e.token))
	}
	if err == nil {
		err = disk.WriteFile(e.path("executor"), one.Protobuf())
	}
	if err != nil {
		return nil, err
	}
	cpus, mem := cpusAndMem(one.List("executor_info.resources"))
	err = a.startIn(e.supervised, a.processOfExecutor(e), one.Text("user"), cpus, mem)
	a.executors[e.key] = e // its end is reported in any case
	go a.tend(context.Background(), e)
	return e, err
}

// processOfExecutor returns the process of an executor, with the environment that Mesos documents.
func (a *Agent) processOfExecutor(e *executor) *process {
	info := e.message.Sub("executor_info")
	return &process{Command: info.Sub("command").Protobuf(), Environment: append(environment(e.path("sandbox"), e.framework, a.id, e.id),
		"MESOS_AGENT_ENDPOINT="+a.endpoint, "MESOS_SLAVE_PID=slave(1)@"+a.endpoint, "MESOS_EXECUTOR_AUTHENTICATION_TOKEN="+e.token, "MESOS_CHECKPOINT=1",
		"MESOS_EXECUTOR_SHUTDOWN_GRACE_PERIOD="+mesosDuration(e.grace), "MESOS_RECOVERY_TIMEOUT="+mesosDuration(a.config.RecoveryTimeout),
		"MESOS_SUBSCRIPTION_BACKOFF_MAX="+mesosDuration(backoffMax))}
}

// backoffMax is the longest time that an executor without a connection should wait before it subscribes again.
const backoffMax = 2 * time.Second

// mesosDuration writes a duration as Mesos does.
func mesosDuration(d time.Duration) string {
	for _, unit := range []struct {
		size time.Duration
		name string
	}{{time.Hour, "hrs"}, {time.Minute, "mins"}, {time.Second, "secs"}, {time.Millisecond, "ms"}} {
		if d >= unit.size && d%unit.size == 0 {
			return fmt.Sprintf("%d%s", d/unit.size, unit.name)
		}
	}
	return fmt.Sprintf("%dns", d.Nanoseconds())
}

// tend waits for the end of an executor, ends one that does not subscribe in time, and reports its end after those of its tasks.
func (a *Agent) tend(ctx context.Context, e *executor) {
	ctx, cancel := context.WithCancel(ctx)
	defer cancel()
	go a.sendMessages(ctx, e)
	isKilled := false
	how := exit{}
	for {
		var hasEnded, isLost bool
		if how, hasEnded, isLost = e.ended(); isLost {
			e.setReason("REASON_EXECUTOR_TERMINATED", "Executor's process ended with the machine or was killed with its supervisor")
		}
		if hasEnded {
			break
		}
		if grace, isDue := e.dueToEnd(a.config.RegistrationTimeout); isDue && !isKilled {
			isKilled = true
			go e.kill(grace)
		}
		select {
		case <-time.After(50 * time.Millisecond):
		case <-ctx.Done():
			return
		}
	}
	for e.close(how); a.hasTasksOf(e); {
		select {
		case <-time.After(20 * time.Millisecond):
		case <-ctx.Done():
			return
		}
	}
	log.Printf("executor %s of framework %s ended: %s %s", e.id, e.framework, how.text(), how.Problem)
	call := a.call("EXECUTOR_ENDED").Set("ended.framework_id.value", e.framework).Set("ended.executor_id.value", e.id).Set("ended.launch", e.launch).Set("ended.status", how.Status)
	if !a.send(ctx, call) {
		return
	}
	if err := disk.WriteFile(e.path("done"), nil); err != nil {
		log.Printf("executor %s: %v", e.id, err)
	}
	a.mu.Lock()
	defer a.mu.Unlock()
	delete(a.executors, e.key)
}

// hasTasksOf reports whether the end of a task of an executor is not yet reported.
func (a *Agent) hasTasksOf(e *executor) bool {
	a.mu.Lock()
	defer a.mu.Unlock()
	for _, t := range a.tasks {
		if t.runner == e.key {
			return true
		}
	}
	return false
}

func (e *executor) setReason(reason, why string) {
	e.mu.Lock()
	defer e.mu.Unlock()
	if e.reason == "" {
		e.reason, e.why = reason, why
	}
}

// dueToEnd reports whether an executor is to be killed, because it did not subscribe or did not end in time.
func (e *executor) dueToEnd(registration time.Duration) (grace time.Duration, isDue bool) {
	e.mu.Lock()
	defer e.mu.Unlock()
	switch {
	case !e.ending.IsZero():
		return 0, time.Since(e.ending) > e.grace
	case e.hasSubscribed || time.Since(e.since) < registration:
		return 0, false
	}
	e.reason, e.why = "REASON_EXECUTOR_REGISTRATION_TIMEOUT", "Executor did not register within "+mesosDuration(registration)
	if e.exists("used") {
		e.reason, e.why = "REASON_EXECUTOR_REREGISTRATION_TIMEOUT", "Executor did not re-register within "+mesosDuration(registration)
	}
	return 0, true
}

// close ends the tasks of an executor that has ended.
func (e *executor) close(how exit) {
	e.mu.Lock()
	defer e.mu.Unlock()
	e.isOver = true
	e.endStream("")
	var tasks []*task
	for _, t := range e.sent {
		tasks = append(tasks, t)
	}
	for _, group := range e.queue {
		tasks = append(tasks, group...)
	}
	reason, why := "REASON_EXECUTOR_TERMINATED", "Executor "+how.text()
	switch {
	case how.IsOutOfMemory:
		reason, why = "REASON_CONTAINER_LIMITATION_MEMORY", outOfMemory
	case e.reason != "":
		reason, why = e.reason, e.why
	case how.Problem != "" && !how.IsKilled:
		reason, why = "REASON_CONTAINER_LAUNCH_FAILED", how.Problem
	}
	failAll(tasks, "TASK_FAILED", reason, why)
}

// run passes tasks to an executor: at once if it is subscribed, or else when it subscribes.
func (e *executor) run(tasks []*task) {
	e.mu.Lock()
	defer e.mu.Unlock()
	if e.isOver || !e.ending.IsZero() {
		failAll(tasks, "TASK_DROPPED", "REASON_EXECUTOR_TERMINATED", "Executor terminated")
		return
	}
	e.queue = append(e.queue, tasks)
	e.limit()
	if e.stream != nil {
		e.sendQueue()
	}
}

// shutDown asks an executor to end. It is killed if it does not end in time.
func (e *executor) shutDown() {
	e.mu.Lock()
	defer e.mu.Unlock()
	e.beginEnd()
}

// beginEnd asks an executor to end, once, and records when. The lock is held.
func (e *executor) beginEnd() {
	if e.ending.IsZero() {
		e.ending = time.Now()
		e.push(codec.New("mesos.executor.Event").Set("type", "SHUTDOWN"))
	}
}

// killByExecutor asks an executor to end a task. A task that the executor did not get yet is ended at once, with its group.
func (a *Agent) killByExecutor(t *task, one codec.Message) {
	a.mu.Lock()
	e := a.executors[t.runner]
	a.mu.Unlock()
	if e == nil {
		return // its end is reported
	}
	e.mu.Lock()
	defer e.mu.Unlock()
	for k, group := range e.queue {
		for _, other := range group {
			if other == t {
				e.queue = append(append([][]*task(nil), e.queue[:k]...), e.queue[k+1:]...)
				failAll(group, "TASK_KILLED", "REASON_TASK_KILLED_DURING_LAUNCH", "the task was killed before its executor got it")
				return
			}
		}
	}
	t.kills = codec.New("mesos.executor.Event").Set("type", "KILL").Set("kill.task_id.value", t.id)
	if one.Has("grace_ms") {
		t.kills.Set("kill.kill_policy.grace_period.nanoseconds", one.Int("grace_ms")*1_000_000)
	}
	e.push(t.kills)
}

// findExecutor returns the executor of a framework that was launched last.
func (a *Agent) findExecutor(framework, id string) (found *executor) {
	a.mu.Lock()
	defer a.mu.Unlock()
	for _, e := range a.executors {
		if e.framework == framework && e.id == id && (found == nil || e.launch > found.launch) {
			found = e
		}
	}
	return found
}

// endOtherExecutors shuts down executors that the gateway does not know, such as those of frameworks that were removed.
func (a *Agent) endOtherExecutors(expected map[string]bool) {
	a.mu.Lock()
	var others []*executor
	for key, e := range a.executors {
		if !expected[key] {
			others = append(others, e)
		}
	}
	a.mu.Unlock()
	for _, e := range others {
		log.Printf("executor %s is not known to the gateway: it is shut down", e.id)
		e.shutDown()
	}
}

// expectExecutor shuts an executor down if the gateway asks for that. If the executor is not here, its end is reported.
func (a *Agent) expectExecutor(one codec.Message) {
	a.mu.Lock()
	e := a.executors[filepath.Base(executorFolder(a, one))]
	a.mu.Unlock()
	switch {
	case e == nil:
		call := a.call("EXECUTOR_ENDED").Set("ended.framework_id", one.Sub("framework_id")).Set("ended.executor_id", one.Sub("executor_info.executor_id")).Set("ended.launch", one.Int("launch"))
		go a.send(context.Background(), call)
	case one.Bool("ending"):
		e.shutDown()
	}
}
