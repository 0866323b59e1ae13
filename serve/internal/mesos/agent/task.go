// Tasks: each has a folder, so that it is started once and its end is reported, even if the agent's program ends. Outside the proof.

package agent

import (
	"context"
	"crypto/rand"
	"crypto/sha256"
	"encoding/hex"
	"fmt"
	"log"
	"os"
	"path/filepath"
	"sync"
	"time"

	"gateway/internal/disk"
	"gateway/internal/mesos/codec"
)

// task is a task whose end is not yet acknowledged.
type task struct {
	supervised
	key           string
	id, framework string
	group         string
	launch        int64
	executor      string // the id of its executor, which for a command is the task's
	capabilities  []string
	info          codec.Message
	isRunBy       bool   // a custom executor
	runner        string // the key of that
	wake          chan struct{}
	kills         codec.Message // the KILL that its executor got; guarded by the executor's lock

	mu       sync.Mutex
	rejected codec.Message // the status of a command that was never started, or of a task without a folder
	updates  updates       // of a task that a custom executor runs
}

func randomHex(size int) string {
	text := make([]byte, size)
	rand.Read(text)
	return hex.EncodeToString(text)
}

// keyOf names a launch of a task.
func keyOf(one codec.Message) string {
	return launchKey(one.Int("launch"), one.Text("framework_id.value"), one.Text("task_info.task_id.value"))
}

func launchKey(launch int64, framework, id string) string {
	sum := sha256.Sum256([]byte(framework + "/" + id))
	return fmt.Sprintf("%d-%x", launch, sum[:6])
}

func newTask(folder string, one codec.Message) *task {
	t := &task{supervised: supervised{folder}, key: keyOf(one), id: one.Text("task_info.task_id.value"), framework: one.Text("framework_id.value"),
		group: one.Text("group"), launch: one.Int("launch"), capabilities: one.Texts("capabilities"), info: one.Sub("task_info"), wake: make(chan struct{}, 1)}
	if t.executor = t.id; one.Has("executor_id") {
		t.executor = one.Text("executor_id.value")
	}
	if one.Has("executor") {
		t.executor, t.isRunBy = one.Text("executor.executor_info.executor_id.value"), true
		t.runner = launchKey(one.Int("executor.launch"), t.framework, t.executor)
	}
	t.updates.known = map[string]bool{}
	return t
}

// has reports whether the framework has a capability.
func (t *task) has(capability string) bool {
	for _, one := range t.capabilities {
		if one == capability {
			return true
		}
	}
	return false
}

// isOver reports whether the end of a task is known, if not yet reported.
func (t *task) isOver() bool {
	if t.isRunBy {
		_, isOver := t.hasUpdates()
		return isOver
	}
	return t.exists("exit")
}

// takeUp adds the task of a folder, unless its end is acknowledged.
func (a *Agent) takeUp(folder string) error {
	text, err := os.ReadFile(filepath.Join(folder, "task"))
	if err != nil {
		return err
	}
	one, err := codec.ReadProtobuf("durzhanok.link.Task", text)
	if err != nil {
		return err
	}
	t := newTask(folder, one)
	if t.exists("done") {
		return nil
	}
	if t.isRunBy {
		if err := t.loadUpdates(); err != nil {
			return err
		}
	}
	a.tasks[t.key] = t
	return nil
}

// repeat reports the end of a task again, if a gateway had acknowledged it but does not know it, for example after an old backup was restored.
func (a *Agent) repeat(one codec.Message) bool {
	folder := filepath.Join(a.config.Folder, "tasks", keyOf(one))
	t := newTask(folder, one)
	if !t.exists("done") {
		return false
	}
	a.mu.Lock()
	defer a.mu.Unlock()
	if a.tasks[t.key] != nil {
		return true
	}
	if t.isRunBy {
		if err := t.loadUpdates(); err != nil || !t.updates.isOver {
			return false
		}
		t.updates.reported = len(t.updates.list) - 1
	}
	if os.Remove(t.path("done")) == nil {
		a.tasks[t.key] = t
		go a.watch(context.Background(), t)
	}
	return true
}

// add creates the folder of a task, unless there is one.
func (a *Agent) add(one codec.Message) (*task, error) {
	a.mu.Lock()
	defer a.mu.Unlock()
	folder := filepath.Join(a.config.Folder, "tasks", keyOf(one))
	t := newTask(folder, one)
	if a.tasks[t.key] != nil || t.exists("task") {
		return nil, nil
	}
	if err := os.MkdirAll(t.path("sandbox"), 0o755); err != nil {
		return nil, err
	}
	if err := disk.WriteFile(t.path("task"), one.Protobuf()); err != nil {
		return nil, err
	}
	a.tasks[t.key] = t
	return t, nil
}

// startAll starts tasks, unless they were started before. Those of a group come to their executor together.
func (a *Agent) startAll(list []codec.Message) {
	groups, order := map[string][]codec.Message{}, []string{}
	for k, one := range list {
		key := fmt.Sprint(k)
		if one.Has("executor") && one.Text("group") != "" {
			key = one.Text("framework_id.value") + "/" + one.Text("group")
		}
		if groups[key] == nil {
			order = append(order, key)
		}
		groups[key] = append(groups[key], one)
	}
	for _, key := range order {
		if groups[key][0].Has("executor") {
			a.startByExecutor(groups[key])
			continue
		}
		a.start(groups[key][0])
	}
}

// start starts a command, unless it was started before.
func (a *Agent) start(one codec.Message) {
	t, err := a.add(one)
	if err == nil && t == nil {
		return
	}
	if err == nil {
		cpus, mem := cpusAndMem(t.info.List("resources"))
		err = a.startIn(t.supervised, processOf(one, t.path("sandbox")), one.Text("user"), cpus, mem)
	}
	if err != nil {
		a.reject(one, "TASK_FAILED", "REASON_CONTAINER_LAUNCH_FAILED", "the task was not started: "+err.Error())
		return
	}
	go a.watch(context.Background(), t)
}

// kill ends a task. A task that has not arrived yet is killed before it starts.
func (a *Agent) kill(one codec.Message) {
	t := a.find(keyOf(one))
	switch {
	case t == nil:
		a.reject(one, "TASK_KILLED", "REASON_TASK_KILLED_DURING_LAUNCH", "the task was killed before it was started")
	case t.isRunBy:
		a.killByExecutor(t, one)
	default:
		go t.kill(graceOf(one))
	}
}

// reject reports the end of a task that does not run. It keeps the task's folder, so that the task is not started later. If there is no room for
// the folder, only the report says that it ended.
func (a *Agent) reject(one codec.Message, state, reason, message string) {
	t, err := a.add(one)
	if err != nil {
		log.Printf("task %s: %v", one.Text("task_info.task_id.value"), err)
		t = newTask(filepath.Join(a.config.Folder, "tasks", keyOf(one)), one)
		a.mu.Lock()
		a.tasks[t.key] = t
		a.mu.Unlock()
	}
	isNew := t != nil
	if t == nil {
		if t = a.find(keyOf(one)); t == nil {
			return
		}
	}
	if t.isRunBy && err == nil {
		if t.fail(state, reason, message); isNew {
			go a.watch(context.Background(), t)
		}
		return
	}
	t.mu.Lock()
	t.rejected = t.status("end", state).Set("reason", reason).Set("message", message)
	t.mu.Unlock()
	go a.watch(context.Background(), t)
}

// status returns a status. The same step of a task has the same uuid, so a status that is sent again is recognized.
func (t *task) status(step, state string) codec.Message {
	sum := sha256.Sum256([]byte(t.framework + "/" + t.key + "/" + step))
	return codec.New("mesos.TaskStatus").Set("task_id.value", t.id).Set("state", state).Set("source", "SOURCE_EXECUTOR").Set("uuid", sum[:16]).
		Set("executor_id.value", t.executor).Set("timestamp", float64(time.Now().UnixMilli())/1000)
}

// watch reports the steps of a task, until its end is acknowledged.
func (a *Agent) watch(ctx context.Context, t *task) {
	t.mu.Lock()
	isRejected := !t.rejected.IsAbsent()
	t.mu.Unlock()
	if t.isRunBy && !isRejected {
		a.watchUpdates(ctx, t)
		return
	}
	reported := ""
	if t.hasChecks() { // others have one step before their end
		text, _ := os.ReadFile(t.path("reported"))
		reported = string(text)
	}
	for wait := 5 * time.Millisecond; ctx.Err() == nil; {
		step, status := t.current(reported)
		if step != reported {
			if !a.report(ctx, t, status) {
				return
			}
			if step == "end" {
				a.finish(t, status)
				return
			}
			if reported, wait = step, 5*time.Millisecond; t.hasChecks() {
				disk.WriteFile(t.path("reported"), []byte(step))
			}
			continue
		}
		if wait *= 2; wait > 100*time.Millisecond {
			wait = 100 * time.Millisecond
		}
		select {
		case <-time.After(wait):
		case <-ctx.Done():
		}
	}
}

// current returns the step that a command is in, with its status, when that is not the one that was reported.
func (t *task) current(reported string) (step string, status codec.Message) {
	t.mu.Lock()
	rejected := t.rejected
	t.mu.Unlock()
	if !rejected.IsAbsent() {
		return "end", rejected
	}
	e, hasEnded, isLost := t.ended()
	if t.exists("pid") {
		if reported == "" {
			return "running", t.running(checked{})
		}
		found := checked{}
		if t.hasChecks() {
			found = t.checkedOf()
		}
		if step := fmt.Sprintf("running-%d", found.Count); found.Count > 0 && step != reported && !hasEnded {
			return step, t.running(found)
		}
	}
	switch {
	case isLost:
		return "end", t.status("end", "TASK_FAILED").Set("reason", "REASON_AGENT_RESTARTED").Set("message", "the task's process ended with the machine or was killed with its supervisor")
	case hasEnded:
		return "end", t.endStatus(e)
	}
	return reported, codec.Message{}
}

func (t *task) hasChecks() bool { return t.info.Has("health_check") || t.info.Has("check") }

// running returns the status of a command that runs. When its checks have a new result, it is a new status.
func (t *task) running(found checked) codec.Message {
	step := "running"
	if found.Count > 0 {
		step = fmt.Sprintf("running-%d", found.Count)
	}
	status := t.status(step, "TASK_RUNNING")
	if found.Count > 0 {
		status.Set("reason", found.Reason)
	}
	t.addChecked(status, found)
	return status
}

// addChecked sets what the checks of a command found.
func (t *task) addChecked(status codec.Message, found checked) {
	if found.Health != nil {
		status.Set("healthy", *found.Health)
	}
	if t.info.Has("check") {
		info := emptyCheckStatus(t.info.Sub("check"))
		if len(found.Status) > 0 {
			info = codec.MustReadProtobuf("mesos.CheckStatusInfo", found.Status)
		}
		status.Set("check_status", info)
	}
}

// finish forgets a task whose end is taken.
func (a *Agent) finish(t *task, status codec.Message) {
	if err := disk.WriteFile(t.path("done"), nil); err != nil {
		log.Printf("task %s: %v", t.id, err) // its end is reported again after a restart, and ignored
	}
	a.mu.Lock()
	delete(a.tasks, t.key)
	var others []*task
	for _, other := range a.tasks {
		if t.group != "" && !t.isRunBy && other.group == t.group && other.framework == t.framework && status.Enum("state") != "TASK_FINISHED" {
			others = append(others, other)
		}
	}
	a.mu.Unlock()
	for _, other := range others { // a group ends together
		go other.kill(defaultGrace)
	}
}

// endStatus returns the status of a command that ended by itself or was killed.
func (t *task) endStatus(e exit) codec.Message {
	status := t.endState(e)
	if e.IsUnhealthy {
		status.Set("healthy", false)
	}
	if t.info.Has("check") {
		t.addChecked(status, checked{Status: t.checkedOf().Status})
	}
	return status
}

func (t *task) endState(e exit) codec.Message {
	switch {
	case e.Problem != "" && e.IsKilled:
		return t.status("end", "TASK_KILLED").Set("message", e.Problem)
	case e.Problem != "":
		return t.status("end", "TASK_FAILED").Set("reason", "REASON_CONTAINER_LAUNCH_FAILED").Set("message", e.Problem)
	case e.IsOutOfMemory:
		return t.status("end", "TASK_FAILED").Set("reason", "REASON_CONTAINER_LIMITATION_MEMORY").Set("message", outOfMemory)
	case e.IsKilled:
		return t.status("end", "TASK_KILLED").Set("message", "Command "+e.text())
	case e.Code == 0 && e.Signal == "":
		return t.status("end", "TASK_FINISHED").Set("message", "Command "+e.text())
	}
	return t.status("end", "TASK_FAILED").Set("reason", "REASON_COMMAND_EXECUTOR_FAILED").Set("message", "Command "+e.text())
}
