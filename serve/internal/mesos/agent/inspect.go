// What operators see of an agent: its tasks and executors that run, and those whose folders are kept. Outside the proof.

package agent

import (
	"encoding/json"
	"os"
	"path/filepath"
	"sort"

	"gateway/internal/mesos/codec"
)

// States of a task on the agent.
const (
	Queued     = iota // its executor did not get it yet
	Launched          // it runs, or is about to
	Terminated        // it has ended, and no gateway has taken that yet
	Completed         // its end is acknowledged; its folder is kept for a while
)

// Seen is a task as operators see it.
type Seen struct {
	Task       codec.Message // durzhanok.link.Task
	Executor   string        // the id of its executor, which for a command is the task's
	IsCommand  bool
	Stage      int
	State      string
	Status     codec.Message // the last one, or absent
	Sandbox    string        // below the work folder
	Supervisor int           // the process that has those of the task below it, or 0
	Key        string        // of its launch
}

// SeenExecutor is a custom executor as operators see it.
type SeenExecutor struct {
	Executor   codec.Message // durzhanok.link.Executor
	IsDone     bool
	Sandbox    string
	Supervisor int
	Key        string
}

// maxSeen is how many completed tasks, and executors, are shown: the latest.
const maxSeen = 1000

// Folder returns the agent's work folder.
func (a *Agent) Folder() string { return a.config.Folder }

// Info returns the agent's description, with its id.
func (a *Agent) Info() codec.Message { return a.config.Info.Clone().Set("id.value", a.id) }

// Tasks returns the tasks whose folders exist, in order of their launches.
func (a *Agent) Tasks() (list []Seen) {
	for _, folder := range a.folders("tasks") {
		text, err := os.ReadFile(filepath.Join(folder, "task"))
		if err != nil {
			continue
		}
		one, err := codec.ReadProtobuf("durzhanok.link.Task", text)
		if err != nil {
			continue
		}
		t := a.find(keyOf(one))
		if t == nil {
			if t = newTask(folder, one); t.isRunBy && t.loadUpdates() != nil {
				continue
			}
		}
		list = append(list, a.see(t, one))
	}
	sort.SliceStable(list, func(i, j int) bool { return list[i].Task.Int("launch") < list[j].Task.Int("launch") })
	return list
}

// folders returns the folders of a kind: those that are not done, and the latest of those that are.
func (a *Agent) folders(kind string) (folders []string) {
	entries, _ := os.ReadDir(filepath.Join(a.config.Folder, kind))
	type dated struct {
		folder string
		at     int64
	}
	var done []dated
	for _, entry := range entries {
		folder := filepath.Join(a.config.Folder, kind, entry.Name())
		if about, err := os.Stat(filepath.Join(folder, "done")); err == nil {
			done = append(done, dated{folder, about.ModTime().UnixNano()})
		} else {
			folders = append(folders, folder)
		}
	}
	sort.Slice(done, func(i, j int) bool { return done[i].at > done[j].at })
	for k := 0; k < len(done) && k < maxSeen; k++ {
		folders = append(folders, done[k].folder)
	}
	return folders
}

func (a *Agent) see(t *task, one codec.Message) Seen {
	key := filepath.Base(t.folder)
	seen := Seen{Task: one, Executor: t.executor, IsCommand: !t.isRunBy, Stage: Launched, State: "TASK_STAGING", Key: key, Sandbox: filepath.Join("tasks", key, "sandbox")}
	if t.isRunBy {
		seen.Sandbox = filepath.Join("executors", t.runner, "sandbox")
		t.seeUpdates(&seen)
	} else {
		t.seeCommand(&seen)
	}
	if !seen.Status.IsAbsent() {
		seen.State = seen.Status.Enum("state")
	}
	if t.exists("done") {
		seen.Stage = Completed
	}
	return seen
}

// seeUpdates reads the statuses of a task that an executor runs.
func (t *task) seeUpdates(seen *Seen) {
	isOver := false
	seen.Status, isOver = t.lastUpdate()
	switch {
	case isOver:
		seen.Stage = Terminated
	case seen.Status.IsAbsent() && !t.exists("sent"):
		seen.Stage = Queued
	}
}

// seeCommand reads the files of a command. It changes nothing.
func (t *task) seeCommand(seen *Seen) {
	t.mu.Lock()
	seen.Status = t.rejected
	t.mu.Unlock()
	text, err := os.ReadFile(t.path("exit"))
	switch {
	case !seen.Status.IsAbsent():
		seen.Stage = Terminated
	case err == nil:
		e := exit{}
		json.Unmarshal(text, &e)
		seen.Stage, seen.Status = Terminated, t.endStatus(e)
		if about, err := os.Stat(t.path("exit")); err == nil {
			seen.Status.Set("timestamp", float64(about.ModTime().UnixMilli())/1000)
		}
	case t.exists("done") && !t.exists("started"):
		seen.Status = t.status("end", "TASK_KILLED")
		seen.Status.Clear("timestamp")
	case t.exists("done"):
		seen.Status = t.status("end", "TASK_FAILED")
		seen.Status.Clear("timestamp")
	case t.exists("pid"):
		seen.Status, seen.Supervisor = t.status("running", "TASK_RUNNING"), t.number("supervisor")
		if about, err := os.Stat(t.path("pid")); err == nil {
			seen.Status.Set("timestamp", float64(about.ModTime().UnixMilli())/1000)
		}
	}
}

// Executors returns the custom executors whose folders exist.
func (a *Agent) Executors() (list []SeenExecutor) {
	for _, folder := range a.folders("executors") {
		text, err := os.ReadFile(filepath.Join(folder, "executor"))
		if err != nil {
			continue
		}
		one, err := codec.ReadProtobuf("durzhanok.link.Executor", text)
		if err != nil {
			continue
		}
		e := supervised{folder}
		seen := SeenExecutor{Executor: one, IsDone: e.exists("done"), Sandbox: filepath.Join("executors", filepath.Base(folder), "sandbox"), Key: filepath.Base(folder)}
		if !seen.IsDone && e.runs() {
			seen.Supervisor = e.number("supervisor")
		}
		list = append(list, seen)
	}
	return list
}
