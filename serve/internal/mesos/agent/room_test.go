// Tests of agents whose disks are full. Outside the proof.

package agent

import (
	"context"
	"os"
	"path/filepath"
	"strings"
	"syscall"
	"testing"
	"time"

	"gateway/internal/mesos/codec"
)

// fill lets the next file of a name be written to a full disk, until the function that it returns is called.
func fill(t *testing.T, path string) (free func()) {
	t.Helper()
	if err := os.Symlink("/dev/full", path+".part"); err != nil {
		t.Fatal(err)
	}
	return func() { os.Remove(path + ".part") }
}

// A status of the agent's own is stored as soon as there is room for it, and no earlier.
func TestStatusIsStoredWhenThereIsRoom(t *testing.T) {
	folder := t.TempDir()
	one := newTask(folder, codec.New("durzhanok.link.Task").Set("framework_id.value", "f").Set("task_info.task_id.value", "t"))
	free := fill(t, filepath.Join(folder, updateName(0)))
	one.fail("TASK_DROPPED", "REASON_EXECUTOR_TERMINATED", "why")
	if any, _ := one.hasUpdates(); any {
		t.Fatal("a status counts that is not stored")
	}
	free()
	for end := time.Now().Add(30 * time.Second); ; time.Sleep(10 * time.Millisecond) {
		if status, isOver := one.lastUpdate(); isOver {
			if status.Enum("state") != "TASK_LOST" || status.Text("message") != "why" || len(status.Bytes("uuid")) != 16 {
				t.Errorf("%s", status.JSON())
			}
			return
		}
		if time.Now().After(end) {
			t.Fatal("the status is not stored")
		}
	}
}

// A supervisor waits for room to write how its process ended.
func TestExitIsWrittenWhenThereIsRoom(t *testing.T) {
	path := filepath.Join(t.TempDir(), "exit")
	free := fill(t, path)
	if err := writeWhenRoom(path, []byte("x"), 0); err != syscall.ENOSPC && !strings.Contains(err.Error(), "no space") {
		t.Fatal(err)
	}
	time.AfterFunc(100*time.Millisecond, free)
	if err := writeWhenRoom(path, []byte("x"), time.Minute); err != nil {
		t.Fatal(err)
	}
	if err := writeWhenRoom(filepath.Join(path, "y"), nil, time.Minute); err == nil {
		t.Error("there is room below a file")
	}
}

// A task for whose folder, or for whose executor's folder, there is no room gets a terminal status, and the executor's end is reported.
func TestTasksWithoutRoom(t *testing.T) {
	g := newGateway(t)
	a, err := New(Config{Folder: t.TempDir(), Name: "a", Gateways: []string{g.URL}, Principal: "p", Token: "t", Info: codec.New("mesos.AgentInfo").Set("hostname", "h"), Keep: time.Hour,
		Program: []string{os.Args[0], "supervise"}, ShutdownGrace: time.Second, RegistrationTimeout: time.Minute, RecoveryTimeout: time.Minute})
	if err != nil {
		t.Fatal(err)
	}
	ctx, cancel := context.WithCancel(context.Background())
	defer cancel()
	go a.Run(ctx)
	replace := func(name string) (undo func()) { // a folder by a file, in which nothing can be made
		path := filepath.Join(a.config.Folder, name)
		if os.Rename(path, path+".away") != nil || os.WriteFile(path, nil, 0o600) != nil {
			t.Fatal(name)
		}
		return func() {
			os.Remove(path)
			os.Rename(path+".away", path)
		}
	}
	expect := func(id string) {
		t.Helper()
		if status := g.status(id); status.Enum("state") != "TASK_FAILED" || status.Enum("reason") != "REASON_CONTAINER_LAUNCH_FAILED" || len(status.Bytes("uuid")) != 16 {
			t.Errorf("%s", status.JSON())
		}
	}
	executor := codec.New("mesos.ExecutorInfo").Set("type", "CUSTOM").Set("executor_id.value", "e").Set("command.value", "exit 1")
	undo := replace("tasks")
	g.run(taskOf("command", "true", 1, 32), codec.Message{})
	expect("command")
	g.run(taskOf("executed", "", 1, 32), executor)
	expect("executed")
	undo()
	undo = replace("executors")
	g.run(taskOf("another", "", 1, 32), executor)
	ended := false
	for got := false; !got || !ended; {
		select {
		case call := <-g.calls:
			got = got || call.Text("status.task_id.value") == "another" && call.Sub("status").Enum("state") == "TASK_FAILED"
			ended = ended || call.Enum("type") == "EXECUTOR_ENDED" && call.Text("ended.executor_id.value") == "e"
		case <-time.After(time.Minute):
			t.Fatalf("no status, or no end of the executor: %v %v", got, ended)
		}
	}
	undo()
	g.run(taskOf("later", "true", 1, 32), codec.Message{})
	if status := g.status("later"); status.Enum("state") != "TASK_RUNNING" {
		t.Errorf("%s", status.JSON())
	}
	if status := g.status("later"); status.Enum("state") != "TASK_FINISHED" {
		t.Errorf("%s", status.JSON())
	}
	g.waitIdle(a)
}
