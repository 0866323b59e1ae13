// Statuses of the tasks of custom executors: they are durable before they are acknowledged to the executor, and are reported in order. Outside the
// proof.

package agent

import (
	"context"
	"crypto/rand"
	"fmt"
	"log"
	"os"
	"strconv"
	"time"

	"gateway/internal/disk"
	"gateway/internal/mesos/codec"
)

// isTerminal reports whether a task in a state has ended.
func isTerminal(state string) bool {
	switch state {
	case "TASK_FINISHED", "TASK_FAILED", "TASK_KILLED", "TASK_ERROR", "TASK_LOST", "TASK_DROPPED", "TASK_GONE", "TASK_GONE_BY_OPERATOR":
		return true
	}
	return false
}

// updates are the statuses of a task so far. The task's lock guards them.
type updates struct {
	list     []codec.Message
	known    map[string]bool // by their uuids
	reported int             // how many a gateway took
	isOver   bool            // the last one is terminal
}

func updateName(k int) string { return fmt.Sprintf("update-%06d", k) }

// loadUpdates reads the statuses in a task's folder.
func (t *task) loadUpdates() error {
	t.mu.Lock()
	defer t.mu.Unlock()
	t.updates = updates{known: map[string]bool{}, reported: t.number("reported")}
	for {
		text, err := os.ReadFile(t.path(updateName(len(t.updates.list))))
		if os.IsNotExist(err) {
			return nil
		}
		if err != nil {
			return err
		}
		status, err := codec.ReadProtobuf("mesos.TaskStatus", text)
		if err != nil {
			return err
		}
		t.updates.take(status)
	}
}

func (u *updates) take(status codec.Message) {
	u.list, u.known[string(status.Bytes("uuid"))] = append(u.list, status), true
	u.isOver = isTerminal(status.Enum("state"))
}

// store adds a status, unless it is known or the task has ended. It is durable when store returns.
func (t *task) store(status codec.Message) error {
	t.mu.Lock()
	defer t.mu.Unlock()
	if len(status.Bytes("uuid")) == 0 {
		uuid := make([]byte, 16)
		rand.Read(uuid)
		status.Set("uuid", uuid)
	}
	if t.updates.isOver || t.updates.known[string(status.Bytes("uuid"))] {
		return nil
	}
	if !status.Has("timestamp") {
		status.Set("timestamp", float64(time.Now().UnixMilli())/1000)
	}
	status.Set("executor_id.value", t.executor)
	if err := disk.WriteFile(t.path(updateName(len(t.updates.list))), status.Protobuf()); err != nil {
		return err
	}
	t.updates.take(status)
	select {
	case t.wake <- struct{}{}:
	default:
	}
	return nil
}

// hasUpdates reports whether there is any status of a task, and whether it has ended.
func (t *task) hasUpdates() (any, isOver bool) {
	t.mu.Lock()
	defer t.mu.Unlock()
	return len(t.updates.list) > 0, t.updates.isOver
}

// fail ends a task by the agent's own status. While the status cannot be stored, as on a full disk, this is tried again.
func (t *task) fail(state, reason, message string) {
	if state == "TASK_DROPPED" && !t.has("PARTITION_AWARE") {
		state = "TASK_LOST"
	}
	status := codec.New("mesos.TaskStatus").Set("task_id.value", t.id).Set("state", state).Set("source", "SOURCE_AGENT").Set("reason", reason).Set("message", message)
	err := t.store(status)
	if err == nil {
		return
	}
	log.Printf("task %s: its status is not stored yet: %v", t.id, err)
	go func() {
		for t.store(status) != nil {
			time.Sleep(roomPause)
		}
	}()
}

// nextUpdate returns the first status that is not reported.
func (t *task) nextUpdate() (status codec.Message, is bool) {
	t.mu.Lock()
	defer t.mu.Unlock()
	if t.updates.reported >= len(t.updates.list) {
		return status, false
	}
	return t.updates.list[t.updates.reported].Clone(), true
}

// lastUpdate returns the last status, and whether it is terminal.
func (t *task) lastUpdate() (status codec.Message, isOver bool) {
	t.mu.Lock()
	defer t.mu.Unlock()
	if count := len(t.updates.list); count > 0 {
		status = t.updates.list[count-1]
	}
	return status, t.updates.isOver
}

// watchUpdates reports the statuses of a task until the last one is taken.
func (a *Agent) watchUpdates(ctx context.Context, t *task) {
	for ctx.Err() == nil {
		status, is := t.nextUpdate()
		if last, isOver := t.lastUpdate(); !is && isOver { // it was reported before a restart
			a.finish(t, last)
			return
		}
		if !is {
			select {
			case <-t.wake:
			case <-ctx.Done():
			}
			continue
		}
		if !a.report(ctx, t, status) {
			return
		}
		t.mu.Lock()
		t.updates.reported++
		reported := t.updates.reported
		t.mu.Unlock()
		disk.WriteFile(t.path("reported"), []byte(strconv.Itoa(reported)))
	}
}
