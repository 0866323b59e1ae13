// Streams of executors: the events that they get, in order. Outside the proof.

package agent

import (
	"log"

	"gateway/internal/disk"
	"gateway/internal/mesos/codec"
)

// subscription is the stream of an executor.
type subscription struct {
	events chan codec.Message
	over   chan struct{} // closed when it is to end
}

// push gives an executor an event, if it is subscribed. If the executor does not read, its stream is ended. The lock is held.
func (e *executor) push(event codec.Message) {
	if e.stream == nil {
		return
	}
	select {
	case e.stream.events <- event:
	default:
		e.endStream("")
	}
}

// endStream ends the stream of an executor, with an ERROR where there is a reason. The lock is held.
func (e *executor) endStream(reason string) {
	if e.stream == nil {
		return
	}
	if reason != "" {
		select {
		case e.stream.events <- codec.New("mesos.executor.Event").Set("type", "ERROR").Set("error.message", reason):
		default:
		}
	}
	close(e.stream.over)
	e.stream = nil
}

// leave forgets a stream whose connection ended.
func (e *executor) leave(s *subscription) {
	e.mu.Lock()
	defer e.mu.Unlock()
	if e.stream == s {
		e.endStream("")
	}
}

// subscribe gives an executor a stream, or returns nil if the executor has ended. The tasks that it got before and did not answer are compared with
// those that it says it has. As in Mesos, a task that it never got is dropped.
func (e *executor) subscribe(call, agentInfo codec.Message) *subscription {
	e.mu.Lock()
	defer e.mu.Unlock()
	if e.isOver {
		return nil
	}
	e.endStream("the executor subscribed again")
	one := &subscription{events: make(chan codec.Message, 8192), over: make(chan struct{})}
	e.stream, e.hasSubscribed = one, true
	e.push(codec.New("mesos.executor.Event").Set("type", "SUBSCRIBED").Set("subscribed.executor_info", e.message.Sub("executor_info")).
		Set("subscribed.framework_info", e.message.Sub("framework_info")).Set("subscribed.agent_info", agentInfo).Set("subscribed.container_id.value", e.key))
	for _, update := range call.List("unacknowledged_updates") {
		e.take(update.Sub("status"))
	}
	has := map[string]bool{}
	for _, task := range call.List("unacknowledged_tasks") {
		has[task.Text("task_id.value")] = true
	}
	for _, t := range e.sent {
		hasUpdates, isOver := t.hasUpdates()
		switch {
		case isOver:
			delete(e.sent, t.id)
		case !hasUpdates && !has[t.id]:
			failAll([]*task{t}, "TASK_DROPPED", "REASON_AGENT_RESTARTED", "Task launched during agent restart")
			delete(e.sent, t.id)
		case !t.kills.IsAbsent():
			e.push(t.kills)
		}
	}
	switch {
	case !e.ending.IsZero():
		e.push(codec.New("mesos.executor.Event").Set("type", "SHUTDOWN"))
	case len(e.queue) == 0 && len(e.sent) == 0 && !e.exists("used"):
		log.Printf("executor %s of framework %s has no task to run: it is shut down", e.id, e.framework)
		e.beginEnd()
	default:
		e.sendQueue()
	}
	return one
}

// sendQueue sends tasks that wait for their executor. It stores durably that they were sent before it sends them, so that they are not sent twice.
// The lock is held.
func (e *executor) sendQueue() {
	queue := e.queue
	e.queue = nil
	for _, tasks := range queue {
		if err := e.markSent(tasks); err != nil {
			failAll(tasks, "TASK_FAILED", "REASON_CONTAINER_LAUNCH_FAILED", "the task was not started: "+err.Error())
			continue
		}
		if tasks[0].group == "" {
			e.push(codec.New("mesos.executor.Event").Set("type", "LAUNCH").Set("launch.task", tasks[0].info))
			continue
		}
		group := codec.New("mesos.TaskGroupInfo")
		for _, t := range tasks {
			group.Add("tasks", t.info)
		}
		e.push(codec.New("mesos.executor.Event").Set("type", "LAUNCH_GROUP").Set("launch_group.task_group", group))
	}
}

func (e *executor) markSent(tasks []*task) error {
	if !e.exists("used") {
		if err := disk.WriteFile(e.path("used"), nil); err != nil {
			return err
		}
	}
	for _, t := range tasks {
		if err := disk.WriteFile(t.path("sent"), nil); err != nil {
			return err
		}
		e.sent[t.id] = t
	}
	return nil
}

// take stores a status, and acknowledges it to the executor. A status of a task that has ended or is not known is acknowledged too. The lock is
// held.
func (e *executor) take(status codec.Message) error {
	uuid := status.Bytes("uuid")
	if t := e.sent[status.Text("task_id.value")]; t != nil {
		if err := t.store(status); err != nil {
			return err
		}
		if isTerminal(status.Enum("state")) {
			delete(e.sent, t.id)
			e.limit()
		}
	}
	e.push(codec.New("mesos.executor.Event").Set("type", "ACKNOWLEDGED").Set("acknowledged.task_id.value", status.Text("task_id.value")).Set("acknowledged.uuid", uuid))
	return nil
}

// update takes a status from an executor. If the status cannot be stored, the executor's stream ends: when it subscribes again, it sends the status
// again.
func (e *executor) update(status codec.Message) error {
	e.mu.Lock()
	defer e.mu.Unlock()
	err := e.take(status)
	if err != nil {
		e.endStream("")
	}
	return err
}

// tell gives an executor a message of its framework. As in Mesos, delivery is not guaranteed.
func (e *executor) tell(data []byte) {
	e.mu.Lock()
	defer e.mu.Unlock()
	e.push(codec.New("mesos.executor.Event").Set("type", "MESSAGE").Set("message.data", data))
}
