// SUBSCRIBE: the whole state, and then each change. Outside the proof.

package operator

import (
	"net/http"
	"sync"
	"time"

	"gateway/internal/api"
	"gateway/internal/mesos/codec"
	"gateway/internal/mesos/server"
	"gateway/internal/registry/mesos"
)

// maxWaiting is how many changes can wait for a stream. A slower stream is ended: its caller subscribes again, and gets the whole state.
const maxWaiting = 8192

// watchers are the streams of operators that are open.
type watchers struct {
	mu   sync.Mutex
	open map[chan mesos.Change]bool
}

func newWatchers() *watchers { return &watchers{open: map[chan mesos.Change]bool{}} }

// publish is called by the registry. If the whole state was replaced, streams are ended.
func (w *watchers) publish(change mesos.Change) {
	w.mu.Lock()
	defer w.mu.Unlock()
	for changes := range w.open {
		if change.Kind != mesos.AllReplaced {
			select {
			case changes <- change:
				continue
			default: // it is too slow
			}
		}
		delete(w.open, changes)
		close(changes)
	}
}

func (w *watchers) add(changes chan mesos.Change) {
	w.mu.Lock()
	defer w.mu.Unlock()
	w.open[changes] = true
}

func (w *watchers) remove(changes chan mesos.Change) {
	w.mu.Lock()
	defer w.mu.Unlock()
	if w.open[changes] {
		delete(w.open, changes)
		close(changes)
	}
}

// subscribe answers with a stream.
func (o *Operator) subscribe(c *api.Call, form codec.Form) error {
	release, err := c.Stream()
	if err != nil {
		return err
	}
	defer release()
	v, err := o.view(c.R.Context()) // for the allocator's rows
	if err != nil {
		return err
	}
	changes := make(chan mesos.Change, maxWaiting)
	v.Known = o.state.Known(func() { o.watchers.add(changes) })
	defer o.watchers.remove(changes)
	contentType, messageType := form.ContentType()
	if c.W.Header().Set("Content-Type", contentType); messageType != "" {
		c.W.Header().Set("Message-Content-Type", messageType)
	}
	first := codec.New("mesos.master.Event").Set("type", "SUBSCRIBED").Set("subscribed.get_state", v.state()).Set("subscribed.heartbeat_interval_seconds", float64(server.Heartbeat))
	beat := form.Record(codec.New("mesos.master.Event").Set("type", "HEARTBEAT"))
	o.stream(c, form, changes, append(form.Record(first), beat...), beat)
	return nil
}

// stream writes changes until the caller disconnects, its token expires or is revoked, or this gateway is cut off.
func (o *Operator) stream(c *api.Call, form codec.Form, changes <-chan mesos.Change, text, heartbeat []byte) {
	beat := time.NewTicker(server.Heartbeat * time.Second)
	defer beat.Stop()
	lost := c.Log.Clock.Lost()
	for isOpen := true; isOpen && c.Send(text); {
		text = nil
		select {
		case change, is := <-changes:
			for isOpen = is; isOpen; change, isOpen = <-changes {
				if text = append(text, form.Record(eventMessage(change))...); len(changes) == 0 || len(text) > 1<<20 {
					break
				}
			}
		case <-beat.C:
			text = heartbeat
		case <-c.Replaced():
			return
		case <-lost:
			return
		case <-c.R.Context().Done():
			return
		}
	}
}

// eventMessage writes a change.
func eventMessage(c mesos.Change) codec.Message {
	m := codec.New("mesos.master.Event").Set("type", c.Kind)
	switch c.Kind {
	case mesos.TaskAdded:
		m.Set("task_added.task", taskMessage(&c.Framework, &c.Task))
	case mesos.TaskUpdated:
		status := server.RenderStatus(c.Status)
		status.Clear("data")
		m.Set("task_updated.framework_id.value", c.Framework.ID).Set("task_updated.status", status).Set("task_updated.state", c.Task.State)
	case mesos.AgentAdded:
		m.Set("agent_added.agent", agentMessage(c.Agent, nil))
	case mesos.AgentRemoved:
		m.Set("agent_removed.agent_id.value", c.Agent.ID)
	case mesos.FrameworkAdded:
		m.Set("framework_added.framework", frameworkMessage(mesos.KnownFramework{Framework: c.Framework}, nil))
	case mesos.FrameworkUpdated:
		m.Set("framework_updated.framework", frameworkMessage(mesos.KnownFramework{Framework: c.Framework}, nil))
	case mesos.FrameworkRemoved:
		m.Set("framework_removed.framework_info", frameworkInfo(c.Framework.Subscription))
	}
	return m
}

// health answers 200 while this gateway takes calls.
func (o *Operator) health(c *api.Call) error {
	if err := o.server.Ready(); err != nil {
		return err
	}
	c.W.WriteHeader(http.StatusOK)
	return nil
}
