// Statuses that a stream sends again until they are acknowledged. Outside the proof.

package server

import (
	"time"

	"gateway/internal/registry/mesos"
)

const repeatAfter = 10 * time.Second // a status that is not acknowledged

// unacknowledged has, by tasks, the last status that a stream sent. At most one status of a task waits to be acknowledged.
type unacknowledged map[string]sentStatus

type sentStatus struct {
	uuid string
	at   time.Time
}

// add records an event that is sent, if it has a status that is to be acknowledged.
func (u unacknowledged) add(e mesos.Event, now time.Time) {
	if e.Kind == "UPDATE" && len(e.Status.UUID) > 0 {
		u[e.Status.Task] = sentStatus{string(e.Status.UUID), now}
	}
}

// due returns the statuses of a framework that its stream is to send again now.
func (u unacknowledged) due(state *mesos.State, id, stream string, now time.Time) (list []mesos.Status) {
	state.Read(func() {
		f := state.Frameworks[id]
		if f == nil || f.Stream != stream {
			return
		}
		for name, last := range u {
			t := f.Tasks[name]
			if t == nil || len(t.Unacked) == 0 {
				delete(u, name)
				continue
			}
			if status := t.Unacked[0]; last.uuid == string(status.UUID) && now.Sub(last.at) >= repeatAfter {
				u[name], list = sentStatus{last.uuid, now}, append(list, status)
			}
		}
	})
	return list
}
