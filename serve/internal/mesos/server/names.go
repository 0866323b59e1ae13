// Ids of Mesos' and names of the allocator's. Outside the proof.

package server

import (
	"fmt"
	"sync/atomic"

	"gateway/internal/mesos/resources"
)

// ids makes ids of frameworks.
type ids struct {
	prefix string
	count  int64
}

func (i *ids) next() string {
	return fmt.Sprintf("%s-%04d", i.prefix, atomic.AddInt64(&i.count, 1)-1)
}

// nameOf returns the allocator's name for an id.
func nameOf(id string) string { return resources.NameOf(id) }

// ownName returns the allocator's name for a framework that brought its own id. The name depends on the principal: whatever id a principal brings,
// it does not get the present or a later name of another principal's framework, or of one of the event API.
func ownName(principal, id string) string {
	return resources.Digest(principal + "\x00" + id)
}

// holdOf returns the allocator's name for a task on an offer. A task whose id is used again gets another one.
func holdOf(task string, epoch int, offer uint64) string {
	return nameOf(fmt.Sprintf("%s.%d.%d", task, epoch, offer))
}

// isID reports whether Mesos takes a text as an id.
func isID(id string) bool {
	if id == "" || len(id) > 255 || id == "." || id == ".." {
		return false
	}
	for _, c := range id {
		if c < ' ' || c == 127 || c == '/' || c == '\\' {
			return false
		}
	}
	return true
}
