// Tests of what an agent refuses of executors. Outside the proof.

package agent

import (
	"strings"
	"testing"

	"gateway/internal/mesos/codec"
)

// A status that a gateway would refuse each time is refused at once: it would hold up all later ones of its task.
func TestStatusesThatNoGatewayTakes(t *testing.T) {
	for _, c := range []struct {
		uuid, data int // their sizes
		state      string
		problem    string
	}{
		{16, maxStatus - 1000, "TASK_RUNNING", ""},
		{16, maxStatus, "TASK_RUNNING", "expected at most 3145728"},
		{15, 0, "TASK_RUNNING", "Not a valid UUID"},
		{0, 0, "TASK_RUNNING", "Not a valid UUID"},
		{16, 0, "TASK_STAGING", "TASK_STAGING from executor e of framework f which is not allowed"},
	} {
		call := codec.New("mesos.executor.Call").Set("type", "UPDATE").Set("framework_id.value", "f").Set("executor_id.value", "e").Set("update.status.task_id.value", "t").
			Set("update.status.state", c.state).Set("update.status.source", "SOURCE_EXECUTOR").Set("update.status.uuid", make([]byte, c.uuid)).Set("update.status.data", make([]byte, c.data))
		err := validate(call)
		if c.problem == "" && err != nil || c.problem != "" && (err == nil || !strings.Contains(err.Error(), c.problem)) {
			t.Errorf("%+v: %.200v", c, err)
		}
	}
}
