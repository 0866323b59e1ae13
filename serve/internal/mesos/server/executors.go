// Executors of ACCEPT: their requirements, and the resources that they use. Outside the proof.

package server

import (
	"errors"
	"fmt"

	"gateway/internal/mesos/codec"
	"gateway/internal/mesos/resources"
	"gateway/internal/registry/mesos"
)

// validateExecutor returns what an executor uses, and completes it as Mesos' master does. The texts are Mesos' where it has one.
func (a *acceptance) validateExecutor(executor codec.Message) (resources.Bundle, error) {
	if !executor.Has("type") || executor.Enum("type") == "UNKNOWN" {
		executor.Set("type", "CUSTOM")
	}
	use, err := resources.FromMessages(executor.List("resources"))
	kind := executor.Enum("type")
	switch {
	case err != nil:
		return nil, fmt.Errorf("Executor uses invalid resources: %w", err)
	case !isID(executor.Text("executor_id.value")):
		return nil, fmt.Errorf("ExecutorID '%s' is not valid", executor.Text("executor_id.value"))
	case executor.Has("framework_id") && executor.Text("framework_id.value") != a.id:
		return nil, fmt.Errorf("ExecutorInfo has an invalid FrameworkID (Actual: %s vs Expected: %s)", executor.Text("framework_id.value"), a.id)
	case kind == "CUSTOM" && !executor.Has("command"):
		return nil, errors.New("'ExecutorInfo.command' must be set for 'CUSTOM' executor")
	case kind == "DEFAULT" && executor.Has("command"):
		return nil, errors.New("'ExecutorInfo.command' must not be set for 'DEFAULT' executor")
	case kind != "CUSTOM" && kind != "DEFAULT":
		return nil, fmt.Errorf("the executor type %s is not supported: expected DEFAULT or CUSTOM", kind)
	case executor.Int("shutdown_grace_period.nanoseconds") < 0:
		return nil, errors.New("ExecutorInfo's 'shutdown_grace_period' must be non-negative")
	}
	for _, one := range executor.List("resources") {
		if role := one.Text("allocation_info.role"); one.Has("allocation_info") && role != a.role {
			return nil, fmt.Errorf("Executor uses resources allocated to role '%s' while the offers are allocated to role '%s'", role, a.role)
		}
		one.Set("allocation_info.role", a.role)
	}
	executor.Set("framework_id.value", a.id)
	return use, validateContainer(executor.Sub("container"))
}

// runner is the custom executor of tasks of an ACCEPT.
type runner struct {
	info  []byte
	holds []mesos.Hold // that all tasks with this executor name: the first one that exists launches it
}

// isLaunched reports whether an executor is known to run on the agent.
func (a *acceptance) isLaunched(executor string) bool { return a.executors[executor] }

// runBy adds a custom executor's resources to what is taken out of the offers, unless that was done.
func (a *acceptance) runBy(executor codec.Message, use resources.Bundle) *runner {
	id := executor.Text("executor_id.value")
	if a.runners[id] == nil {
		a.runners[id] = &runner{info: executor.Protobuf()}
		if !a.isLaunched(id) {
			a.runners[id].holds = a.hold("executor."+id, use)
		}
	}
	return &runner{info: executor.Protobuf(), holds: a.runners[id].holds} // two descriptions of one executor are compared later
}
