// The requirements for a task. The texts are those of Mesos, if it has one; unsupported fields are named. Outside the proof.

package server

import (
	"errors"
	"fmt"

	"gateway/internal/mesos/codec"
	"gateway/internal/mesos/resources"
)

// validate returns the resources that a task uses. The tasks of a group for a custom executor need no command.
func (a *acceptance) validate(task codec.Message, isGrouped, isCustom bool) (resources.Bundle, error) {
	id, agent := task.Text("task_id.value"), task.Text("agent_id.value")
	use, err := resources.FromMessages(task.List("resources"))
	switch {
	case !isID(id):
		return nil, fmt.Errorf("Task ID '%s' is not valid", id)
	case a.known[id]:
		return nil, fmt.Errorf("Task has duplicate ID: %s", id)
	case agent != a.agent:
		return nil, fmt.Errorf("Task uses invalid agent %s while agent %s is expected", agent, a.agent)
	case err != nil:
		return nil, fmt.Errorf("Task uses invalid resources: %w", err)
	case len(use) == 0:
		return nil, errors.New("Task uses no resources")
	case !isGrouped && task.Has("command") == task.Has("executor"):
		return nil, errors.New("Task should have at least one (but not both) of CommandInfo or ExecutorInfo present")
	case isGrouped && task.Has("executor"):
		return nil, errors.New("'TaskInfo.executor' must not be set")
	case isGrouped && !isCustom && !task.Has("command"):
		return nil, errors.New("a task of a group with a DEFAULT executor without 'TaskInfo.command' is not supported")
	case task.Int("kill_policy.grace_period.nanoseconds") < 0:
		return nil, errors.New("Task's 'kill_policy.grace_period' must be non-negative")
	}
	if err := validateChecks(task); err != nil {
		return nil, err
	}
	for _, one := range task.List("resources") {
		if role := one.Text("allocation_info.role"); one.Has("allocation_info") && role != a.role {
			return nil, fmt.Errorf("Task uses resources allocated to role '%s' while the offers are allocated to role '%s'", role, a.role)
		}
	}
	return use, validateContainer(task.Sub("container"))
}

func validateContainer(container codec.Message) error {
	switch {
	case container.IsAbsent():
		return nil
	case container.Enum("type") != "MESOS" || container.Has("mesos.image") || container.Has("docker"):
		return errors.New("container images are not supported")
	case len(container.List("volumes")) > 0:
		return errors.New("volumes are not supported")
	case len(container.List("network_infos")) > 0 || container.Has("linux_info") || container.Has("rlimit_info") || container.Has("tty_info"):
		return errors.New("'ContainerInfo' with `network_infos`, `linux_info`, `rlimit_info` or `tty_info` is not supported")
	}
	return nil
}
