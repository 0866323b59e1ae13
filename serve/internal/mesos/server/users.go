// Users that tasks run as. Outside the proof.

package server

import (
	"fmt"

	"gateway/internal/mesos/codec"
	"gateway/internal/registry/mesos"
)

// userAttribute is the attribute in which an agent names the user as which its tasks run: anyUser, or the agent's own.
const (
	userAttribute = "task_user"
	anyUser       = "*"
)

// agentUser returns the user as which tasks run on an agent, or nothing if it is not known. The registry's lock is held.
func agentUser(a *mesos.Agent) string {
	if a == nil {
		return ""
	}
	for _, one := range codec.MustReadProtobuf("mesos.AgentInfo", a.Info).List("attributes") {
		if one.Text("name") == userAttribute {
			return one.Text("text.value")
		}
	}
	return ""
}

// userOf returns the user as which a task can run, or an error. The user is empty if the agent does not change users.
func (a *acceptance) userOf(task, executor codec.Message) (user, state, reason, why string) {
	command := executor.Sub("command")
	if command.IsAbsent() {
		command = task.Sub("command")
	}
	user = command.Text("user")
	switch {
	case a.agentUser != anyUser && user != "" && user != a.agentUser:
		return "", "TASK_ERROR", "REASON_TASK_INVALID", fmt.Sprintf("'CommandInfo.user' is '%s': the agent does not run tasks as other users than its own", user)
	case a.agentUser != anyUser:
		return "", "", "", ""
	case user == "":
		user = a.User
	}
	if user == "" { // the agent's own, which is root where it can change users
		user = "root"
	}
	if !a.by.Has("user", user) {
		return "", "TASK_ERROR", "REASON_TASK_UNAUTHORIZED", fmt.Sprintf("Not authorized to launch as user '%s': the principal '%s' needs the right user:%s", user, a.by.Name, user)
	}
	return user, "", "", ""
}
