// The requirements for health checks and checks of tasks. The texts are those of Mesos. Outside the proof.

package server

import (
	"errors"
	"fmt"
	"strings"

	"gateway/internal/mesos/codec"
)

func validateChecks(task codec.Message) error {
	if check := task.Sub("health_check"); !check.IsAbsent() {
		if err := validateCheck(check, "HealthCheck", " health check", "command"); err != nil {
			return fmt.Errorf("Task uses invalid health check: %w", err)
		}
		if scheme := check.Text("http.scheme"); check.Enum("type") == "HTTP" && scheme != "" && scheme != "http" && scheme != "https" {
			return fmt.Errorf("Task uses invalid health check: Unsupported HTTP health check scheme: '%s'", scheme)
		}
		if check.Float("grace_period_seconds") < 0 {
			return errors.New("Task uses invalid health check: Expecting 'grace_period_seconds' to be non-negative")
		}
	}
	if check := task.Sub("check"); !check.IsAbsent() {
		if err := validateCheck(check, "CheckInfo", " check", "command.command"); err != nil {
			return fmt.Errorf("Task uses invalid check: %w", err)
		}
	}
	return nil
}

// validateCheck checks what health checks and checks have in common.
func validateCheck(check codec.Message, name, what, command string) error {
	kind := check.Enum("type")
	switch field := strings.ToLower(kind); {
	case !check.Has("type"):
		return fmt.Errorf("%s must specify 'type'", name)
	case kind != "COMMAND" && kind != "HTTP" && kind != "TCP":
		return fmt.Errorf("'%s' is not a valid%s type", kind, what)
	case !check.Has(field):
		return fmt.Errorf("Expecting '%s' to be set for %s%s", field, kind, what)
	case kind == "COMMAND" && check.Text(command+".value") == "":
		return fmt.Errorf("the command of the%s has no value", what)
	case kind == "COMMAND" && check.Has(command+".user"):
		return fmt.Errorf("the command of the%s has a user: it runs as the task's", what)
	case kind == "HTTP" && check.Text("http.path") != "" && !strings.HasPrefix(check.Text("http.path"), "/"):
		return fmt.Errorf("The path '%s' of HTTP%s must start with '/'", check.Text("http.path"), what)
	}
	for _, one := range []string{"delay_seconds", "interval_seconds", "timeout_seconds"} {
		if value := check.Float(one); !(value >= 0 && value < 1e9) {
			return fmt.Errorf("Expecting '%s' to be non-negative", one)
		}
	}
	return nil
}
