// Which newer events the program knows. Outside the proof.

package allocator

import (
	"bytes"
	"context"
	"fmt"
	"os/exec"
	"time"

	"gateway/internal/registry"
)

// SetFramework is the event that changes a framework's roles. Earlier programs do not know it.
const SetFramework = "set_framework"

// probes has a line for each event that not every program knows, and the refusal that one that knows it replies in an empty cluster.
var probes = []struct{ event, line, refusal string }{
	{SetFramework, `{"event":"set_framework","framework":"f","roles":["r"]}`, "UnknownFramework"},
}

// Events returns which of the newer events the program knew when its child was last started.
func (a *Allocator) Events() []string {
	a.mu.Lock()
	defer a.mu.Unlock()
	return a.events
}

// probe asks a program which of the newer events it knows. It does so in a separate run, whose events are not in the list.
func probe(ctx context.Context, program string) (events []string, err error) {
	ctx, cancel := context.WithTimeout(ctx, 10*time.Second)
	defer cancel()
	command, lines := exec.CommandContext(ctx, program, "run"), []byte(nil)
	for _, one := range probes {
		lines = append(append(lines, one.line...), '\n')
	}
	command.Stdin = bytes.NewReader(lines)
	text, err := command.Output()
	if err != nil {
		return nil, fmt.Errorf("asking the allocator which events it knows: %w", err)
	}
	replies := bytes.Split(bytes.TrimSuffix(text, []byte("\n")), []byte("\n"))
	for k, one := range probes {
		if k < len(replies) && registry.AnswerOf(replies[k]) == one.refusal {
			events = append(events, one.event)
		}
	}
	return events, nil
}
