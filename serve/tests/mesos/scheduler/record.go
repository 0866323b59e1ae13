// A record of all tasks and statuses, which outlives the program, like the store of a real framework. Outside the proof.

package main

import (
	"context"
	"fmt"
	"log"
	"os"
	"strings"

	mesos "github.com/mesos/mesos-go/api/v1/lib"
	"github.com/mesos/mesos-go/api/v1/lib/extras/scheduler/eventrules"
	"github.com/mesos/mesos-go/api/v1/lib/scheduler"
)

// record is a file with a line for each launch and each status, or nil.
type record struct{ file *os.File }

func openRecord(path string) *record {
	if path == "" {
		return &record{}
	}
	file, err := os.OpenFile(path, os.O_CREATE|os.O_APPEND|os.O_WRONLY, 0o600)
	if err != nil {
		log.Fatal(err)
	}
	return &record{file}
}

func (r *record) write(format string, values ...interface{}) {
	if r.file == nil {
		return
	}
	if _, err := fmt.Fprintf(r.file, format+"\n", values...); err != nil {
		log.Fatal(err)
	}
}

func isTerminal(state string) bool {
	switch state {
	case "TASK_FINISHED", "TASK_FAILED", "TASK_KILLED", "TASK_ERROR", "TASK_LOST", "TASK_DROPPED", "TASK_GONE":
		return true
	}
	return false
}

// takeUp reads the record of an earlier process: tasks without a terminal status may still run.
func (f *framework) takeUp(path string) {
	text, _ := os.ReadFile(path)
	for _, line := range strings.Split(string(text), "\n") {
		switch words := strings.Fields(line); {
		case len(words) >= 3 && words[0] == "launch":
			f.launched++
			f.running[words[1]], f.agents[words[1]] = true, words[2]
		case len(words) >= 3 && words[0] == "status" && isTerminal(words[2]):
			if delete(f.running, words[1]); words[2] == "TASK_FINISHED" {
				f.finished[words[1]] = true
			}
		}
	}
}

// statuses records each status before it is acknowledged.
func (r *record) statuses(ctx context.Context, e *scheduler.Event, err error, chain eventrules.Chain) (context.Context, *scheduler.Event, error) {
	if e.GetType() == scheduler.Event_UPDATE {
		s := e.Update.Status
		reason := mesos.TaskStatus_Reason(-1)
		if s.Reason != nil {
			reason = *s.Reason
		}
		r.write("status %s %s %s %x", s.TaskID.Value, s.GetState(), reason, s.UUID)
	}
	return chain(ctx, e, err)
}
