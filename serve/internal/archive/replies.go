// Checking the replies of an archive by the allocator's own program. Outside the proof.

package archive

import (
	"bytes"
	"context"
	"fmt"
	"io"
	"os"
	"os/exec"
	"path/filepath"
)

// Replies checks the replies in consecutive segments: `drf check` reads the journal from its beginning, or from a state. The check begins again
// after a gap, and at each epoch.
type Replies struct {
	Checked   int64 // messages
	Unchecked int64 // messages before the first state, or after a gap

	program, folder string
	run             *checkRun
	last            *Segment
}

// checkRun is a `drf check` that reads.
type checkRun struct {
	command  *exec.Cmd
	in       io.WriteCloser
	out      bytes.Buffer
	problems bytes.Buffer
	segments []checkedPart
	lines    int64
}

// checkedPart is the place of a segment's journal in the input of a run.
type checkedPart struct {
	name      string
	first     int64 // line
	offset    int64 // of the journal in its file
	messages  int64
	firstLine int64 // event line
}

// NewReplies returns a check with a program; states are written to a folder for temporary files.
func NewReplies(program, folder string) *Replies { return &Replies{program: program, folder: folder} }

// Add checks another segment. Errors are returned by End.
func (r *Replies) Add(ctx context.Context, s *Segment) error {
	if r.run != nil && (s.From != r.last.To || r.last.Ends) {
		if err := r.End(); err != nil {
			return err
		}
	}
	r.last = s
	if r.run == nil {
		if s.From.Bytes != 0 && len(s.StateText) == 0 {
			r.Unchecked += s.To.Messages - s.From.Messages
			return nil
		}
		if err := r.start(ctx, s); err != nil {
			return err
		}
	}
	r.run.segments = append(r.run.segments, checkedPart{Name(s.Segment), r.run.lines + 1, s.head + s.State + s.Audit, s.To.Messages - s.From.Messages, s.From.Lines + 1})
	r.run.lines += int64(bytes.Count(s.JournalText, []byte("\n")))
	r.run.in.Write(s.JournalText) // a program that has ended says why in End
	return nil
}

func (r *Replies) start(ctx context.Context, s *Segment) error {
	arguments := []string{"check"}
	if len(s.StateText) > 0 {
		path := filepath.Join(r.folder, "state")
		if err := os.WriteFile(path, s.StateText, 0o600); err != nil {
			return err
		}
		arguments = append(arguments, "--from", path)
	}
	run := &checkRun{command: exec.CommandContext(ctx, r.program, arguments...)}
	run.command.Stdout, run.command.Stderr = &run.out, &run.problems
	var err error
	if run.in, err = run.command.StdinPipe(); err == nil {
		err = run.command.Start()
	}
	if err != nil {
		return fmt.Errorf("%s: %w", r.program, err)
	}
	r.run = run
	return nil
}

// End ends the check of what was added. The error is a *DamageError when a reply is wrong.
func (r *Replies) End() error {
	run := r.run
	if run == nil {
		return nil
	}
	r.run = nil
	run.in.Close()
	failed := run.command.Wait()
	var line int64
	if n, _ := fmt.Sscanf(run.out.String(), "bad line %d", &line); n == 1 {
		return run.damage(line)
	}
	var good int64
	if n, _ := fmt.Sscanf(run.out.String(), "good %d", &good); n != 1 || good != run.lines/2 {
		return fmt.Errorf("%s check: expected good %d: %q %s (%v)", r.program, run.lines/2, run.out.String(), run.problems.String(), failed)
	}
	for _, part := range run.segments {
		r.Checked += part.messages
	}
	return nil
}

// damage returns the error for a line of what a run read.
func (run *checkRun) damage(line int64) error {
	k := len(run.segments) - 1
	for k > 0 && run.segments[k].first > line {
		k--
	}
	one := run.segments[k]
	return &DamageError{one.name, one.offset, fmt.Sprintf("the reply to event line %d is not what drf replies", one.firstLine+(line-one.first)/2)}
}
