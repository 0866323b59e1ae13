// The allocator as a child process. Outside the proof.

package shadow

import (
	"bufio"
	"bytes"
	"context"
	"encoding/json"
	"errors"
	"fmt"
	"io"
	"os/exec"
)

// allocator is a `drf run` of an empty cluster.
type allocator struct {
	command *exec.Cmd
	in      io.WriteCloser
	out     *bufio.Reader
	errors  bytes.Buffer
}

func startAllocator(ctx context.Context, program string) (*allocator, error) {
	a := &allocator{command: exec.CommandContext(ctx, program, "run")}
	a.command.Stderr = &a.errors
	var err error
	if a.in, err = a.command.StdinPipe(); err != nil {
		return nil, err
	}
	out, err := a.command.StdoutPipe()
	if err != nil {
		return nil, err
	}
	a.out = bufio.NewReaderSize(out, 1<<16)
	if err := a.command.Start(); err != nil {
		return nil, fmt.Errorf("the allocator: %w; give its program with -drf", err)
	}
	return a, nil
}

func (a *allocator) close() {
	a.in.Close()
	a.command.Process.Kill() // it has nothing to store
	a.command.Wait()
}

// offer is an offer of a cycle.
type offer struct {
	Agent, Framework, Role, Resources string
	Offer                             int
}

type reply struct {
	OK      bool    `json:"ok"`
	Offers  []offer `json:"offers"`
	Refused int     `json:"refused"`
	Name    string  `json:"name"`
}

// exchange sends lines, and returns the offers of their cycles. No line may be refused.
func (a *allocator) exchange(lines []byte) (offers []offer, err error) {
	written := make(chan error, 1)
	go func() {
		_, err := a.in.Write(lines)
		written <- err
	}()
	for rest := lines; len(rest) > 0; {
		end := bytes.IndexByte(rest, '\n') + 1
		text, err := a.out.ReadBytes('\n')
		if err != nil {
			a.command.Process.Kill()
			<-written
			a.command.Wait()
			return nil, fmt.Errorf("the allocator ended: %s", bytes.TrimSpace(a.errors.Bytes()))
		}
		var r reply
		if err := json.Unmarshal(text, &r); err != nil {
			return nil, fmt.Errorf("the allocator answered %q: %w", text, err)
		}
		if r.Refused != 0 {
			a.command.Process.Kill()
			<-written
			return nil, &refusedError{string(rest[:end-1]), r.Name}
		}
		offers, rest = append(offers, r.Offers...), rest[end:]
	}
	return offers, <-written
}

// refusedError is a line that the allocator refuses.
type refusedError struct{ line, name string }

func (e *refusedError) Error() string {
	return fmt.Sprintf("the allocator refuses %s: %s", e.line, e.name)
}

// isFull reports whether a table of the allocator was full.
func isFull(err error) bool {
	var refused *refusedError
	return errors.As(err, &refused) && refused.name == "TooMany"
}
