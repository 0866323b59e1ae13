// The pipeline: messages go to the child, their echoes and replies come back, and are written and applied in order. Outside the proof.

package allocator

import (
	"bufio"
	"bytes"
	"context"
	"errors"
	"fmt"
	"log"
	"os"
	"os/exec"
	"time"

	"gateway/internal/audit"
	"gateway/internal/oplog"
	"gateway/internal/registry"
)

const (
	maxInFlight = 1 << 16 // messages between the child's input and its output
	maxBlock    = 1 << 20 // bytes of the journal that are written at once
)

// inFlight is a message on its way through the child. One without a key comes after those that the list had at the start.
type inFlight struct {
	oplog.Message
	fed     time.Time
	lines   [][]byte
	replies [][]byte
}

// child is a running allocator. Its pipes are files of this process, so that waiting for its end does not close them while they are read.
type child struct {
	pid   int
	in    *bufio.Writer
	out   *bufio.Reader
	ended chan struct{} // closed when it has ended, after which stat says how
	stat  error
	files []*os.File
}

// startChild starts the program. It is killed when the context ends.
func startChild(ctx context.Context, program string, arguments ...string) (*child, error) {
	command := exec.CommandContext(ctx, program, arguments...)
	theirIn, ourIn, err := os.Pipe()
	if err != nil {
		return nil, fmt.Errorf("the allocator: %w", err)
	}
	defer theirIn.Close()
	ourOut, theirOut, err := os.Pipe()
	if err != nil {
		ourIn.Close()
		return nil, fmt.Errorf("the allocator: %w", err)
	}
	defer theirOut.Close()
	command.Stdin, command.Stdout, command.Stderr = theirIn, theirOut, os.Stderr
	c := &child{in: bufio.NewWriterSize(ourIn, 1<<18), out: bufio.NewReaderSize(ourOut, 1<<18), ended: make(chan struct{}), files: []*os.File{ourIn, ourOut}}
	if err := command.Start(); err != nil {
		c.close()
		return nil, fmt.Errorf("the allocator: %w", err)
	}
	c.pid = command.Process.Pid
	go func() {
		c.stat = command.Wait()
		close(c.ended)
	}()
	return c, nil
}

func (c *child) close() {
	for _, file := range c.files {
		file.Close()
	}
}

// generation is the life of one child: it starts from a snapshot, and takes all later messages that the list has at a revision, and then new ones.
func (a *Allocator) generation(ctx context.Context, from oplog.Snapshot, revision int64) error {
	ctx, cancel := context.WithCancel(ctx)
	defer cancel()
	events, err := probe(ctx, a.config.Program)
	if err != nil { // then none is used
		log.Print(err)
	}
	c, err := startChild(ctx, a.config.Program, append([]string{"run", "--ask", "--echo"}, a.snapshots.arguments(from)...)...)
	if err != nil {
		return err
	}
	a.mu.Lock()
	a.pid, a.events = c.pid, events
	a.mu.Unlock()
	a.waiting.Store(0)
	pipeline, ends := make(chan *inFlight, maxInFlight), make(chan error, 3)
	go func() { ends <- a.feed(ctx, from.Revision, revision, c.in, pipeline) }()
	go func() { ends <- a.collect(ctx, c.out, pipeline) }()
	go func() {
		<-c.ended
		ends <- fmt.Errorf("it ended: %v", c.stat)
	}()
	err = <-ends
	cancel()                 // which ends the child, and so its output
	for n := 0; n < 2; n++ { // all have stopped before another generation begins
		if other := <-ends; oplog.IsFatal(other) {
			err = other
		}
	}
	c.close()
	return err
}

// feed writes the lines of the messages after a revision to the child, and before that puts each message into the pipeline.
func (a *Allocator) feed(ctx context.Context, after oplog.Revision, revision int64, out *bufio.Writer, pipeline chan<- *inFlight) error {
	hand := func(messages []oplog.Message) error {
		for _, m := range messages {
			f := &inFlight{Message: m, fed: time.Now(), lines: m.Lines()}
			a.waiting.Add(1)
			select {
			case pipeline <- f:
			case <-ctx.Done():
				return ctx.Err()
			}
			for _, line := range f.lines {
				out.Write(line)
				out.WriteByte('\n')
			}
			if m.Marker == oplog.MarkerEpoch { // what comes is for another child
				out.Flush()
				<-ctx.Done()
				return ctx.Err()
			}
		}
		if err := out.Flush(); err != nil {
			return fmt.Errorf("writing to it: %w", err)
		}
		return nil
	}
	if err := a.log.Load(ctx, after, revision, hand); err != nil {
		return err
	}
	select {
	case pipeline <- &inFlight{}:
	case <-ctx.Done():
		return ctx.Err()
	}
	return a.log.Follow(ctx, revision, hand)
}

// collect reads for each line its echo and its reply, and delivers these when no more of them can be read at once.
func (a *Allocator) collect(ctx context.Context, in *bufio.Reader, pipeline <-chan *inFlight) error {
	var block []byte
	var done []*inFlight
	for {
		var f *inFlight
		select {
		case f = <-pipeline:
		case <-ctx.Done():
			return ctx.Err()
		}
		f.replies = make([][]byte, len(f.lines))
		for k, line := range f.lines {
			var err error
			start := len(block)
			if block, err = appendLine(block, in); err != nil {
				return fmt.Errorf("reading its echo: %w", err)
			}
			if echo := block[start:]; !bytes.Equal(echo[:len(echo)-1], line) {
				return &oplog.FatalError{Err: fmt.Errorf("the allocator echoed %.200q instead of %.200q, in message %s", echo, line, f.Key)}
			}
			start = len(block)
			if block, err = appendLine(block, in); err != nil {
				return fmt.Errorf("reading its reply: %w", err)
			}
			f.replies[k] = block[start:len(block):len(block)]
		}
		done = append(done, f)
		if len(pipeline) == 0 || in.Buffered() == 0 || len(block) > maxBlock || f.Key == "" || f.Marker != "" {
			if err := a.deliver(block, done); err != nil {
				return err
			}
			block, done = make([]byte, 0, len(block)), nil // the replies are parts of the old one
		}
		if f.Marker != "" {
			if err := a.snapshots.onMarker(ctx, f, a.positions.last()); err != nil {
				return err
			}
		}
	}
}

// appendLine appends a line, which may be longer than the reader's buffer.
func appendLine(text []byte, in *bufio.Reader) ([]byte, error) {
	for {
		part, err := in.ReadSlice('\n')
		if text = append(text, part...); !errors.Is(err, bufio.ErrBufferFull) {
			return text, err
		}
	}
}

// deliver writes echoes and replies to the journal, applies them to the registry, and then wakes the callers that wait for them.
func (a *Allocator) deliver(block []byte, done []*inFlight) error {
	if err := a.journal.write(block); err != nil {
		return err
	}
	now, isWhole := a.positions.last(), false
	var new []oplog.Position
	var records []audit.Record
	for _, f := range done {
		if f.Key == "" {
			isWhole = true
			continue
		}
		before := now
		now.Revision, now.Messages, now.Lines = f.Revision, now.Messages+1, now.Lines+int64(len(f.lines))
		for k, line := range f.lines {
			now.Bytes += int64(len(line) + 1 + len(f.replies[k]))
		}
		new = append(new, now)
		records = append(records, audit.NewRecord(&f.Message, now.Messages, before.Lines+1, before.Bytes, now.Bytes-before.Bytes, f.lines, f.replies))
		a.journal.Settings.Apply(&records[len(records)-1], f.lines, f.replies)
		a.registry.Apply(&registry.Message{Number: now.Messages, Revision: f.Revision.Main, Last: f.Last, At: f.At, Key: f.Key, Note: f.Note,
			Lines: f.lines, Replies: f.replies, Took: time.Since(f.fed)})
	}
	if err := a.journal.Audit.Write(records); err != nil {
		return err
	}
	if isWhole {
		if err := a.journal.checkWhole(); err != nil {
			return err
		}
		a.journal.Settings.DropAfter(now.Messages)
	}
	a.positions.add(new, isWhole)
	a.waiting.Add(-int64(len(new)))
	return nil
}
