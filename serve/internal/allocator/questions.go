// Questions about the state: a second child answers them, so that events never wait for an answer. Outside the proof.

package allocator

import (
	"bufio"
	"bytes"
	"context"
	"encoding/json"
	"errors"
	"fmt"
	"log"
	"sync/atomic"
	"time"

	"gateway/internal/oplog"
)

// ErrNoAnswer reports that a question was not answered. It can be asked again.
var ErrNoAnswer = errors.New("the allocator did not answer")

const (
	idleTime    = time.Minute // after which the second child ends
	feedAtOnce  = 1 << 20     // bytes of the journal
	maxTogether = 16          // questions that are asked at one position
)

// Answer is the answer to a question, as of a message.
type Answer struct {
	Text    json.RawMessage
	Message int64
}

// Questions asks the program in a child of its own, which it feeds from the journal. The child starts with the first question.
type Questions struct {
	allocator *Allocator
	queue     chan *question
	pid       int64

	child *child
	end   context.CancelFunc
	at    oplog.Position // how far the child was fed
	epoch int
}

type question struct {
	text   string
	answer chan Answer // has room for one, and is closed without an answer when none comes
}

// NewQuestions returns the questions for an allocator. Run must be called, or no answers come.
func NewQuestions(a *Allocator) *Questions {
	return &Questions{allocator: a, queue: make(chan *question)}
}

// Pid returns the process of the second child, or 0.
func (q *Questions) Pid() int { return int(atomic.LoadInt64(&q.pid)) }

// Ask returns the answer to a question such as "explain" with an argument, at or after the position of all messages that were answered before.
func (q *Questions) Ask(ctx context.Context, what, argument string) (Answer, error) {
	if err := q.allocator.Ready(); err != nil {
		return Answer{}, err
	}
	one := &question{text: "?" + what + " " + argument, answer: make(chan Answer, 1)}
	select {
	case q.queue <- one:
	case <-ctx.Done():
		return Answer{}, ErrNoAnswer
	}
	select {
	case answer, is := <-one.answer:
		var object map[string]json.RawMessage
		if !is {
			return Answer{}, ErrNoAnswer
		}
		if json.Unmarshal(answer.Text, &object); object[what] == nil {
			return Answer{}, fmt.Errorf("the allocator answered %.200q to ?%s", answer.Text, what)
		}
		return Answer{object[what], answer.Message}, nil
	case <-ctx.Done():
		return Answer{}, ErrNoAnswer
	}
}

// Run answers questions until the context ends.
func (q *Questions) Run(ctx context.Context) {
	defer q.stop()
	for {
		var first *question
		select {
		case first = <-q.queue:
		case <-time.After(idleTime):
			q.stop()
			continue
		case <-ctx.Done():
			return
		}
		together := q.gather(first)
		if err := q.answer(ctx, together); err != nil {
			if ctx.Err() == nil {
				log.Printf("questions: %v", err)
			}
			q.stop()
		}
		for _, one := range together {
			close(one.answer)
		}
	}
}

// gather takes the waiting questions.
func (q *Questions) gather(first *question) []*question {
	together := []*question{first}
	for len(together) < maxTogether {
		select {
		case one := <-q.queue:
			together = append(together, one)
		default:
			return together
		}
	}
	return together
}

func (q *Questions) stop() {
	if q.child == nil {
		return
	}
	q.end()
	<-q.child.ended
	q.child.close()
	q.child = nil
	atomic.StoreInt64(&q.pid, 0)
}

// answer feeds the child up to the last message, and asks it questions; of equal questions only the first.
func (q *Questions) answer(ctx context.Context, together []*question) error {
	epoch, to := q.allocator.snapshots.epoch(), q.allocator.positions.last()
	kept, _, _ := q.allocator.journal.Bounds()
	if q.child != nil && (q.epoch != epoch || q.at.Bytes < kept || q.at.Messages > to.Messages) {
		q.stop()
	}
	if q.child == nil {
		if err := q.start(ctx, epoch); err != nil {
			return err
		}
	}
	texts, order := map[string][]*question{}, []string{}
	for _, one := range together {
		if texts[one.text] == nil {
			order = append(order, one.text)
		}
		texts[one.text] = append(texts[one.text], one)
	}
	fed := make(chan error, 1)
	go func() { fed <- q.feed(to, order) }()
	err := q.read(to, order, texts)
	if err != nil {
		q.end() // the feeding ends with the child
	}
	if fault := <-fed; err == nil {
		err = fault
	}
	q.at = to
	return err
}

// start starts the child at the newest snapshot, or at the beginning.
func (q *Questions) start(ctx context.Context, epoch int) error {
	from := q.allocator.snapshots.newest()
	if from.Epoch != epoch {
		return fmt.Errorf("the snapshot of epoch %d is not made yet", epoch)
	}
	ctx, q.end = context.WithCancel(ctx)
	child, err := startChild(ctx, q.allocator.config.Program, append([]string{"run", "--ask"}, q.allocator.snapshots.arguments(from)...)...)
	if err != nil {
		q.end()
		return err
	}
	q.child, q.at, q.epoch = child, from.Position, epoch
	atomic.StoreInt64(&q.pid, int64(child.pid))
	return nil
}

// feed writes the event lines of the journal up to a position, and then the questions.
func (q *Questions) feed(to oplog.Position, questions []string) error {
	out := q.child.in
	part, isReply := make([]byte, feedAtOnce), false
	for at := q.at.Bytes; at < to.Bytes; {
		text := part
		if rest := to.Bytes - at; rest < int64(len(text)) {
			text = text[:rest]
		}
		n, err := q.allocator.journal.ReadAt(text, at)
		if err != nil {
			return err
		}
		at += int64(n)
		for text = text[:n]; len(text) > 0; {
			line, isEnd := text, false
			if end := bytes.IndexByte(text, '\n'); end >= 0 {
				line, isEnd = text[:end+1], true
			}
			if !isReply {
				out.Write(line)
			}
			if isEnd {
				isReply = !isReply
			}
			text = text[len(line):]
		}
	}
	for _, question := range questions {
		out.WriteString(question + "\n")
	}
	return out.Flush()
}

// read skips the replies to the event lines, and delivers the answers to the questions.
func (q *Questions) read(to oplog.Position, questions []string, texts map[string][]*question) error {
	for n := to.Lines - q.at.Lines; n > 0; n-- {
		for isWhole := false; !isWhole; {
			_, err := q.child.out.ReadSlice('\n')
			if isWhole = err == nil; !isWhole && !errors.Is(err, bufio.ErrBufferFull) {
				return fmt.Errorf("reading a reply: %w", err)
			}
		}
	}
	for _, question := range questions {
		text, err := q.child.out.ReadBytes('\n')
		if err != nil {
			return fmt.Errorf("reading an answer: %w", err)
		}
		for _, one := range texts[question] {
			one.answer <- Answer{bytes.TrimSuffix(text, []byte("\n")), to.Messages}
		}
	}
	return nil
}
