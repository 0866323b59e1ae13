// Batches of event lines. Outside the proof.

package api

import (
	"bufio"
	"bytes"
	"context"
	"encoding/hex"
	"errors"
	"io"
	"net/http"
	"regexp"
	"time"

	"gateway/internal/allocator"
	"gateway/internal/auth"
	"gateway/internal/disk"
	"gateway/internal/oplog"
	"gateway/internal/registry"
)

const (
	maxBody   = 4 << 20
	smallBody = 64 << 10 // a larger one needs a slot
	maxLines  = 1 << 16
	maxAhead  = time.Minute // of the timestamp in a key
)

var isKey = regexp.MustCompile(`^[!-~]{1,128}$`)

func (q *request) events() error {
	start := time.Now()
	if !q.by.MaySend() {
		return refusal(http.StatusForbidden, "the token %q has no right to send events", q.by.Name)
	}
	key, err := q.key()
	if err != nil {
		return err
	}
	body, release, err := q.body()
	if err != nil {
		return err
	}
	defer release()
	b, err := q.batch(key, body)
	if err != nil {
		return err
	}
	ctx, cancel := context.WithTimeout(q.r.Context(), patience)
	defer cancel()
	if err := q.Allocator.WaitReady(ctx); err != nil {
		return err
	}
	if err := disk.CheckFree(q.Folder); err != nil {
		return err
	}
	reply, err := q.apply(ctx, b)
	if err != nil {
		return err
	}
	q.w.Header().Set("Drf-Line", formatInt(reply.FirstLine))
	q.w.Header().Set("Drf-Applied", appliedYes)
	q.write("application/x-ndjson", reply.Message, reply.Lines)
	q.server.metrics.Answered(time.Since(start))
	return nil
}

// apply appends a batch, and returns the replies to it, or to the message that it was before.
func (q *request) apply(ctx context.Context, b *oplog.Batch) (allocator.Reply, error) {
	at, err := q.Log.Append(ctx, b)
	if pruned := (*oplog.AppliedError)(nil); errors.As(err, &pruned) {
		if reply, fault := q.Allocator.ReplyTo(pruned.Message); fault == nil {
			return reply, nil
		}
	}
	if err != nil {
		return allocator.Reply{}, err
	}
	reply, err := q.Allocator.Reply(ctx, at)
	if errors.Is(err, allocator.ErrForgotten) {
		err = q.forgotten(ctx, b.Key)
	}
	return reply, err
}

// forgotten returns the answer to a batch that was applied and whose replies are no longer kept here. Its number is that of its kept key, once its
// message is pruned.
func (q *request) forgotten(ctx context.Context, key string) error {
	number, _, err := q.Log.Kept.Find(ctx, key)
	if err != nil {
		number = 0
	}
	return &answerError{http.StatusGone, "these lines were applied; their replies are no longer kept", appliedYes, number, 0}
}

// key returns the key of the batch: the caller's, or a new one that no caller will send again.
func (q *request) key() (string, error) {
	key := q.r.Header.Get("Idempotency-Key")
	if key == "" {
		return oplog.Anonymous(q.by.Name), nil
	}
	if !isKey.MatchString(key) {
		return "", refusal(http.StatusBadRequest, "Idempotency-Key: expected 1 to 128 visible ASCII characters")
	}
	made, isDated := keyTime(key)
	age := q.Log.Clock.Now().Sub(made)
	if isDated && age > q.Window {
		return "", &answerError{http.StatusGone, "this key is from " + made.UTC().Format(time.RFC3339) + ", too long ago to tell whether it was used; this request applied nothing, and an earlier one may have",
			appliedUnknown, 0, 0}
	}
	if isDated && age < -maxAhead {
		return "", refusal(http.StatusBadRequest, "this key is from %s, which is in the future: correct the clock of the machine that made the key", made.UTC().Format(time.RFC3339))
	}
	return q.by.Name + "/" + key, nil
}

// body reads the request's body. A large body waits until few others are being handled; release lets the next one continue.
func (q *request) body() (body []byte, release func(), err error) {
	reader := http.MaxBytesReader(q.w, q.r.Body, maxBody)
	release = func() {}
	if length := q.r.ContentLength; length > 0 && length < smallBody {
		body = make([]byte, length)
		_, err = io.ReadFull(reader, body)
	} else {
		body, err = io.ReadAll(io.LimitReader(reader, smallBody))
	}
	if err == nil && len(body) == smallBody {
		if release, err = q.server.slots.Take(q.r.Context(), q.by.Name); err != nil {
			return nil, nil, err
		}
		whole := bytes.NewBuffer(make([]byte, 0, sizeOf(q.r.ContentLength)))
		whole.Write(body)
		_, err = whole.ReadFrom(reader)
		body = whole.Bytes()
	}
	limitTime(q.r, q.server.inTime)
	switch {
	case err != nil && len(body) >= maxBody:
		err = refusal(http.StatusRequestEntityTooLarge, "a body has at most %d bytes", maxBody)
	case err != nil:
		if q.r.ProtoMajor == 1 {
			q.w.Header().Set("Connection", "close") // or the server would wait for the rest before it answers
		}
		err = refusal(http.StatusBadRequest, "the body could not be read: %v", err)
	case len(body) == 0:
		err = refusal(http.StatusBadRequest, "the body has no event line")
	}
	if err != nil {
		release()
		return nil, nil, err
	}
	return body, release, nil
}

// sizeOf returns the room for a body of an announced length, with some to see its end.
func sizeOf(length int64) int64 {
	if length < smallBody || length > maxBody {
		return 2 * smallBody
	}
	return length + bytes.MinRead
}

// batch judges the lines of a body.
func (q *request) batch(key string, body []byte) (*oplog.Batch, error) {
	body = bytes.TrimSuffix(body, []byte("\n"))
	count := bytes.Count(body, []byte("\n")) + 1
	if count > maxLines {
		return nil, refusal(http.StatusRequestEntityTooLarge, "a batch has at most %d lines", maxLines)
	}
	if err := q.server.limiter.Batch(q.by.Name, len(body), count); err != nil {
		return nil, err
	}
	b := &oplog.Batch{Key: key, Sender: oplog.NewSender(q.by.Name, q.r.RemoteAddr), Limited: !q.by.Has("operate", "")}
	b.Grow(len(body) + count)
	touches := map[string]bool{}
	for number, rest, more := 1, body, true; more; number++ {
		var line []byte
		line, rest, more = bytes.Cut(rest, []byte("\n"))
		judged, err := q.by.Judge(line)
		if err != nil {
			return nil, refusal(http.StatusForbidden, "line %d: %v", number, err)
		}
		b.Add(judged.Line, judged.Timed)
		if kind := registers(judged.Kind); kind != "" && !touches[kind] {
			touches[kind], b.Touches = true, append(b.Touches, kind)
		}
	}
	return b, nil
}

// registers returns the kind of thing that an event registers or removes, or an empty text.
func registers(event string) string {
	switch event {
	case "add_agent", "remove_agent":
		return registry.Agents
	case "add_framework", "remove_framework":
		return registry.Frameworks
	}
	return ""
}

var isUUID7 = regexp.MustCompile(`^[0-9A-Fa-f]{8}-[0-9A-Fa-f]{4}-7[0-9A-Fa-f]{3}-[89ABab][0-9A-Fa-f]{3}-[0-9A-Fa-f]{12}$`)

// keyTime returns the timestamp in a UUID of version 7.
func keyTime(key string) (time.Time, bool) {
	if !isUUID7.MatchString(key) {
		return time.Time{}, false
	}
	text, _ := hex.DecodeString(key[:8] + key[9:13])
	at := int64(0)
	for _, b := range text {
		at = at<<8 | int64(b)
	}
	return time.UnixMilli(at), true
}

func (q *request) agentAlive() error     { return q.alive(registry.Agents, "agent") }
func (q *request) frameworkAlive() error { return q.alive(registry.Frameworks, "framework") }

func (q *request) alive(kind, right string) error {
	if !auth.IsName(q.name) || !q.by.Has(right, q.name) {
		return refusal(http.StatusForbidden, "the token %q needs the right %s:%s", q.by.Name, right, q.name)
	}
	wasAlive, err := q.Sessions.Heartbeat(q.r.Context(), kind, q.name)
	if err != nil {
		return err
	}
	q.w.Header().Set("Content-Type", "application/json")
	out := bufio.NewWriter(q.w)
	out.WriteString(map[bool]string{true: "{\"was_alive\":true}\n", false: "{\"was_alive\":false}\n"}[wasAlive])
	return out.Flush()
}
