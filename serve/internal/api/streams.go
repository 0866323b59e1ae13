// Streams of replies, of offers and of the journal. Outside the proof.

package api

import (
	"net/http"
	"strconv"
	"time"

	"gateway/internal/auth"
	"gateway/internal/registry"
)

const (
	reminder    = 15 * time.Second // between signs of life on a stream
	journalPart = 1 << 18          // bytes that are written at once
)

// replies streams each line and its reply.
func (q *request) replies() error {
	return q.stream(func() (*registry.Subscription, []byte) { return q.Registry.SubscribeReplies(), nil })
}

// offers streams a framework's offers: those that exist, and then each that is made or ends.
func (q *request) offers() error {
	if !auth.IsName(q.name) || !q.by.Has("framework", q.name) && !q.by.Has("read", "") {
		return refusal(http.StatusForbidden, "the token %q needs the right framework:%s, or read", q.by.Name, q.name)
	}
	return q.stream(func() (*registry.Subscription, []byte) { return q.Registry.SubscribeOffers(q.name) })
}

// stream sends events until the caller disconnects, its token expires or is revoked, or this gateway is cut off.
func (q *request) stream(subscribe func() (*registry.Subscription, []byte)) error {
	release, err := q.server.limiter.Stream(q.by.Name)
	if err != nil {
		return err
	}
	defer release()
	if err := q.Allocator.WaitReady(q.r.Context()); err != nil {
		return err
	}
	lost := q.Log.Clock.Lost()
	s, text := subscribe()
	defer s.Close()
	q.w.Header().Set("Content-Type", "text/event-stream")
	alive := time.NewTicker(reminder)
	defer alive.Stop()
	text, isOpen := append(text, ": all existing offers were sent\n\n"...), true
	for isOpen && q.send(text) {
		select {
		case text, isOpen = <-s.Events:
			text = append([]byte(nil), text...)
			for more := len(s.Events); isOpen && more > 0; more-- {
				text = append(text, <-s.Events...)
			}
		case <-alive.C:
			text = []byte(": alive\n\n")
		case <-q.callers.Replaced():
			return nil
		case <-lost:
			return nil
		case <-q.r.Context().Done():
			return nil
		}
	}
	return nil
}

// send writes a part of a streamed answer. The caller must take it within some time; send reports whether it did.
func (q *request) send(text []byte) bool {
	limitTime(q.r, q.server.inTime)
	defer limitTime(q.r, 0)
	if _, err := q.w.Write(text); err != nil {
		return false
	}
	q.w.(http.Flusher).Flush()
	return true
}

// readJournal writes the journal from a byte on and, if that is asked for, continues as the journal grows.
func (q *request) readJournal() error {
	at, end, _ := q.Journal.Bounds()
	if text := q.r.URL.Query().Get("from"); text != "" {
		from, err := strconv.ParseInt(text, 10, 64)
		if err != nil || from < 0 {
			return refusal(http.StatusBadRequest, "from=%q: expected a number of bytes", text)
		}
		if from < at {
			return refusal(http.StatusGone, "the journal is kept from byte %d on", at)
		}
		at = from
	}
	follow := q.r.URL.Query().Get("follow") != ""
	if follow {
		release, err := q.server.limiter.Stream(q.by.Name)
		if err != nil {
			return err
		}
		defer release()
	}
	lost := q.Log.Clock.Lost()
	q.w.Header().Set("Content-Type", "application/x-ndjson")
	q.w.Header().Set("Drf-From", formatInt(at))
	part := make([]byte, journalPart)
	for {
		for at < end {
			text := part
			if rest := end - at; rest < int64(len(text)) {
				text = text[:rest]
			}
			n, err := q.Journal.ReadAt(text, at)
			if err != nil || !q.send(text[:n]) {
				return nil // it is cut where the journal was pruned, or the caller has gone
			}
			at += int64(n)
		}
		if !follow {
			return nil
		}
		select {
		case <-q.callers.Replaced():
			return nil
		case <-lost:
			return nil
		case <-q.r.Context().Done():
			return nil
		case <-time.After(100 * time.Millisecond):
		}
		_, end, _ = q.Journal.Bounds()
	}
}
