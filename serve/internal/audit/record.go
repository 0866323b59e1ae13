// Package audit, outside the proof, records who sent each message: the token's name and address, the time, and how many events of which kind.
// Records are derived from the list alone, so every gateway has the same, and no reply depends on them.
package audit

import (
	"bytes"
	"encoding/json"
	"strconv"
	"strings"

	"gateway/internal/auth"
	"gateway/internal/jsontext"
	"gateway/internal/oplog"
	"gateway/internal/registry"
)

// Record says who sent a message. It has a name or, if gateways appended the message by themselves, the cause.
type Record struct {
	Message int64          `json:"message"`
	At      int64          `json:"at"`                // its timestamp in milliseconds
	Name    string         `json:"name,omitempty"`    // of the token or Mesos principal
	Address string         `json:"address,omitempty"` // that the request came from
	Cause   string         `json:"cause,omitempty"`   // cycle, rescind, silent, state, epoch or mesos
	Key     string         `json:"key,omitempty"`     // the caller's Idempotency-Key
	Call    string         `json:"call,omitempty"`    // of Mesos' API or an agent's link, such as kill
	Line    int64          `json:"line"`              // the number of its first event line
	Lines   int            `json:"lines"`             // how many there are
	Byte    int64          `json:"byte"`              // of the journal, at which they begin
	Bytes   int64          `json:"bytes"`             // of the journal, with the replies
	Events  map[string]int `json:"events"`            // how many of each kind; what is no event counts as other
	Refused int            `json:"refused"`           // how many were refused
}

// causes are the owners of keys under which gateways append messages for themselves. No token has these names.
var causes = map[string]bool{"cycle": true, "rescind": true, "silent": true, "state": true}

// NewRecord returns the record of a message with a number, whose lines and replies begin at a line and a byte of the journal.
func NewRecord(m *oplog.Message, number, line, at, bytes int64, lines, replies [][]byte) Record {
	r := Record{Message: number, At: m.At, Name: m.Sender.Name, Address: m.Sender.Address, Call: callOf(m.Note), Line: line, Lines: len(lines), Byte: at, Bytes: bytes,
		Events: map[string]int{}}
	owner, key, _ := strings.Cut(m.Key, "/")
	switch isOwn := strings.HasPrefix(key, " "); {
	case causes[owner]:
		r.Name, r.Cause = "", owner
		if m.Marker == oplog.MarkerEpoch {
			r.Cause = "epoch"
		}
	case owner == "mesos" && isOwn && r.Name == "":
		r.Cause = owner
	case !isOwn:
		r.Key = key
	}
	if r.Name == "" && r.Cause == "" { // while gateways run that do not keep senders
		r.Name = owner
	}
	for k, line := range lines {
		kind := registry.Kind(line)
		if !auth.IsEvent(kind) {
			kind = "other"
		}
		r.Events[kind]++
		if registry.AnswerOf(replies[k]) != "ok" {
			r.Refused++
		}
	}
	return r
}

// callOf returns the kind of Mesos' note beside a message.
func callOf(note []byte) string {
	rest := bytes.TrimPrefix(note, []byte(`{"mesos":"`))
	if len(rest) == len(note) {
		return ""
	}
	kind, _, _ := bytes.Cut(rest, []byte(`"`))
	return string(kind)
}

// encode appends records as lines, as encoding/json writes them.
func encode(text []byte, records []Record) []byte {
	for k := range records {
		text = append(records[k].append(text), '\n')
	}
	return text
}

func (r *Record) append(to []byte) []byte {
	number := func(name string, value int64) { to = strconv.AppendInt(append(to, name...), value, 10) }
	text := func(name, value string) {
		if value != "" {
			to = jsontext.AppendString(append(to, name...), value)
		}
	}
	number(`{"message":`, r.Message)
	number(`,"at":`, r.At)
	text(`,"name":`, r.Name)
	text(`,"address":`, r.Address)
	text(`,"cause":`, r.Cause)
	text(`,"key":`, r.Key)
	text(`,"call":`, r.Call)
	number(`,"line":`, r.Line)
	number(`,"lines":`, int64(r.Lines))
	number(`,"byte":`, r.Byte)
	number(`,"bytes":`, r.Bytes)
	to = append(to, `,"events":`...)
	if len(r.Events) == 1 {
		for kind, count := range r.Events {
			to = jsontext.AppendString(append(to, '{'), kind)
			number(":", int64(count))
			to = append(to, '}')
		}
	} else {
		events, _ := json.Marshal(r.Events) // in order
		to = append(to, events...)
	}
	number(`,"refused":`, int64(r.Refused))
	return append(to, '}')
}
