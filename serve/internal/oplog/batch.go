// Package oplog, outside the proof, is the replicated list of messages, which etcd stores: batches are appended once, in groups, and read
// back in one order. It orders and stores lines, and interprets none of them.
package oplog

import (
	"bytes"
	"crypto/rand"
	"encoding/hex"
	"fmt"
	"hash/crc32"
	"strings"

	"go.etcd.io/etcd/mvcc/mvccpb"
)

// MaxLine is the length, in bytes, of the longest line that the allocator reads. Of a longer line it echoes one byte more.
const MaxLine = 65536

// Markers of messages that gateways append for themselves. They have no lines.
const (
	MarkerSnapshot = "state"
	MarkerEpoch    = "epoch"
)

// Revision orders messages: the revision of the transaction that appended a message, and the message's index in the transaction. etcd reports only
// the first, so the second is part of the value.
type Revision struct {
	Main int64 `json:"revision"`
	Sub  int   `json:"index"`
}

// Before reports whether r comes before another revision.
func (r Revision) Before(other Revision) bool {
	return r.Main < other.Main || r.Main == other.Main && r.Sub < other.Sub
}

// Position is how far the list was answered: the last answered message, and the numbers of messages, event lines and journal bytes up to it.
type Position struct {
	Revision `json:"place"`
	Messages int64 `json:"messages"`
	Lines    int64 `json:"lines"`
	Bytes    int64 `json:"bytes"`
}

// Batch is appended as one message: event lines or a marker, and an opaque note.
type Batch struct {
	Key        string      // OWNER/KEY: a second batch with this key is not appended
	Marker     string      // MarkerSnapshot, MarkerEpoch or empty
	Note       []byte      // for the registry; the allocator does not see it
	Conditions []Condition // the batch is appended only while all of these hold
	Touches    []string    // names that the transaction writes, for the conditions of others: see Untouched
	Sender     Sender      // who sent it, or empty: a gateway
	Internal   bool        // it may use the space that is reserved for pruning
	Limited    bool        // its owner may have half of the keys that can be kept

	text   []byte // each line after a line feed
	stamps []int  // where timestamps are inserted
}

// Anonymous returns a key for a batch that its caller will not send again. No key of a caller has a space.
func Anonymous(owner string) string {
	var random [16]byte
	rand.Read(random[:])
	return owner + "/ " + hex.EncodeToString(random[:])
}

func isAnonymous(key string) bool { return strings.Contains(key, "/ ") }

// Grow makes room for lines of some bytes.
func (b *Batch) Grow(size int) { b.text = append(make([]byte, 0, len(b.text)+size), b.text...) }

// Add adds a line, to which the timestamp of the message is added when it is timed.
func (b *Batch) Add(line []byte, timed bool) {
	b.text = append(b.text, '\n')
	if timed {
		b.stamps = append(b.stamps, len(b.text)+bytes.IndexByte(line, '{')+1)
	} else if bytes.HasPrefix(line, []byte("?")) { // to the allocator that would be a question, which has no place in the list
		b.text = append(b.text, ' ')
		line = line[:min(len(line), MaxLine)]
	}
	b.text = append(b.text, line[:min(len(line), MaxLine+1)]...)
}

// Size returns the size of the lines in bytes.
func (b *Batch) Size() int {
	return len(b.text) + len(b.stamps)*len(`"at":1234567890123,`) + len(b.Note)
}

// textAt returns the lines of a message with a timestamp.
func (b *Batch) textAt(at int64) []byte {
	if len(b.stamps) == 0 {
		return b.text
	}
	stamp := []byte(fmt.Sprintf(`"at":%d,`, at))
	text, copied := make([]byte, 0, len(b.text)+len(b.stamps)*len(stamp)), 0
	for _, to := range b.stamps {
		start, end := bytes.LastIndexByte(b.text[:to], '\n')+1, len(b.text)
		if length := bytes.IndexByte(b.text[to:], '\n'); length >= 0 {
			end = to + length
		}
		text = append(text, b.text[copied:to]...)
		text = append(text, stamp...)
		text = append(text, b.text[to:end]...)
		if excess := end - start + len(stamp) - (MaxLine + 1); excess > 0 {
			text = text[:len(text)-excess]
		}
		copied = end
	}
	return append(text, b.text[copied:]...)
}

// bodyAt returns the note and the lines of a message with a timestamp.
func (b *Batch) bodyAt(at int64) []byte {
	text := b.textAt(at)
	if len(b.Note) == 0 {
		return text
	}
	return append(append([]byte(nil), b.Note...), text...)
}

const headerSize = 160 // in bytes, of most

// value encodes a batch as the message at an index of a transaction, from a sender.
func (b *Batch) value(at int64, index int, by Sender) string {
	body := b.bodyAt(at)
	first := header{at, index, b.Marker, len(b.Note), by.Name, by.Address, crc32.ChecksumIEEE(body)}
	return string(append(first.append(make([]byte, 0, headerSize+len(body))), body...))
}

// Message is an entry of the list.
type Message struct {
	Revision Revision
	Key      string
	At       int64 // its timestamp in milliseconds
	Marker   string
	Note     []byte
	Text     []byte // each line after a line feed
	Last     bool   // it is the last message of its transaction
	Sender   Sender // who sent it, as far as the gateway that appended it kept that
}

// Lines returns the event lines.
func (m *Message) Lines() [][]byte { return bytes.Split(m.Text, []byte("\n"))[1:] }

// decode reads a message from etcd. The error is a *FatalError: the store is damaged.
func (l *Log) decode(kv *mvccpb.KeyValue) (Message, error) {
	first, rest := kv.Value, []byte(nil)
	head := header{}
	// The first line ends at the first closing brace: a header has no nested object, and its texts have no braces.
	if end := bytes.IndexByte(kv.Value, '}') + 1; end > 0 {
		first, rest = kv.Value[:end], kv.Value[end:]
	}
	m := Message{Key: string(kv.Key[len(l.prefix)+len("m/"):])}
	err := head.read(first)
	if err == nil && (head.Note < 0 || head.Note > len(rest)) {
		err = fmt.Errorf("its note has %d bytes", head.Note)
	}
	if err != nil || head.Sum != crc32.ChecksumIEEE(rest) {
		return m, &FatalError{fmt.Errorf("the message %s at revision %d is damaged (%v)", kv.Key, kv.ModRevision, err)}
	}
	m.Revision, m.At, m.Marker, m.Sender = Revision{kv.ModRevision, head.Index}, head.At, head.Marker, Sender{head.By, head.From}
	m.Note, m.Text = rest[:head.Note:head.Note], rest[head.Note:]
	return m, nil
}

func min(a, b int) int {
	if a < b {
		return a
	}
	return b
}
