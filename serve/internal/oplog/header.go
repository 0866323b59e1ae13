// The first line of a value in etcd. Outside the proof.

package oplog

import (
	"encoding/json"
	"strconv"

	"gateway/internal/jsontext"
)

// header is the first line of a value. It has a checksum of what follows, because etcd does not notice if a member's store was damaged.
type header struct {
	At     int64  `json:"at"`
	Index  int    `json:"index"`
	Marker string `json:"mark,omitempty"`
	Note   int    `json:"note,omitempty"` // its length
	By     string `json:"by,omitempty"`   // the sender's name
	From   string `json:"from,omitempty"` // and address
	Sum    uint32 `json:"sum"`
}

// append appends a header as encoding/json writes it: a batch that comes again is compared with the bytes of its message.
func (h *header) append(to []byte) []byte {
	to = strconv.AppendInt(append(to, `{"at":`...), h.At, 10)
	to = strconv.AppendInt(append(to, `,"index":`...), int64(h.Index), 10)
	if h.Marker != "" {
		to = jsontext.AppendString(append(to, `,"mark":`...), h.Marker)
	}
	if h.Note != 0 {
		to = strconv.AppendInt(append(to, `,"note":`...), int64(h.Note), 10)
	}
	if h.By != "" {
		to = jsontext.AppendString(append(to, `,"by":`...), h.By)
	}
	if h.From != "" {
		to = jsontext.AppendString(append(to, `,"from":`...), h.From)
	}
	return append(strconv.AppendUint(append(to, `,"sum":`...), uint64(h.Sum), 10), '}')
}

// read reads a header.
func (h *header) read(text []byte) error {
	var room [7]jsontext.Field
	fields, is := jsontext.Fields(room[:0], text)
	for k := 0; k < len(fields) && is; k++ {
		is = h.set(fields[k])
	}
	if is {
		return nil
	}
	*h = header{}
	return json.Unmarshal(text, h)
}

// set sets a field, and reports whether it is one whose value can be.
func (h *header) set(f jsontext.Field) (is bool) {
	number := int64(0)
	switch string(f.Name) {
	case "mark":
		h.Marker, is = jsontext.String(f.Value)
		return is
	case "by":
		h.By, is = jsontext.String(f.Value)
		return is
	case "from":
		h.From, is = jsontext.String(f.Value)
		return is
	}
	number, is = jsontext.Integer(f.Value)
	switch string(f.Name) {
	case "at":
		h.At = number
	case "index":
		h.Index = int(number)
	case "note":
		h.Note = int(number)
	case "sum":
		h.Sum, is = uint32(number), is && number >= 0 && number < 1<<32
	default:
		is = false
	}
	return is
}
