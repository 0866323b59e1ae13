// Bodies and streams over HTTP: media types and RecordIO, as Mesos documents them. Outside the proof.

package codec

import (
	"bufio"
	"encoding/json"
	"errors"
	"fmt"
	"io"
	"strconv"
	"strings"
)

// Media types.
const (
	TypeJSON     = "application/json"
	TypeProtobuf = "application/x-protobuf"
	TypeRecordIO = "application/recordio"
)

// ErrMediaType reports a Content-Type that is neither JSON nor protobuf.
var ErrMediaType = errors.New("Expecting 'Content-Type' of " + TypeJSON + " or " + TypeProtobuf)

// ErrNotAcceptable reports an Accept header that allows neither JSON nor protobuf.
var ErrNotAcceptable = errors.New("Expecting 'Accept' to allow '" + TypeProtobuf + "' or '" + TypeJSON + "'")

// Read reads a message of a type from a body. The texts of errors are Mesos'.
func Read(name, contentType string, body []byte) (Message, error) {
	kind, _, _ := strings.Cut(contentType, ";")
	switch strings.ToLower(strings.TrimSpace(kind)) {
	case "":
		return Message{}, errors.New("Expecting 'Content-Type' to be present")
	case TypeProtobuf:
		m, err := ReadProtobuf(name, body)
		if err != nil {
			return m, fmt.Errorf("Failed to parse body into Call protobuf: %w", err)
		}
		return m, nil
	case TypeJSON:
		if !json.Valid(body) {
			var value interface{}
			return Message{}, fmt.Errorf("Failed to parse body into JSON: %w", json.Unmarshal(body, &value))
		}
		m, err := ReadJSON(name, body)
		if err != nil {
			return m, fmt.Errorf("Failed to convert JSON into Call protobuf: %w", err)
		}
		return m, nil
	}
	return Message{}, ErrMediaType
}

// Form is how messages of an answer are written.
type Form struct {
	Protobuf bool
	Framed   bool // the caller asked for RecordIO by its own media type
}

// Accepts returns the form that a caller accepts. JSON is preferred, as by Mesos.
func Accepts(accept, messageAccept string) (Form, error) {
	form := Form{}
	if allows(accept, TypeRecordIO) && accept != "" && !allows(accept, TypeJSON) && !allows(accept, TypeProtobuf) {
		form.Framed, accept = true, messageAccept
	}
	switch {
	case allows(accept, TypeJSON):
		return form, nil
	case allows(accept, TypeProtobuf):
		form.Protobuf = true
		return form, nil
	}
	return form, ErrNotAcceptable
}

// allows reports whether an Accept header allows a media type. An empty one allows all.
func allows(accept, kind string) bool {
	if strings.TrimSpace(accept) == "" {
		return true
	}
	for _, one := range strings.Split(accept, ",") {
		parts := strings.Split(one, ";")
		isRefused := false
		for _, parameter := range parts[1:] {
			name, value, _ := strings.Cut(strings.TrimSpace(parameter), "=")
			quality, err := strconv.ParseFloat(value, 64)
			isRefused = isRefused || strings.EqualFold(name, "q") && err == nil && quality <= 0
		}
		if name := strings.ToLower(strings.TrimSpace(parts[0])); !isRefused && (name == kind || name == "*/*" || name == "application/*") {
			return true
		}
	}
	return false
}

// ContentType returns the headers of a stream.
func (f Form) ContentType() (contentType, messageType string) {
	kind := TypeJSON
	if f.Protobuf {
		kind = TypeProtobuf
	}
	if f.Framed {
		return TypeRecordIO, kind
	}
	return kind, ""
}

// Write writes a message.
func (f Form) Write(m Message) []byte {
	if f.Protobuf {
		return m.Protobuf()
	}
	return m.JSON()
}

// Record writes a message as a record of a stream.
func (f Form) Record(m Message) []byte { return Record(f.Write(m)) }

// Record returns a text with its length before it.
func Record(text []byte) []byte {
	record := append(strconv.AppendInt(make([]byte, 0, len(text)+12), int64(len(text)), 10), '\n')
	return append(record, text...)
}

// ReadRecord reads the next record of a stream, of at most a size. At the end of the stream it returns io.EOF.
func ReadRecord(in *bufio.Reader, most int) ([]byte, error) {
	digits := make([]byte, 0, 20)
	for {
		c, err := in.ReadByte()
		if err == io.EOF && len(digits) > 0 {
			err = io.ErrUnexpectedEOF
		}
		if err != nil {
			return nil, err
		}
		if c == '\n' {
			break
		}
		if c < '0' || c > '9' || len(digits) == 19 {
			return nil, fmt.Errorf("a record begins with its length in digits, not with %q", append(digits, c))
		}
		digits = append(digits, c)
	}
	size, err := strconv.ParseInt(string(digits), 10, 64)
	if err != nil || size > int64(most) {
		return nil, fmt.Errorf("a record of %q bytes: expected at most %d", digits, most)
	}
	text := make([]byte, size)
	if _, err := io.ReadFull(in, text); err != nil {
		return nil, io.ErrUnexpectedEOF
	}
	return text, nil
}
