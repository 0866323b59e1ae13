// Messages as protobuf. Outside the proof.

package codec

import (
	"fmt"

	"google.golang.org/protobuf/proto"
)

// maxDepth is how deep messages may be nested. Mesos' own are nested less than 20 deep.
const maxDepth = 100

// Protobuf writes a message; equal messages are written equally. Fields that the type does not have are kept.
func (m Message) Protobuf() []byte {
	if m.m == nil {
		return nil
	}
	text, err := proto.MarshalOptions{Deterministic: true, AllowPartial: true}.Marshal(m.m.Interface())
	if err != nil { // only a text that is not UTF-8 in proto3
		panic(fmt.Sprintf("writing %s: %v", m.m.Descriptor().FullName(), err))
	}
	return text
}

// ReadProtobuf reads a message of a type. A field that is required must be set.
func ReadProtobuf(name string, text []byte) (Message, error) {
	m := New(name)
	err := proto.UnmarshalOptions{RecursionLimit: maxDepth}.Unmarshal(text, m.m.Interface())
	return m, err
}

// MustReadProtobuf reads what Protobuf wrote.
func MustReadProtobuf(name string, text []byte) Message {
	m := New(name)
	if err := (proto.UnmarshalOptions{AllowPartial: true}).Unmarshal(text, m.m.Interface()); err != nil {
		panic(fmt.Sprintf("reading %s again: %v", name, err))
	}
	return m
}
