// Package codec reads and writes Mesos' v1 messages, as protobuf and as JSON, without losing fields that it does not know. Outside the proof.
package codec

import (
	_ "embed"
	"encoding/json"
	"fmt"
	"strings"

	"google.golang.org/protobuf/proto"
	"google.golang.org/protobuf/reflect/protodesc"
	"google.golang.org/protobuf/reflect/protoreflect"
	"google.golang.org/protobuf/reflect/protoregistry"
	"google.golang.org/protobuf/types/descriptorpb"
	"google.golang.org/protobuf/types/dynamicpb"
)

// descriptors is made by `protoc --include_imports -o` from the files in the folder `proto`; a test compares it with them.
//
//go:embed descriptors.binpb
var descriptors []byte

var files = mustParse(descriptors)

func mustParse(text []byte) *protoregistry.Files {
	set := &descriptorpb.FileDescriptorSet{}
	if err := proto.Unmarshal(text, set); err != nil {
		panic(fmt.Sprintf("descriptors.binpb: %v", err))
	}
	files, err := protodesc.NewFiles(set)
	if err != nil {
		panic(fmt.Sprintf("descriptors.binpb: %v", err))
	}
	return files
}

// Message is a message of a type that is looked up by its name. Fields are named as in the .proto files; a path has dots between names. A
// name that the type does not have is an error of the program, and panics. The zero Message is an absent one: it has no fields.
type Message struct{ m protoreflect.Message }

// New returns an empty message of a type such as mesos.scheduler.Call.
func New(name string) Message {
	found, err := files.FindDescriptorByName(protoreflect.FullName(name))
	if err != nil {
		panic(fmt.Sprintf("%s: %v", name, err))
	}
	return Message{dynamicpb.NewMessage(found.(protoreflect.MessageDescriptor))}
}

// IsAbsent reports whether a message does not exist.
func (m Message) IsAbsent() bool { return m.m == nil }

func (m Message) field(name string) protoreflect.FieldDescriptor {
	field := m.m.Descriptor().Fields().ByName(protoreflect.Name(name))
	if field == nil {
		panic(fmt.Sprintf("%s has no field %s", m.m.Descriptor().FullName(), name))
	}
	return field
}

// find returns the message that has the last field of a path, and that field. The message is absent if one on the path is.
func (m Message) find(path string) (Message, protoreflect.FieldDescriptor) {
	names := strings.Split(path, ".")
	for _, name := range names[:len(names)-1] {
		if m = m.Sub(name); m.m == nil {
			return m, nil
		}
	}
	if m.m == nil {
		return m, nil
	}
	return m, m.field(names[len(names)-1])
}

// Has reports whether a field is set.
func (m Message) Has(path string) bool {
	in, field := m.find(path)
	return in.m != nil && in.m.Has(field)
}

// Sub returns the message in a field, which is absent if the field is not set.
func (m Message) Sub(path string) Message {
	if strings.Contains(path, ".") {
		in, field := m.find(path)
		if in.m == nil {
			return Message{}
		}
		return in.Sub(string(field.Name()))
	}
	if m.m == nil || !m.m.Has(m.field(path)) {
		return Message{}
	}
	return Message{m.m.Get(m.field(path)).Message()}
}

func (m Message) value(path string) (protoreflect.Value, bool) {
	in, field := m.find(path)
	if in.m == nil {
		return protoreflect.Value{}, false
	}
	return in.m.Get(field), true // of a field that is not set, its default
}

// Text returns a text, or the field's default.
func (m Message) Text(path string) string {
	if v, is := m.value(path); is {
		return v.String()
	}
	return ""
}

// Bytes returns bytes, or none.
func (m Message) Bytes(path string) []byte {
	if v, is := m.value(path); is {
		return v.Bytes()
	}
	return nil
}

// Float returns a double, or the field's default.
func (m Message) Float(path string) float64 {
	if v, is := m.value(path); is {
		return v.Float()
	}
	return 0
}

// Bool returns a bool, or the field's default.
func (m Message) Bool(path string) bool {
	v, is := m.value(path)
	return is && v.Bool()
}

// Int returns a signed integer, or the field's default.
func (m Message) Int(path string) int64 {
	if v, is := m.value(path); is {
		return v.Int()
	}
	return 0
}

// Uint returns an unsigned integer, or the field's default.
func (m Message) Uint(path string) uint64 {
	if v, is := m.value(path); is {
		return v.Uint()
	}
	return 0
}

// Enum returns the name of an enum's value. For a value that the type does not have, it returns the number; for a field that is not set, the name
// of the default.
func (m Message) Enum(path string) string {
	in, field := m.find(path)
	if in.m == nil {
		return ""
	}
	return enumName(field, in.m.Get(field).Enum())
}

func enumName(field protoreflect.FieldDescriptor, number protoreflect.EnumNumber) string {
	if value := field.Enum().Values().ByNumber(number); value != nil {
		return string(value.Name())
	}
	return fmt.Sprint(number)
}

// Name returns the name of an enum's value, even if it came in JSON and the type does not have it, and whether the field is set.
func (m Message) Name(path string) (name string, is bool) {
	in, field := m.find(path)
	if in.m == nil || in.m.Has(field) {
		return m.Enum(path), in.m != nil
	}
	raw, _ := splitUnknown(in.m)
	is = json.Unmarshal(raw[string(field.Name())], &name) == nil && name != ""
	return name, is
}

// List returns the messages of a repeated field.
func (m Message) List(path string) (list []Message) {
	if v, is := m.value(path); is {
		for k := 0; k < v.List().Len(); k++ {
			list = append(list, Message{v.List().Get(k).Message()})
		}
	}
	return list
}

// Texts returns the texts of a repeated field.
func (m Message) Texts(path string) (list []string) {
	if v, is := m.value(path); is {
		for k := 0; k < v.List().Len(); k++ {
			list = append(list, v.List().Get(k).String())
		}
	}
	return list
}

// Set sets a field and returns the message. Messages on the path are created. A value is a string, []byte, float64, bool, int, int64, uint64,
// Message, or for an enum the name of its value. An absent Message changes nothing.
func (m Message) Set(path string, value interface{}) Message {
	in := m
	names := strings.Split(path, ".")
	for _, name := range names[:len(names)-1] {
		in = Message{in.m.Mutable(in.field(name)).Message()}
	}
	field := in.field(names[len(names)-1])
	if one, is := value.(Message); is && one.m == nil {
		return m
	}
	in.m.Set(field, valueOf(field, value))
	return m
}

// Add appends a value to a repeated field and returns the message.
func (m Message) Add(name string, value interface{}) Message {
	field := m.field(name)
	m.m.Mutable(field).List().Append(valueOf(field, value))
	return m
}

// Clear unsets a field.
func (m Message) Clear(name string) { m.m.Clear(m.field(name)) }

func valueOf(field protoreflect.FieldDescriptor, value interface{}) protoreflect.Value {
	switch v := value.(type) {
	case Message:
		return protoreflect.ValueOfMessage(v.m)
	case string:
		if field.Kind() == protoreflect.EnumKind {
			found := field.Enum().Values().ByName(protoreflect.Name(v))
			if found == nil {
				panic(fmt.Sprintf("%s has no value %s", field.FullName(), v))
			}
			return protoreflect.ValueOfEnum(found.Number())
		}
		return protoreflect.ValueOfString(v)
	case int:
		return integer(field, int64(v))
	case int64:
		return integer(field, v)
	}
	return protoreflect.ValueOf(value)
}

func integer(field protoreflect.FieldDescriptor, value int64) protoreflect.Value {
	switch field.Kind() {
	case protoreflect.Int32Kind, protoreflect.Sint32Kind, protoreflect.Sfixed32Kind:
		return protoreflect.ValueOfInt32(int32(value))
	case protoreflect.Uint32Kind, protoreflect.Fixed32Kind:
		return protoreflect.ValueOfUint32(uint32(value))
	case protoreflect.Uint64Kind, protoreflect.Fixed64Kind:
		return protoreflect.ValueOfUint64(uint64(value))
	}
	return protoreflect.ValueOfInt64(value)
}

// Clone returns a copy.
func (m Message) Clone() Message {
	if m.m == nil {
		return m
	}
	return Message{proto.Clone(m.m.Interface()).ProtoReflect()}
}
