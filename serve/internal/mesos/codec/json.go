// Messages as JSON, in Mesos' form: names as in the .proto files, enums by name, bytes in base64, and integers as numbers. Outside the proof.

package codec

import (
	"bytes"
	"encoding/base64"
	"encoding/json"
	"fmt"
	"math"
	"sort"
	"strconv"
	"strings"

	"google.golang.org/protobuf/encoding/protowire"
	"google.golang.org/protobuf/proto"
	"google.golang.org/protobuf/reflect/protoreflect"
)

// Fields that one encoding does not know are carried by a field in the other: in protobuf, rawField has a JSON object with the members that were
// not understood, and in JSON, rawMember has, in base64, the fields that were not understood.
const (
	rawField  = protowire.Number(1<<29 - 1)
	rawMember = "@protobuf"
)

// ReadJSON reads a message of a type. Members that the type does not have, and unknown names of enums, are kept.
func ReadJSON(name string, text []byte) (Message, error) {
	m := New(name)
	if !json.Valid(text) {
		var value interface{}
		return m, fmt.Errorf("it is not JSON: %w", json.Unmarshal(text, &value))
	}
	if err := readObject(m.m, text, 0); err != nil {
		return m, err
	}
	return m, proto.CheckInitialized(m.m.Interface())
}

func readObject(m protoreflect.Message, text []byte, depth int) error {
	var object map[string]json.RawMessage
	if err := json.Unmarshal(text, &object); err != nil || object == nil {
		return fmt.Errorf("%s: expected an object", m.Descriptor().FullName())
	}
	if depth > maxDepth {
		return fmt.Errorf("%s: nested too deep", m.Descriptor().FullName())
	}
	raw := map[string]json.RawMessage{}
	var unknown []byte
	for name, value := range object {
		field := m.Descriptor().Fields().ByName(protoreflect.Name(name))
		switch {
		case name == rawMember:
			var fields []byte
			if json.Unmarshal(value, &fields) != nil || !areFields(fields) {
				return fmt.Errorf("%s: expected fields in base64", rawMember)
			}
			unknown = fields
		case field == nil, isUnknownEnum(field, value):
			raw[name] = value
		case string(value) == "null":
		default:
			if err := readField(m, field, value, depth); err != nil {
				return err
			}
		}
	}
	if len(raw) > 0 {
		members, _ := json.Marshal(raw) // in order of names
		unknown = protowire.AppendBytes(protowire.AppendTag(unknown, rawField, protowire.BytesType), members)
	}
	if len(unknown) > 0 {
		m.SetUnknown(unknown)
	}
	return nil
}

func areFields(text []byte) bool {
	for len(text) > 0 {
		_, _, size := protowire.ConsumeField(text)
		if size < 0 {
			return false
		}
		text = text[size:]
	}
	return true
}

// isUnknownEnum reports whether a field is an enum, or some, and a value is a name that the enum does not have.
func isUnknownEnum(field protoreflect.FieldDescriptor, value json.RawMessage) bool {
	if field.Kind() != protoreflect.EnumKind {
		return false
	}
	var names []string
	if name := ""; json.Unmarshal(value, &name) == nil && string(value) != "null" {
		names = append(names, name)
	} else if json.Unmarshal(value, &names) != nil {
		return false
	}
	for _, name := range names {
		if field.Enum().Values().ByName(protoreflect.Name(name)) == nil {
			return true
		}
	}
	return false
}

func readField(m protoreflect.Message, field protoreflect.FieldDescriptor, text []byte, depth int) error {
	if field.IsMap() {
		return readMap(m.Mutable(field).Map(), field, text, depth)
	}
	if !field.IsList() {
		if field.Message() != nil {
			return readObject(m.Mutable(field).Message(), text, depth+1)
		}
		value, err := readScalar(field, text)
		if err == nil {
			m.Set(field, value)
		}
		return err
	}
	var items []json.RawMessage
	if err := json.Unmarshal(text, &items); err != nil {
		return fmt.Errorf("%s: expected an array", field.FullName())
	}
	list := m.Mutable(field).List()
	for _, item := range items {
		if field.Message() != nil {
			one := list.NewElement()
			if err := readObject(one.Message(), item, depth+1); err != nil {
				return err
			}
			list.Append(one)
			continue
		}
		value, err := readScalar(field, item)
		if err != nil {
			return err
		}
		list.Append(value)
	}
	return nil
}

func readScalar(field protoreflect.FieldDescriptor, text []byte) (protoreflect.Value, error) {
	var word string
	isText := json.Unmarshal(text, &word) == nil && string(text) != "null"
	number := strings.Trim(string(text), `"`)
	wrong := fmt.Errorf("%s: %.100s is not a %v", field.FullName(), text, field.Kind())
	switch field.Kind() {
	case protoreflect.StringKind:
		if isText {
			return protoreflect.ValueOfString(word), nil
		}
	case protoreflect.BytesKind:
		if data, err := base64.StdEncoding.DecodeString(word); isText && err == nil {
			return protoreflect.ValueOfBytes(data), nil
		}
	case protoreflect.BoolKind:
		if string(text) == "true" || string(text) == "false" {
			return protoreflect.ValueOfBool(string(text) == "true"), nil
		}
	case protoreflect.EnumKind:
		if value := field.Enum().Values().ByName(protoreflect.Name(word)); isText && value != nil {
			return protoreflect.ValueOfEnum(value.Number()), nil
		}
		if value, err := strconv.ParseInt(number, 10, 32); err == nil && !isText {
			return protoreflect.ValueOfEnum(protoreflect.EnumNumber(value)), nil
		}
	case protoreflect.DoubleKind:
		if value, err := strconv.ParseFloat(number, 64); err == nil && !math.IsInf(value, 0) && !math.IsNaN(value) {
			return protoreflect.ValueOfFloat64(value), nil
		}
	case protoreflect.FloatKind:
		if value, err := strconv.ParseFloat(number, 32); err == nil && !math.IsInf(value, 0) && !math.IsNaN(value) {
			return protoreflect.ValueOfFloat32(float32(value)), nil
		}
	case protoreflect.Int32Kind, protoreflect.Int64Kind:
		bits := map[protoreflect.Kind]int{protoreflect.Int32Kind: 32, protoreflect.Int64Kind: 64}[field.Kind()]
		if value, err := strconv.ParseInt(whole(number), 10, bits); err == nil {
			return integer(field, value), nil
		}
	case protoreflect.Uint32Kind, protoreflect.Uint64Kind:
		bits := map[protoreflect.Kind]int{protoreflect.Uint32Kind: 32, protoreflect.Uint64Kind: 64}[field.Kind()]
		if value, err := strconv.ParseUint(whole(number), 10, bits); err == nil {
			return integer(field, int64(value)), nil
		}
	}
	return protoreflect.Value{}, wrong
}

// whole writes a number such as 5.0 or 1e3, which some clients send for integers, in digits.
func whole(number string) string {
	if !strings.ContainsAny(number, ".eE") {
		return number
	}
	if value, err := strconv.ParseFloat(number, 64); err == nil && value == math.Trunc(value) && math.Abs(value) < 1<<53 {
		return strconv.FormatFloat(value, 'f', 0, 64)
	}
	return number
}

// JSON writes a message; equal messages are written equally.
func (m Message) JSON() []byte {
	if m.m == nil {
		return []byte("{}")
	}
	var out bytes.Buffer
	writeObject(&out, m.m)
	return out.Bytes()
}

func writeObject(out *bytes.Buffer, m protoreflect.Message) {
	out.WriteByte('{')
	first := true
	member := func(name string) {
		if !first {
			out.WriteByte(',')
		}
		first = false
		writeText(out, name)
		out.WriteByte(':')
	}
	fields := m.Descriptor().Fields()
	for k := 0; k < fields.Len(); k++ {
		field := fields.Get(k)
		if !m.Has(field) {
			continue
		}
		value := m.Get(field)
		if field.Kind() == protoreflect.DoubleKind && !field.IsList() && (math.IsNaN(value.Float()) || math.IsInf(value.Float(), 0)) {
			continue // JSON has no such number
		}
		member(string(field.Name()))
		if field.IsMap() {
			writeMap(out, value.Map())
			continue
		}
		if !field.IsList() {
			writeValue(out, field, value)
			continue
		}
		out.WriteByte('[')
		for n := 0; n < value.List().Len(); n++ {
			if n > 0 {
				out.WriteByte(',')
			}
			writeValue(out, field, value.List().Get(n))
		}
		out.WriteByte(']')
	}
	raw, rest := splitUnknown(m)
	for _, name := range sortedNames(raw) {
		member(name)
		out.Write(raw[name])
	}
	if len(rest) > 0 {
		member(rawMember)
		writeText(out, base64.StdEncoding.EncodeToString(rest))
	}
	out.WriteByte('}')
}

func sortedNames(raw map[string]json.RawMessage) (names []string) {
	for name := range raw {
		names = append(names, name)
	}
	sort.Strings(names)
	return names
}

// splitUnknown returns the members that came from JSON, and the fields that came from protobuf. A member that the type has is in neither, whoever
// sent it, because it would be read as that field.
func splitUnknown(m protoreflect.Message) (raw map[string]json.RawMessage, rest []byte) {
	for unknown := m.GetUnknown(); len(unknown) > 0; {
		number, kind, size := protowire.ConsumeField(unknown)
		if size < 0 {
			return raw, rest
		}
		one := unknown[:size]
		unknown = unknown[size:]
		if number != rawField || kind != protowire.BytesType {
			rest = append(rest, one...)
			continue
		}
		_, _, tag := protowire.ConsumeTag(one)
		text, _ := protowire.ConsumeBytes(one[tag:])
		var members map[string]json.RawMessage
		if json.Unmarshal(text, &members) != nil {
			continue
		}
		for name, value := range members {
			field := m.Descriptor().Fields().ByName(protoreflect.Name(name))
			if field != nil && (m.Has(field) || !isUnknownEnum(field, value)) || name == rawMember {
				continue
			}
			if raw == nil {
				raw = map[string]json.RawMessage{}
			}
			raw[name] = compact(value)
		}
	}
	return raw, rest
}

func compact(value json.RawMessage) json.RawMessage {
	var out bytes.Buffer
	if json.Compact(&out, value) != nil {
		return value
	}
	return out.Bytes()
}

func writeValue(out *bytes.Buffer, field protoreflect.FieldDescriptor, value protoreflect.Value) {
	switch field.Kind() {
	case protoreflect.MessageKind, protoreflect.GroupKind:
		writeObject(out, value.Message())
	case protoreflect.StringKind:
		writeText(out, value.String())
	case protoreflect.BytesKind:
		writeText(out, base64.StdEncoding.EncodeToString(value.Bytes()))
	case protoreflect.EnumKind:
		if name := enumName(field, value.Enum()); field.Enum().Values().ByName(protoreflect.Name(name)) != nil {
			writeText(out, name)
		} else {
			out.WriteString(name)
		}
	case protoreflect.DoubleKind, protoreflect.FloatKind:
		text, err := json.Marshal(value.Float())
		if err != nil {
			text = []byte("0")
		}
		out.Write(text)
	default:
		fmt.Fprint(out, value.Interface())
	}
}

func writeText(out *bytes.Buffer, text string) {
	writer := json.NewEncoder(out)
	writer.SetEscapeHTML(false)
	writer.Encode(text) // never fails
	out.Truncate(out.Len() - 1)
}
