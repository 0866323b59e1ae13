// Fields that are maps from texts to messages, such as the limits of a quota. Outside the proof.

package codec

import (
	"bytes"
	"encoding/json"
	"fmt"
	"sort"

	"google.golang.org/protobuf/reflect/protoreflect"
)

func readMap(m protoreflect.Map, field protoreflect.FieldDescriptor, text []byte, depth int) error {
	var items map[string]json.RawMessage
	if err := json.Unmarshal(text, &items); err != nil {
		return fmt.Errorf("%s: expected an object", field.FullName())
	}
	for key, item := range items {
		one := m.NewValue()
		if err := readObject(one.Message(), item, depth+1); err != nil {
			return err
		}
		m.Set(protoreflect.ValueOfString(key).MapKey(), one)
	}
	return nil
}

func writeMap(out *bytes.Buffer, m protoreflect.Map) {
	for k, key := range keysOf(m) {
		if k == 0 {
			out.WriteByte('{')
		} else {
			out.WriteByte(',')
		}
		writeText(out, key)
		out.WriteByte(':')
		writeObject(out, m.Get(protoreflect.ValueOfString(key).MapKey()).Message())
	}
	out.WriteByte('}') // a map that is set is not empty
}

func keysOf(m protoreflect.Map) (keys []string) {
	m.Range(func(key protoreflect.MapKey, _ protoreflect.Value) bool {
		keys = append(keys, key.String())
		return true
	})
	sort.Strings(keys)
	return keys
}

// Map returns the messages of a field that is a map, by their keys.
func (m Message) Map(path string) map[string]Message {
	found := map[string]Message{}
	if v, is := m.value(path); is {
		for _, key := range keysOf(v.Map()) {
			found[key] = Message{v.Map().Get(protoreflect.ValueOfString(key).MapKey()).Message()}
		}
	}
	return found
}

// Put sets a message in a field that is a map, and returns the message that has the field.
func (m Message) Put(name, key string, value Message) Message {
	m.m.Mutable(m.field(name)).Map().Set(protoreflect.ValueOfString(key).MapKey(), protoreflect.ValueOfMessage(value.m))
	return m
}
