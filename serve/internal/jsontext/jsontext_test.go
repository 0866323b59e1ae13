// Tests against encoding/json. Outside the proof.

package jsontext

import (
	"bytes"
	"encoding/json"
	"fmt"
	"testing"
)

// same compares what Fields reads with what encoding/json reads, and reports whether Fields took the text.
func same(t *testing.T, text []byte) bool {
	t.Helper()
	fields, is := Fields(nil, text)
	if !is {
		return false
	}
	want := map[string]json.RawMessage{}
	if err := json.Unmarshal(text, &want); err != nil || len(want) != len(fields) {
		t.Errorf("%q: %v, %d fields, want %d", text, err, len(fields), len(want))
		return true
	}
	for _, f := range fields {
		if !bytes.Equal(want[string(f.Name)], f.Value) {
			t.Errorf("%q: %s is %q, want %q", text, f.Name, f.Value, want[string(f.Name)])
		}
		var number int64
		if got, is := Integer(f.Value); is != (json.Unmarshal(f.Value, &number) == nil) || got != number {
			t.Errorf("%q: %q is %d", text, f.Value, got)
		}
		var plain string
		if got, is := String(f.Value); is != (json.Unmarshal(f.Value, &plain) == nil) || got != plain {
			t.Errorf("%q: %q is %q", text, f.Value, got)
		}
	}
	return true
}

var taken = []string{`{"event":"cycle"}`, `{"event":"add_agent","agent":"n1","total":"cpus:4;ports:[1-2]"}`, `{"a":0}`, `{"a":-12,"b":"<&> "}`, `{"":""}`, `{"at":123456789012345,"sum":4294967295}`}

var left = []string{``, `{`, `}`, `{}`, `{"a"}`, `{"a":}`, `{"a":1,}`, `{"a":1`, `{"a":1}}`, `{"a":1}x`, ` {"a":1}`, `{"a" :1}`, `{"a": 1}`, `{"a":1 }`, `{"a":"\n"}`, `{"a":"\u0061"}`, "{\"a\":\"\x01\"}", `{"a":"é"}`,
	`{"a":1,"a":2}`, `{"a":01}`, `{"a":-}`, `{"a":1.5}`, `{"a":1e3}`, `{"a":1234567890123456}`, `{"a":[]}`, `{"a":{}}`, `{"a":true}`, `{"a":null}`, `{"a":"b}`, `{"a":"b""c":1}`, `{"a":1"b":1}`, `["a"]`, `{"a":1-}`, `{"a":--1}`, `{"a":-01}`}

func TestFields(t *testing.T) {
	for _, text := range taken {
		if !same(t, []byte(text)) {
			t.Errorf("%s is not taken", text)
		}
	}
	for _, text := range left {
		if same(t, []byte(text)) {
			t.Errorf("%s is taken", text)
		}
	}
	before := []Field{{Name: []byte("a")}}
	if fields, is := Fields(before, []byte(`{"a":1}`)); !is || len(fields) != 2 {
		t.Error(fields)
	}
}

func TestAppendString(t *testing.T) {
	for k := 0; k < 0x300; k++ {
		for _, text := range []string{string(rune(k)), fmt.Sprintf("a%cb", k), string([]byte{byte(k)})} {
			want, _ := json.Marshal(text)
			if got := AppendString([]byte("x"), text); string(got) != "x"+string(want) {
				t.Errorf("%q: %s, want x%s", text, got, want)
			}
		}
	}
}

func FuzzFields(f *testing.F) {
	for _, text := range append(taken, left...) {
		f.Add([]byte(text))
	}
	f.Fuzz(func(t *testing.T, text []byte) { same(t, text) })
}
