// Tests of the first line of a value against encoding/json. Outside the proof.

package oplog

import (
	"encoding/json"
	"testing"
)

func TestHeader(t *testing.T) {
	for _, h := range []header{{}, {At: 1796101946930, Index: 99, Sum: 1<<32 - 1}, {At: -1, Marker: MarkerSnapshot}, {Note: 77, By: "ops", From: "10.0.0.7", Sum: 5}, {By: "a<b>&\"\\é\x01", From: "::1"},
		{At: 1<<63 - 1, Index: -3, Note: -4}} {
		want, _ := json.Marshal(h)
		got := h.append(nil)
		if string(got) != string(want) {
			t.Errorf("%s, want %s", got, want)
		}
		read := header{At: 5, By: "x"}
		if h.By == "" {
			read = header{}
		}
		if err := read.read(got); err != nil || read != h {
			t.Errorf("%s: %+v %v", got, read, err)
		}
	}
	for _, text := range []string{`{"sum":5,"at":7}`, ` { "at" : 7 , "sum" : 5 } `, `{"at":7,"more":[1],"sum":5}`} {
		if h := (header{}); h.read([]byte(text)) != nil || h != (header{At: 7, Sum: 5}) {
			t.Errorf("%s: %+v", text, h)
		}
	}
	for _, text := range []string{``, `{`, `{"at":"7"}`, `{"sum":-1}`, `{"sum":4294967296}`, `{"mark":5}`, `x`} {
		if h := (header{}); h.read([]byte(text)) == nil {
			t.Errorf("%s: %+v", text, h)
		}
	}
}
