// Tests of how batches become messages. Outside the proof.

package oplog

import (
	"context"
	"fmt"
	"strings"
	"testing"

	"go.etcd.io/etcd/mvcc/mvccpb"
)

func batchOf(key string, lines ...string) *Batch {
	b := &Batch{Key: key}
	for _, line := range lines {
		b.Add([]byte(line), false)
	}
	return b
}

func TestTimestampsAndQuestions(t *testing.T) {
	b := &Batch{}
	b.Add([]byte(` { "event":"cycle"}`), true)
	b.Add([]byte("x"), false)
	b.Add([]byte("?report"), false) // which is no question
	b.Add([]byte(`{"event":"cycle"}`), true)
	if text := string(b.textAt(12)); text != "\n {\"at\":12, \"event\":\"cycle\"}\nx\n ?report\n{\"at\":12,\"event\":\"cycle\"}" {
		t.Errorf("%q", text)
	}
}

// Of a line that is too long the allocator echoes a byte more than it reads, so no more is in the list.
func TestLongLinesAreCut(t *testing.T) {
	long := `{"event":"cycle","x":"` + strings.Repeat("<", MaxLine) + `"}`
	for _, timed := range []bool{false, true} {
		b := &Batch{}
		b.Add([]byte(long), timed)
		b.Add([]byte(long), timed)
		if text := b.textAt(1); len(text) != 2*(MaxLine+2) {
			t.Errorf("timed %v: %d bytes", timed, len(text))
		}
	}
	if text := batchOf("", "?"+long).textAt(1); len(text) != MaxLine+2 || !strings.HasPrefix(string(text), "\n ?{") {
		t.Errorf("a question of %d bytes", len(text))
	}
}

func TestMessagesAreReadAsWritten(t *testing.T) {
	l := &Log{prefix: "drf/"}
	for _, b := range []*Batch{
		batchOf("a/1", "one", "", "three"),
		{Key: "state/1", Marker: MarkerSnapshot},
		{Key: "a/2", Note: []byte("a}\n{note")},
		{Key: "a/3", Note: []byte("a}\n{note"), Sender: Sender{"web-1", "2001:db8::7"}},
	} {
		value := b.value(1700000000000, 7, b.Sender)
		m, err := l.decode(&mvccpb.KeyValue{Key: []byte("drf/m/" + b.Key), Value: []byte(value), ModRevision: 9})
		if err != nil || m.Key != b.Key || m.At != 1700000000000 || m.Revision != (Revision{9, 7}) || m.Marker != b.Marker || m.Sender != b.Sender || string(m.Note) != string(b.Note) || string(m.Text) != string(b.text) {
			t.Errorf("%+v became %+v: %v", b, m, err)
		}
		for at := range value {
			damaged := value[:at] + string(value[at]^1) + value[at+1:]
			if again, err := l.decode(&mvccpb.KeyValue{Key: []byte("drf/m/" + b.Key), Value: []byte(damaged), ModRevision: 9}); err == nil && fmt.Sprint(again) == fmt.Sprint(m) {
				continue // such as another form of the same number
			} else if err == nil && at > strings.IndexByte(value, '}') {
				t.Errorf("damage at %d was not noticed", at)
			} else if err != nil && !IsFatal(err) {
				t.Errorf("damage at %d: %v", at, err)
			}
		}
	}
}

// A value without a note is the same as one of earlier gateways, which had no notes.
func TestValuesOfOlderGateways(t *testing.T) {
	if value := batchOf("a/1", "x").value(5, 0, Sender{}); value != `{"at":5,"index":0,"sum":3857187707}`+"\nx" {
		t.Error(value)
	}
}

func TestSenders(t *testing.T) {
	for remote, want := range map[string]string{"10.0.0.7:4711": "10.0.0.7", "[2001:db8::7]:80": "2001:db8::7", "[fe80::1%eth0]:80": "fe80::1", "": "", "@": "", "x:1": "", "{}:1": "", "10.0.0.7": ""} {
		if s := NewSender("web", remote); s != (Sender{"web", want}) {
			t.Errorf("%q: %+v", remote, s)
		}
	}
	ctx := WithSender(context.Background(), Sender{"web", "10.0.0.7"})
	if SenderOf(ctx) != (Sender{"web", "10.0.0.7"}) || SenderOf(context.Background()) != (Sender{}) {
		t.Error(SenderOf(ctx))
	}
}
