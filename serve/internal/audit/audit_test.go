// Tests of the records and of searching them. Outside the proof.

package audit

import (
	"context"
	"encoding/json"
	"errors"
	"fmt"
	"strings"
	"testing"

	"gateway/internal/oplog"
)

// journal is a journal in memory, whose first bytes may be pruned.
type journal struct {
	text   []byte
	pruned int64
}

func (j *journal) ReadAt(text []byte, at int64) (int, error) {
	if at < j.pruned {
		return 0, fmt.Errorf("byte %d is %w", at, ErrNotKept)
	}
	return copy(text, j.text[at:]), nil
}

// world has messages that a test appends, in a log and a journal.
type world struct {
	t       *testing.T
	log     *Log
	journal journal
	number  int64
	lines   int64
}

func newWorld(t *testing.T) *world {
	w := &world{t: t, log: NewLog(t.TempDir())}
	if err := w.log.Begin(); err != nil {
		t.Fatal(err)
	}
	return w
}

// add appends a message of pairs of lines and replies.
func (w *world) add(m oplog.Message, pairs ...string) Record {
	w.t.Helper()
	var lines, replies [][]byte
	start := int64(len(w.journal.text))
	for k := 0; k < len(pairs); k += 2 {
		lines, replies = append(lines, []byte(pairs[k])), append(replies, []byte(pairs[k+1]+"\n"))
		w.journal.text = append(w.journal.text, pairs[k]+"\n"+pairs[k+1]+"\n"...)
	}
	w.number++
	r := NewRecord(&m, w.number, w.lines+1, start, int64(len(w.journal.text))-start, lines, replies)
	w.lines += int64(len(lines))
	if err := w.log.Write([]Record{r}); err != nil {
		w.t.Fatal(err)
	}
	return r
}

func (w *world) search(f Filter) Page {
	w.t.Helper()
	if f.Limit == 0 {
		f.Limit = 100
	}
	page, err := Search(context.Background(), w.log.Blocks(&w.journal), f)
	if err != nil {
		w.t.Fatal(err)
	}
	return page
}

func numbers(page Page) (found []int64) {
	for _, r := range page.Records {
		found = append(found, r.Message)
	}
	return found
}

const ok, unknown = `{"ok":true}`, `{"name":"UnknownAgent","refused":5}`

func TestRecords(t *testing.T) {
	web := oplog.Sender{Name: "web", Address: "10.0.0.7"}
	for key, c := range map[string]struct {
		m    oplog.Message
		want string
	}{
		"web/k1":           {oplog.Message{Sender: web}, `"name":"web","address":"10.0.0.7","key":"k1",`},
		"web/ 0123":        {oplog.Message{Sender: web}, `"name":"web","address":"10.0.0.7",`}, // a key that the gateway made
		"web/a/b":          {oplog.Message{}, `"name":"web","key":"a/b",`},                     // by a gateway that does not keep senders
		"cycle/17":         {oplog.Message{}, `"cause":"cycle",`},
		"rescind/0/5":      {oplog.Message{}, `"cause":"rescind",`},
		"silent/agents/n1": {oplog.Message{}, `"cause":"silent",`},
		"state/3":          {oplog.Message{Marker: oplog.MarkerSnapshot}, `"cause":"state",`},
		"mesos/ 0123":      {oplog.Message{Sender: web, Note: []byte(`{"mesos":"kill","task":"t"}`)}, `"name":"web","address":"10.0.0.7","call":"kill",`},
		"mesos/ leave/x":   {oplog.Message{}, `"cause":"mesos",`},
		"mesos/k2":         {oplog.Message{Sender: oplog.Sender{Name: "mesos"}}, `"name":"mesos","key":"k2",`}, // a token of this name
	} {
		c.m.Key, c.m.At = key, 1700
		text, _ := json.Marshal(NewRecord(&c.m, 9, 41, 1000, 77, [][]byte{[]byte(`{"event":"add_agent","agent":"n1"}`), []byte("x"), []byte(`{"event":"add_agent"}`)},
			[][]byte{[]byte(ok + "\n"), []byte(`{"name":"NotJson","refused":31}` + "\n"), []byte(unknown + "\n")}))
		want := `{"message":9,"at":1700,` + c.want + `"line":41,"lines":3,"byte":1000,"bytes":77,"events":{"add_agent":2,"other":1},"refused":2}`
		if string(text) != want {
			t.Errorf("%s: %s\nwant %s", key, text, want)
		}
	}
}

// One question finds who set a limit, and when.
func TestWhoSetThisLimit(t *testing.T) {
	w := newWorld(t)
	ops, web := oplog.Sender{Name: "ops", Address: "10.0.0.1"}, oplog.Sender{Name: "web", Address: "10.0.0.7"}
	w.add(oplog.Message{Key: "ops/a", At: 1000, Sender: ops}, `{"event":"set_limit","role":"eng","limit":"cpus:1"}`, ok)
	w.add(oplog.Message{Key: "ops/b", At: 2000, Sender: ops}, `{"event":"set_limit","role":"web","limit":"cpus:2"}`, ok, `{"limit":"cpus:3","event":"set_limit","role":"eng"}`, ok)
	w.add(oplog.Message{Key: "cycle/1", At: 2500}, `{"event":"cycle","at":2500}`, `{"offers":[]}`)
	w.add(oplog.Message{Key: "web/c", At: 3000, Sender: web}, `{"event":"set_limit","role":"eng","limit":"x"}`, `{"name":"BadText","refused":33}`)
	w.add(oplog.Message{Key: "state/1", At: 3100})
	w.add(oplog.Message{Key: "mesos/ 1", At: 3200, Sender: web})
	page := w.search(Filter{Event: "set_limit", Fields: map[string]string{"role": "eng"}})
	text, _ := json.Marshal(page.Records[1])
	if got := numbers(page); fmt.Sprint(got) != "[4 2 1]" || page.Next != 0 {
		t.Fatal(got, page.Next)
	}
	if want := `{"message":2,"at":2000,"name":"ops","address":"10.0.0.1","key":"b","line":2,"lines":2,"byte":64,"bytes":128,"events":{"set_limit":2},"refused":0,` +
		`"matches":[{"line":3,"text":"{\"limit\":\"cpus:3\",\"event\":\"set_limit\",\"role\":\"eng\"}","reply":{"ok":true}}]}`; string(text) != want {
		t.Errorf("%s\nwant %s", text, want)
	}
	for _, c := range []struct {
		f    Filter
		want string
	}{
		{Filter{}, "[4 2 1]"},
		{Filter{Cause: "cycle"}, "[3]"},
		{Filter{Event: "cycle"}, "[3]"},
		{Filter{Cause: "state"}, "[5]"},
		{Filter{Name: "web"}, "[4]"},
		{Filter{Address: "10.0.0.1"}, "[2 1]"},
		{Filter{Refused: true}, "[4]"},
		{Filter{Event: "set_limit", Refused: true}, "[4]"},
		{Filter{From: 2000}, "[4 2]"},
		{Filter{To: 2000}, "[1]"},
		{Filter{From: 1001, To: 3000}, "[2]"},
		{Filter{Before: 4}, "[2 1]"},
		{Filter{Fields: map[string]string{"role": "web"}}, "[2]"},
		{Filter{Event: "set_weight"}, "[]"},
		{Filter{Event: "other"}, "[]"},
	} {
		if page := w.search(c.f); fmt.Sprint(numbers(page)) != c.want {
			t.Errorf("%+v: %v, want %s", c.f, numbers(page), c.want)
		}
	}
}

// Pages follow one another without a gap and without a repetition, also over parts of the file.
func TestPages(t *testing.T) {
	w := newWorld(t)
	for n := 0; n < 2000; n++ {
		w.add(oplog.Message{Key: fmt.Sprintf("web/%d", n), At: int64(n)}, fmt.Sprintf(`{"event":"finish","framework":"f%d","task":"t"}`, n%10), ok)
	}
	if len(w.log.marks) < 4 {
		t.Fatalf("%d parts", len(w.log.marks))
	}
	for _, f := range []Filter{{Limit: 70}, {Limit: 1000}, {Limit: 2000}, {Limit: 30, Event: "finish", Fields: map[string]string{"framework": "f3"}}} {
		var all []int64
		for calls := 0; ; calls++ {
			page := w.search(f)
			if all = append(all, numbers(page)...); page.Next == 0 {
				break
			}
			if f.Before = page.Next; len(page.Records) > f.Limit || calls > 1000 {
				t.Fatalf("%d records in call %d", len(page.Records), calls)
			}
		}
		want, step, next := 2000, int64(1), int64(2000)
		if len(f.Fields) > 0 {
			want, step, next = 200, 10, 1994
		}
		for _, number := range all {
			if number != next {
				t.Fatalf("message %d where %d was expected", number, next)
			}
			next -= step
		}
		if len(all) != want {
			t.Errorf("%d records, want %d", len(all), want)
		}
	}
}

// A page reads only a limited part of the journal, and says where to continue.
func TestPagesAreBounded(t *testing.T) {
	w := newWorld(t)
	long := strings.Repeat("x", 1<<20)
	for n := 0; n < 40; n++ {
		w.add(oplog.Message{Key: fmt.Sprintf("web/%d", n)}, long, ok)
	}
	page := w.search(Filter{Fields: map[string]string{"framework": "f"}})
	if len(page.Records) != 0 || page.Next < 5 || page.Next > 10 {
		t.Error(len(page.Records), page.Next)
	}
}

func TestPruning(t *testing.T) {
	w := newWorld(t)
	for n := 0; n < 2000; n++ {
		w.add(oplog.Message{Key: fmt.Sprintf("web/%d", n)}, `{"event":"finish","framework":"f","task":"t"}`, ok)
	}
	before := w.log.Blocks(&w.journal)
	if err := w.log.Prune(1500); err != nil {
		t.Fatal(err)
	}
	w.journal.pruned = 1500 * 58
	if page := w.search(Filter{Limit: 2000}); len(page.Records) != 500 || page.Records[0].Message != 2000 {
		t.Error(len(page.Records))
	}
	if records, err := w.log.Records(0, 10); err != nil || len(records) != 10 || records[0].Message != 1501 {
		t.Error(records, err)
	}
	if records, err := w.log.Records(1998, 10); err != nil || len(records) != 2 || records[0].Message != 1999 {
		t.Error(records, err)
	}
	if page := w.search(Filter{Limit: 2000, Event: "finish"}); len(page.Records) != 500 { // those whose lines are kept
		t.Error(len(page.Records))
	}
	if _, err := Search(context.Background(), before, Filter{Limit: 2000}); !errors.Is(err, ErrNotKept) {
		t.Error("of what was pruned meanwhile:", err)
	}
	if err := w.log.Begin(); err != nil {
		t.Fatal(err)
	}
	if page := w.search(Filter{}); len(page.Records) != 0 {
		t.Error("a new file has records")
	}
	if _, err := Search(context.Background(), before[len(before)-1:], Filter{Limit: 2000}); !errors.Is(err, ErrNotKept) {
		t.Error("of the old file:", err)
	}
}

// Records are written as encoding/json writes them.
func TestEncode(t *testing.T) {
	for _, r := range []Record{{}, {Message: 1, At: 2, Name: "ops", Address: "10.0.0.7", Key: "k", Line: 3, Lines: 4, Byte: 5, Bytes: 6, Events: map[string]int{"cycle": 1}, Refused: 7},
		{Cause: "cycle", Call: "kill", Name: "<\"é", Key: "a\\b", Events: map[string]int{"set_limit": 2, "cycle": 1, "other": 3}}, {Events: map[string]int{}}} {
		want, _ := json.Marshal(r)
		if got := encode([]byte("x"), []Record{r}); string(got) != "x"+string(want)+"\n" {
			t.Errorf("%s, want %s", got, want)
		}
	}
}
