// Tests of the codec: fields that are kept, both encodings, media types and records. Outside the proof.

package codec

import (
	"bufio"
	"bytes"
	"encoding/base64"
	"errors"
	"io"
	"os"
	"os/exec"
	"path/filepath"
	"strings"
	"testing"

	"google.golang.org/protobuf/encoding/protowire"
)

// The checked-in descriptors are those of the .proto files.
func TestDescriptorsAreCurrent(t *testing.T) {
	if _, err := exec.LookPath("protoc"); err != nil {
		t.Skip("protoc is not installed: apt-get install protobuf-compiler")
	}
	out := filepath.Join(t.TempDir(), "out")
	text, err := exec.Command("protoc", "--include_imports", "-o", out, "-I", "proto", "mesos.proto", "scheduler.proto", "executor.proto", "link.proto", "master.proto", "agent.proto").CombinedOutput()
	if err != nil {
		t.Fatalf("%v: %s", err, text)
	}
	made, err := os.ReadFile(out)
	if err != nil || !bytes.Equal(made, descriptors) {
		t.Errorf("descriptors.binpb is not of these files (%v): run protoc --include_imports -o descriptors.binpb -I proto ..", err)
	}
}

const call = "mesos.scheduler.Call"

func TestJSON(t *testing.T) {
	for _, c := range []struct{ text, want, problem string }{
		{`{"type":"REVIVE","framework_id":{"value":"f"}}`, `{"framework_id":{"value":"f"},"type":"REVIVE"}`, ""},
		{` { "type" : "REVIVE" } `, `{"type":"REVIVE"}`, ""},
		{`{"type":5}`, `{"type":"REVIVE"}`, ""},
		{`{"type":"REVIVE","revive":{"roles":["a","<b>"]},"x":{"y":[1, 2.50]}}`, `{"type":"REVIVE","revive":{"roles":["a","<b>"]},"x":{"y":[1,2.50]}}`, ""},
		{`{"type":"WHAT"}`, `{"type":"WHAT"}`, ""},
		{`{"type":null,"revive":null}`, `{}`, ""},
		{`{"type":999}`, `{"type":999}`, ""},
		{`{"type":"KILL","kill":{"task_id":{"value":"t","new":1},"kill_policy":{"grace_period":{"nanoseconds":"5000000000"}}}}`,
			`{"type":"KILL","kill":{"task_id":{"value":"t","new":1},"kill_policy":{"grace_period":{"nanoseconds":5000000000}}}}`, ""},
		{`{"kill":{"task_id":{"value":"t"},"kill_policy":{"grace_period":{"nanoseconds":5e9}}}}`, `{"kill":{"task_id":{"value":"t"},"kill_policy":{"grace_period":{"nanoseconds":5000000000}}}}`, ""},
		{`{"decline":{"offer_ids":[{"value":"o"}],"filters":{"refuse_seconds":0.1}}}`, `{"decline":{"offer_ids":[{"value":"o"}],"filters":{"refuse_seconds":0.1}}}`, ""},
		{`{"acknowledge":{"agent_id":{"value":"a"},"task_id":{"value":"t"},"uuid":"AAEC"}}`, `{"acknowledge":{"agent_id":{"value":"a"},"task_id":{"value":"t"},"uuid":"AAEC"}}`, ""},
		{`{"framework_id":{}}`, "", "required field"},
		{`{"framework_id":{"value":7}}`, "", "is not a string"},
		{`{"framework_id":"f"}`, "", "expected an object"},
		{`{"revive":{"roles":"a"}}`, "", "expected an array"},
		{`{"revive":{"roles":[null]}}`, "", "is not a string"},
		{`{"acknowledge":{"agent_id":{"value":"a"},"task_id":{"value":"t"},"uuid":"?"}}`, "", "is not a bytes"},
		{`{"decline":{"filters":{"refuse_seconds":1e400}}}`, "", "is not a double"},
		{`{"kill":{"task_id":{"value":"t"},"kill_policy":{"grace_period":{"nanoseconds":0.5}}}}`, "", "is not a int64"},
		{`{"@protobuf":"//8="}`, "", "expected fields"},
		{`[]`, "", "expected an object"}, {`null`, "", "expected an object"}, {`{`, "", "not JSON"}, {``, "", "not JSON"}, {`{} {}`, "", "not JSON"},
	} {
		m, err := ReadJSON(call, []byte(c.text))
		switch {
		case c.problem != "":
			if err == nil || !strings.Contains(err.Error(), c.problem) {
				t.Errorf("%s: %v", c.text, err)
			}
		case err != nil:
			t.Errorf("%s: %v", c.text, err)
		case string(m.JSON()) != c.want:
			t.Errorf("%s: %s, want %s", c.text, m.JSON(), c.want)
		}
	}
}

// Each encoding carries everything that the other one has.
func TestUnknownFieldsAreCarried(t *testing.T) {
	text := `{"type":"SUBSCRIBE","subscribe":{"framework_info":{"user":"u","name":"n","capabilities":[{"type":"NEWER"},{"type":"MULTI_ROLE"}],"offer_filters":{"a":{"b":[1]}}}}}`
	m, err := ReadJSON(call, []byte(text))
	if err != nil {
		t.Fatal(err)
	}
	again, err := ReadProtobuf(call, m.Protobuf())
	if err != nil || string(again.JSON()) != text {
		t.Errorf("%s %v", again.JSON(), err)
	}
	field := protowire.AppendString(protowire.AppendTag(nil, 99, protowire.BytesType), "newer")
	m, err = ReadProtobuf(call, append(New(call).Set("type", "REVIVE").Protobuf(), field...))
	if err != nil {
		t.Fatal(err)
	}
	want := `{"type":"REVIVE","@protobuf":"` + base64.StdEncoding.EncodeToString(field) + `"}`
	if string(m.JSON()) != want {
		t.Errorf("%s, want %s", m.JSON(), want)
	}
	again, err = ReadJSON(call, m.JSON())
	if err != nil || !bytes.Equal(again.Protobuf(), m.Protobuf()) {
		t.Errorf("%x, want %x (%v)", again.Protobuf(), m.Protobuf(), err)
	}
}

// A known field that is hidden among the unknown ones does not become a field of the message.
func TestKnownFieldsAreNotSmuggled(t *testing.T) {
	for _, hidden := range []string{`{"framework_id":{"value":"f"}}`, `{"type":"REVIVE"}`, `{"@protobuf":"AA=="}`, `no JSON`, `[1]`} {
		text := protowire.AppendString(protowire.AppendTag(nil, rawField, protowire.BytesType), hidden)
		m, err := ReadProtobuf(call, text)
		if err != nil || string(m.JSON()) != `{}` {
			t.Errorf("%s: %s %v", hidden, m.JSON(), err)
		}
	}
}

func TestNesting(t *testing.T) {
	deep := strings.Repeat(`{"parent":`, 3000) + `{}` + strings.Repeat(`}`, 3000)
	if _, err := ReadJSON("mesos.ContainerID", []byte(deep)); err == nil || !strings.Contains(err.Error(), "too deep") {
		t.Error(err)
	}
	text := []byte(nil)
	for k := 0; k < 300; k++ {
		text = protowire.AppendBytes(protowire.AppendTag(nil, 2, protowire.BytesType), text)
	}
	if _, err := ReadProtobuf("mesos.ContainerID", text); err == nil {
		t.Error("a message that is nested too deep was read")
	}
}

func TestAccessors(t *testing.T) {
	m := New("mesos.TaskInfo").Set("name", "n").Set("task_id.value", "t").Set("agent_id.value", "a").Set("kill_policy.grace_period.nanoseconds", 7)
	m.Add("resources", New("mesos.Resource").Set("name", "cpus").Set("type", "SCALAR").Set("scalar.value", 0.5))
	if m.Text("task_id.value") != "t" || m.Int("kill_policy.grace_period.nanoseconds") != 7 || m.Has("command") || !m.Sub("command").IsAbsent() || m.Text("command.value") != "" ||
		len(m.List("resources")) != 1 || m.List("resources")[0].Enum("type") != "SCALAR" || m.List("resources")[0].Text("role") != "*" || m.List("resources")[0].Float("scalar.value") != 0.5 {
		t.Errorf("%s", m.JSON())
	}
	copied := m.Clone().Set("name", "other")
	if m.Text("name") != "n" || copied.Text("name") != "other" {
		t.Error("a copy is not one")
	}
	defer func() {
		if recover() == nil {
			t.Error("a field that does not exist was read")
		}
	}()
	m.Text("nothing")
}

// The name of a call that the type does not have is known, so the call can be refused by name.
func TestNames(t *testing.T) {
	for text, want := range map[string]string{`{"type":"REVIVE"}`: "REVIVE", `{"type":"UPDATE_FRAMEWORK"}`: "UPDATE_FRAMEWORK", `{"type":"RECONCILE_OPERATIONS"}`: "RECONCILE_OPERATIONS", `{"type":17}`: "UPDATE_FRAMEWORK", `{"type":99}`: "99", `{"type":0}`: "UNKNOWN", `{}`: "", `{"type":""}`: "", `{"type":null}`: ""} {
		m, err := ReadJSON(call, []byte(text))
		if name, is := m.Name("type"); err != nil || is != (want != "") || is && name != want {
			t.Errorf("%s: %q %v %v", text, name, is, err)
		}
	}
}

func TestMediaTypes(t *testing.T) {
	for _, c := range []struct {
		accept, message string
		want            Form
		err             error
	}{
		{"", "", Form{}, nil}, {"*/*", "", Form{}, nil}, {"application/json", "", Form{}, nil}, {"application/x-protobuf", "", Form{Protobuf: true}, nil},
		{"application/x-protobuf, application/json", "", Form{}, nil}, {"application/json;q=0, application/x-protobuf", "", Form{Protobuf: true}, nil},
		{"application/recordio", "application/x-protobuf", Form{true, true}, nil}, {"application/recordio", "application/json", Form{false, true}, nil},
		{"text/html", "", Form{}, ErrNotAcceptable}, {"APPLICATION/JSON", "", Form{}, nil}, {"application/recordio", "text/html", Form{}, ErrNotAcceptable},
	} {
		form, err := Accepts(c.accept, c.message)
		if !errors.Is(err, c.err) || err == nil && form != c.want {
			t.Errorf("%q %q: %+v %v", c.accept, c.message, form, err)
		}
	}
	for kind, want := range map[string]string{"": "to be present", "text/plain": "Expecting 'Content-Type' of", "application/json": "Failed to parse body into JSON", "Application/JSON; charset=utf-8": "Failed to parse body into JSON", "application/x-protobuf": "Failed to parse body into Call protobuf"} {
		if _, err := Read(call, kind, []byte("\xff")); err == nil || !strings.Contains(err.Error(), want) {
			t.Errorf("%s: %v", kind, err)
		}
	}
	if _, err := Read(call, TypeJSON, []byte(`{"type":{}}`)); err == nil || !strings.Contains(err.Error(), "Failed to convert JSON into Call protobuf") {
		t.Error(err)
	}
}

func TestRecords(t *testing.T) {
	stream := append(append(Record([]byte("abc")), Record(nil)...), Record([]byte("\n1"))...)
	in := bufio.NewReader(bytes.NewReader(stream))
	for _, want := range []string{"abc", "", "\n1"} {
		if text, err := ReadRecord(in, 10); err != nil || string(text) != want {
			t.Errorf("%q %v, want %q", text, err, want)
		}
	}
	if _, err := ReadRecord(in, 10); err != io.EOF {
		t.Error(err)
	}
	for text, want := range map[string]string{"3\nab": "unexpected EOF", "3": "unexpected EOF", "x\n": "begins with", "11\n": "at most 10", "99999999999999999999\n": "begins with", "-1\n": "begins with", "\n": "at most 10"} {
		if _, err := ReadRecord(bufio.NewReader(strings.NewReader(text)), 10); err == nil || !strings.Contains(err.Error(), want) {
			t.Errorf("%q: %v", text, err)
		}
	}
}

// A message that was read from JSON is the same after it is written and read again, as JSON and as protobuf.
func FuzzJSON(f *testing.F) {
	f.Add([]byte(`{"type":"ACCEPT","framework_id":{"value":"f"},"accept":{"offer_ids":[{"value":"o"}],"operations":[{"type":"LAUNCH","launch":{"task_infos":[{"name":"t","task_id":{"value":"t"},"agent_id":{"value":"a"},"resources":[{"name":"cpus","type":"SCALAR","scalar":{"value":0.1}}],"limits":{"cpus":{"value":1}}}]}}]}}`))
	f.Add([]byte(`{"type":"NEW","x":[{"@protobuf":"AA=="}],"@protobuf":"mgMFbmV3ZXI="}`))
	f.Fuzz(func(t *testing.T, text []byte) {
		m, err := ReadJSON(call, text)
		if err != nil {
			return
		}
		once := m.JSON()
		again, err := ReadJSON(call, once)
		if err != nil || !bytes.Equal(again.JSON(), once) {
			t.Fatalf("%s is written as %s, and that as %s (%v)", text, once, again.JSON(), err)
		}
		carried, err := ReadProtobuf(call, m.Protobuf())
		if err != nil || !bytes.Equal(carried.JSON(), once) {
			t.Fatalf("%s is carried as %s (%v)", once, carried.JSON(), err)
		}
	})
}

// A message that was read from protobuf is the same in JSON, and is written in the same way from then on.
func FuzzProtobuf(f *testing.F) {
	f.Add(New(call).Set("type", "KILL").Set("kill.task_id.value", "t").Protobuf())
	f.Add([]byte{0x9a, 0x06, 0x01, 0x00})
	f.Fuzz(func(t *testing.T, text []byte) {
		m, err := ReadProtobuf(call, text)
		if err != nil {
			return
		}
		carried, err := ReadJSON(call, m.JSON())
		if err != nil {
			t.Fatalf("%x is written as %s: %v", text, m.JSON(), err)
		}
		if once := carried.JSON(); !bytes.Equal(once, m.JSON()) {
			t.Fatalf("%s is written as %s", m.JSON(), once)
		}
	})
}

func FuzzRecords(f *testing.F) {
	f.Add([]byte("3\nabc0\n"))
	f.Fuzz(func(t *testing.T, text []byte) {
		in := bufio.NewReader(bytes.NewReader(text))
		for {
			one, err := ReadRecord(in, 1<<16)
			if err != nil {
				return
			}
			if again, err := ReadRecord(bufio.NewReader(bytes.NewReader(Record(one))), 1<<16); err != nil || !bytes.Equal(again, one) {
				t.Fatalf("%q %v", again, err)
			}
		}
	})
}
