// Compares the .proto files with those of Debian's mesos-go. Outside the proof.

package codec

import (
	"fmt"
	"os"
	"os/exec"
	"path/filepath"
	"testing"

	"google.golang.org/protobuf/proto"
	"google.golang.org/protobuf/reflect/protodesc"
	"google.golang.org/protobuf/reflect/protoreflect"
	"google.golang.org/protobuf/reflect/protoregistry"
	"google.golang.org/protobuf/types/descriptorpb"
)

const mesosGo = "github.com/mesos/mesos-go/api/v1/lib/"

// numbers returns a line for each field and each enum value of a file: its name, number, type and cardinality.
func numbers(file protoreflect.FileDescriptor) map[string]string {
	found := map[string]string{}
	enums := func(list protoreflect.EnumDescriptors) {
		for k := 0; k < list.Len(); k++ {
			for v := 0; v < list.Get(k).Values().Len(); v++ {
				value := list.Get(k).Values().Get(v)
				found[string(list.Get(k).FullName())+"."+string(value.Name())] = fmt.Sprint(value.Number())
			}
		}
	}
	var messages func(protoreflect.MessageDescriptors)
	messages = func(list protoreflect.MessageDescriptors) {
		for k := 0; k < list.Len(); k++ {
			m := list.Get(k)
			for f := 0; f < m.Fields().Len(); f++ {
				field := m.Fields().Get(f)
				kind := field.Kind().String()
				if field.Message() != nil {
					kind = string(field.Message().FullName())
				}
				if field.Enum() != nil {
					kind = string(field.Enum().FullName())
				}
				found[string(field.FullName())] = fmt.Sprintf("%s %s = %d, default %v", field.Cardinality(), kind, field.Number(), field.Default())
			}
			enums(m.Enums())
			messages(m.Messages())
		}
	}
	enums(file.Enums())
	messages(file.Messages())
	return found
}

// mesosGoFiles returns files of Debian's mesos-go.
func mesosGoFiles(t *testing.T, names ...string) *protoregistry.Files {
	t.Helper()
	root := "/usr/share/gocode/src"
	if _, err := os.Stat(filepath.Join(root, mesosGo)); err != nil {
		t.Skip("mesos-go is not installed: apt-get install golang-github-mesos-mesos-go-dev")
	}
	if _, err := exec.LookPath("protoc"); err != nil {
		t.Skip("protoc is not installed: apt-get install protobuf-compiler")
	}
	out := filepath.Join(t.TempDir(), "out")
	arguments := []string{"-I", root, "--include_imports", "-o", out}
	for _, name := range names {
		arguments = append(arguments, mesosGo+name)
	}
	if text, err := exec.Command("protoc", arguments...).CombinedOutput(); err != nil {
		t.Fatalf("%v: %s", err, text)
	}
	text, err := os.ReadFile(out)
	if err != nil {
		t.Fatal(err)
	}
	set := &descriptorpb.FileDescriptorSet{}
	if err := proto.Unmarshal(text, set); err != nil {
		t.Fatal(err)
	}
	theirs, err := protodesc.NewFiles(set)
	if err != nil {
		t.Fatal(err)
	}
	return theirs
}

// Each field and each value has the number, type and default that Debian's mesos-go has, but those of newer calls, and none is missing.
func TestNumbersAreThoseOfMesosGo(t *testing.T) {
	names := []string{"mesos.proto", "scheduler/scheduler.proto", "executor/executor.proto"}
	theirs := mesosGoFiles(t, names...)
	for _, name := range names {
		their, err := theirs.FindFileByPath(mesosGo + name)
		if err != nil {
			t.Fatal(err)
		}
		our, err := files.FindFileByPath(filepath.Base(name))
		if err != nil {
			t.Fatal(err)
		}
		have, want := numbers(our), numbers(their)
		for key, value := range have {
			if want[key] != value && (want[key] != "" || !isOf(newer, key)) {
				t.Errorf("%s: %q, and in mesos-go %q", key, value, want[key])
			}
			delete(want, key)
		}
		for key, value := range want {
			t.Errorf("%s: missing, and in mesos-go %q", key, value)
		}
		if len(have) < 20 {
			t.Errorf("%s has only %d numbers", name, len(have))
		}
	}
}
