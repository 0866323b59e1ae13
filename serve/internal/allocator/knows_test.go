// Tests of which events a program knows. Outside the proof.

package allocator

import (
	"context"
	"fmt"
	"os"
	"path/filepath"
	"reflect"
	"testing"
)

func TestProbe(t *testing.T) {
	for _, c := range []struct {
		reply string // as docs/REFERENCE.md has it
		want  []string
	}{
		{`{"name":"UnknownFramework","refused":5}`, []string{"set_framework"}},
		{`{"name":"BadShape","refused":32}`, nil},
		{`{"ok":true}`, nil},
		{``, nil},
	} {
		program := filepath.Join(t.TempDir(), "drf")
		if err := os.WriteFile(program, []byte(fmt.Sprintf("#!/bin/sh\n[ \"$1\" = run ] && read -r line && echo '%s'\n", c.reply)), 0o700); err != nil {
			t.Fatal(err)
		}
		if events, err := probe(context.Background(), program); err != nil || !reflect.DeepEqual(events, c.want) {
			t.Errorf("%s: %v, want %v (%v)", c.reply, events, c.want, err)
		}
	}
	if events, err := probe(context.Background(), filepath.Join(t.TempDir(), "none")); err == nil || events != nil {
		t.Errorf("a program that does not exist knows %v", events)
	}
}
