// The program that measures, with few agents and tasks: that it works, not how fast. Outside the proof.

package mesos

import (
	"os/exec"
	"path/filepath"
	"strings"
	"testing"
)

func TestLoad(t *testing.T) {
	t.Parallel()
	s := newService(t, 1, 0)
	program := filepath.Join(s.folder, "load")
	if text, err := exec.Command("go", "build", "-o", program, "gateway/tests/load/mesos").CombinedOutput(); err != nil {
		t.Fatalf("%v: %s", err, text)
	}
	for _, one := range []struct{ arguments, want string }{
		{"-agents 3 -tasks 20 scale", "20 tasks reconciled after"},
		{"-agents 3 -rate 20 -for 1s status", "20 statuses at 20 a second: 50%: "},
		{"-agents 3 -frameworks 2 -rate 20 -for 1s launch", "2 frameworks on 3 agents, each second: "},
	} {
		text, err := exec.Command(program, append([]string{"-url", s.urls[0], "-token", s.token}, strings.Fields(one.arguments)...)...).CombinedOutput()
		if err != nil || !strings.Contains(string(text), one.want) {
			t.Errorf("%s: %v %s", one.arguments, err, text)
		}
	}
}
