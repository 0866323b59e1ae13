// Rotation of output, and files that are not what they should be. Outside the proof.

package agent

import (
	"fmt"
	"io"
	"os"
	"path/filepath"
	"strings"
	"testing"
	"time"
)

func TestOutputIsRotated(t *testing.T) {
	folder := t.TempDir()
	p := &process{OutputBytes: 50, OutputFiles: 2}
	var stdout, stderr io.Writer
	all, err := p.pipes(folder, &stdout, &stderr)
	if err != nil {
		t.Fatal(err)
	}
	for k := 0; k < 30; k++ {
		fmt.Fprintf(stdout, "line %03d\n", k) // 9 bytes: five fit
		for end := 0; end < 1000; end++ {
			if text, _ := os.ReadFile(filepath.Join(folder, "stdout")); strings.Contains(string(text), fmt.Sprintf("line %03d", k)) {
				break
			}
			time.Sleep(time.Millisecond)
		}
	}
	all.end()
	for name, want := range map[string][]int{"stdout": {25, 30}, "stdout.1": {20, 25}, "stdout.2": {15, 20}} {
		lines := ""
		for k := want[0]; k < want[1]; k++ {
			lines += fmt.Sprintf("line %03d\n", k)
		}
		if text, err := os.ReadFile(filepath.Join(folder, name)); string(text) != lines || err != nil {
			t.Errorf("%s is %q, want %q (%v)", name, text, lines, err)
		}
	}
	if _, err := os.Stat(filepath.Join(folder, "stdout.3")); err == nil {
		t.Error("too many files are kept")
	}
	if text, err := os.ReadFile(filepath.Join(folder, "stderr")); len(text) > 0 || err != nil {
		t.Error(text, err)
	}
}

// The owner of a sandbox cannot make root write elsewhere.
func TestOutputFollowsNothing(t *testing.T) {
	folder := t.TempDir()
	secret := filepath.Join(folder, "secret")
	os.WriteFile(secret, []byte("secret"), 0o600)
	os.Symlink(secret, filepath.Join(folder, "link"))
	os.Symlink(filepath.Join(folder, "new"), filepath.Join(folder, "to-new"))
	os.Link(secret, filepath.Join(folder, "second-name"))
	os.Mkdir(filepath.Join(folder, "folder"), 0o755)
	p := &process{User: &account{UID: uint32(os.Getuid()), GID: uint32(os.Getgid())}}
	for _, name := range []string{"link", "to-new", "second-name", "folder"} {
		if file, err := p.openOutput(filepath.Join(folder, name)); err == nil {
			file.Close()
			t.Errorf("%s was opened", name)
		}
	}
	if _, err := os.Stat(filepath.Join(folder, "new")); err == nil {
		t.Error("a file was made where a link points to")
	}
	file, err := p.openOutput(filepath.Join(folder, "stdout"))
	if err != nil {
		t.Fatal(err)
	}
	file.Close()
}
