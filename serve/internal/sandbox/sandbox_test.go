// Tests of attacks by tasks on the reading of their folders. Outside the proof.

package sandbox

import (
	"errors"
	"net"
	"os"
	"path/filepath"
	"strings"
	"sync/atomic"
	"syscall"
	"testing"
)

// newRoot returns a root with the sandbox tasks/1/sandbox, which has a file and a folder, and secrets around it.
func newRoot(t *testing.T) (Root, string) {
	t.Helper()
	folder, err := filepath.EvalSymlinks(t.TempDir())
	if err != nil {
		t.Fatal(err)
	}
	root := filepath.Join(folder, "agent")
	box := filepath.Join(root, "tasks", "1", "sandbox")
	for _, one := range []string{box, filepath.Join(box, "sub"), filepath.Join(root, "tasks", "2", "sandbox")} {
		if err := os.MkdirAll(one, 0o755); err != nil {
			t.Fatal(err)
		}
	}
	for path, text := range map[string]string{filepath.Join(box, "stdout"): "hello", filepath.Join(box, "sub", "x"): "inner", filepath.Join(folder, "secret"): "SECRET",
		filepath.Join(root, "secret"): "SECRET", filepath.Join(root, "tasks", "1", "token"): "SECRET", filepath.Join(root, "tasks", "2", "sandbox", "other"): "SECRET"} {
		if err := os.WriteFile(path, []byte(text), 0o644); err != nil {
			t.Fatal(err)
		}
	}
	return New(root), box
}

func link(t *testing.T, to, from string) {
	t.Helper()
	if err := os.Symlink(to, from); err != nil {
		t.Fatal(err)
	}
}

const one = "tasks/1/sandbox"

func TestFilesAreRead(t *testing.T) {
	r, box := newRoot(t)
	link(t, "sub/x", filepath.Join(box, "inside"))
	link(t, "sub", filepath.Join(box, "folder"))
	for path, want := range map[string]string{"stdout": "hello", "/stdout": "hello", "./sub/x": "inner", "sub//x": "inner", "sub/../stdout": "hello", "inside": "inner", "folder/x": "inner", "../stdout": "hello", "../../../stdout": "hello"} {
		data, size, err := r.Read(one, path, 0, 100)
		if string(data) != want || size != int64(len(want)) || err != nil {
			t.Errorf("%s: %q %d %v", path, data, size, err)
		}
	}
	for _, c := range []struct {
		offset, length int64
		want           string
	}{{0, 2, "he"}, {3, 9, "lo"}, {5, 1, ""}, {9, 1, ""}, {0, 0, ""}, {0, -1, ""}} {
		if data, size, err := r.Read(one, "stdout", c.offset, c.length); string(data) != c.want || size != 5 || err != nil {
			t.Errorf("%d %d: %q %d %v", c.offset, c.length, data, size, err)
		}
	}
	entries, err := r.List(one, "/")
	var names []string
	for _, e := range entries {
		names = append(names, e.Name+" "+e.Info.Mode().String())
	}
	if text := strings.Join(names, ", "); err != nil || text != "folder Lrwxrwxrwx, inside Lrwxrwxrwx, stdout -rw-r--r--, sub drwxr-xr-x" {
		t.Error(text, err)
	}
	if _, _, err := r.Read(one, "sub", 0, 1); !errors.Is(err, ErrFolder) {
		t.Error(err)
	}
	if _, _, err := r.Read(one, "nothing", 0, 1); !errors.Is(err, os.ErrNotExist) {
		t.Error(err)
	}
}

// No link of a task's leads out of its sandbox, and no other sandbox is named by a path with dots.
func TestLinksDoNotLeadOut(t *testing.T) {
	r, box := newRoot(t)
	for name, to := range map[string]string{"absolute": "/etc/passwd", "up": "../token", "far": "../../../../secret", "root": "/", "other": "../../2/sandbox/other", "self": "/proc/self/environ",
		"magic": "/proc/self/root/etc/passwd", "loop": "loop", "chain": "up", "absolute-inside": filepath.Join(box, "stdout"), "above": "..", "sub/up": "../../token"} {
		link(t, to, filepath.Join(box, name))
	}
	for _, path := range []string{"absolute", "up", "far", "root/etc/passwd", "other", "self", "magic", "loop", "chain", "absolute-inside", "above/token", "sub/up", "above/../../../secret", "root", "above"} {
		if data, _, err := r.Read(one, path, 0, 100); err == nil || len(data) > 0 || !errors.Is(err, ErrOutside) && !errors.Is(err, os.ErrNotExist) {
			t.Errorf("%s: %q %v", path, data, err)
		}
		if entries, err := r.List(one, path); err == nil {
			t.Errorf("%s: %v", path, entries)
		}
	}
	for _, name := range []string{"", ".", "..", "../agent/tasks/1/sandbox", "tasks/../tasks/1/sandbox", "/etc", "tasks/1/sandbox/", "tasks/./1/sandbox", "tasks/1/sandbox/../../2/sandbox"} {
		if file, err := r.Open(name, "stdout"); err == nil {
			t.Errorf("the sandbox %q was opened: %s", name, file.Name())
		}
	}
}

// A task that replaces its sandbox, or the folder above, by a link shows nothing.
func TestSandboxIsNoLink(t *testing.T) {
	for _, replaced := range []string{"tasks/1/sandbox", "tasks/1", "tasks"} {
		r, _ := newRoot(t)
		path := filepath.Join(r.folder, replaced)
		if err := os.Rename(path, path+".moved"); err != nil {
			t.Fatal(err)
		}
		link(t, path+".moved", path)
		if file, err := r.Open(one, "stdout"); !errors.Is(err, ErrOutside) {
			t.Errorf("%s: %v %v", replaced, file, err)
		}
		os.Remove(path)
		link(t, "/etc", path)
		if file, err := r.Open(one, "passwd"); err == nil {
			t.Errorf("%s: %v", replaced, file.Name())
		}
	}
}

// A file whose opening would block or have side effects is not opened for reading.
func TestSpecialFiles(t *testing.T) {
	r, box := newRoot(t)
	if err := syscall.Mkfifo(filepath.Join(box, "pipe"), 0o644); err != nil {
		t.Fatal(err)
	}
	listener, err := net.Listen("unix", filepath.Join(box, "s"))
	if err != nil {
		t.Skip(err) // the path is too long
	}
	defer listener.Close()
	for _, path := range []string{"pipe", "s"} {
		if data, _, err := r.Read(one, path, 0, 10); !errors.Is(err, ErrSpecial) {
			t.Errorf("%s: %q %v", path, data, err)
		}
	}
}

// A file of another user is not shown by a second name. A task's own is.
func TestHardLinks(t *testing.T) {
	r, box := newRoot(t)
	if err := os.Link(filepath.Join(box, "stdout"), filepath.Join(box, "again")); err != nil {
		t.Fatal(err)
	}
	if data, _, err := r.Read(one, "again", 0, 100); string(data) != "hello" || err != nil {
		t.Errorf("%q %v", data, err)
	}
	if err := os.Link(filepath.Join(r.folder, "secret"), filepath.Join(box, "linked")); err != nil {
		t.Fatal(err)
	}
	if os.Getuid() != 0 {
		t.Skip("only root may have files of several users")
	}
	if err := os.Chown(box, 12345, 12345); err != nil {
		t.Fatal(err)
	}
	if data, _, err := r.Read(one, "linked", 0, 100); !errors.Is(err, ErrOutside) {
		t.Errorf("%q %v", data, err)
	}
}

// A task that replaces a folder by a link and back, as fast as it can, never shows anything outside of its sandbox.
func TestRace(t *testing.T) {
	r, box := newRoot(t)
	os.WriteFile(filepath.Join(box, "sub", "token"), []byte("inner"), 0o644)
	link(t, "..", filepath.Join(box, "out"))
	stop, done := int32(0), make(chan bool)
	go func() {
		defer close(done)
		for atomic.LoadInt32(&stop) == 0 { // exchange a folder and a link that leads out
			os.Rename(filepath.Join(box, "sub"), filepath.Join(box, "x"))
			os.Rename(filepath.Join(box, "out"), filepath.Join(box, "sub"))
			os.Rename(filepath.Join(box, "sub"), filepath.Join(box, "out"))
			os.Rename(filepath.Join(box, "x"), filepath.Join(box, "sub"))
		}
	}()
	for k := 0; k < 5000; k++ {
		if data, _, err := r.Read(one, "sub/token", 0, 100); err == nil && string(data) != "inner" {
			t.Errorf("it read %q", data)
			break
		}
	}
	atomic.StoreInt32(&stop, 1)
	<-done
}
