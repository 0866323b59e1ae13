// Tests of durable files, locks and folders. Outside the proof.

package disk

import (
	"errors"
	"os"
	"path/filepath"
	"testing"
)

func TestWriteFileReplaces(t *testing.T) {
	path := filepath.Join(t.TempDir(), "file")
	for _, text := range []string{"one", "second text", ""} {
		if err := WriteFile(path, []byte(text)); err != nil {
			t.Fatal(err)
		}
		got, err := os.ReadFile(path)
		if err != nil || string(got) != text {
			t.Errorf("read %q, %v; want %q", got, err, text)
		}
	}
	if about, _ := os.Stat(path); about.Mode().Perm() != 0o600 {
		t.Errorf("mode %v, want 0600", about.Mode())
	}
}

func TestLockExcludes(t *testing.T) {
	path := filepath.Join(t.TempDir(), "lock")
	unlock, err := TryLock(path)
	if err != nil {
		t.Fatal(err)
	}
	if _, err := TryLock(path); !errors.Is(err, ErrLocked) {
		t.Errorf("second lock: %v, want ErrLocked", err)
	}
	unlock()
	if _, err := TryLock(path); err != nil {
		t.Errorf("lock after unlock: %v", err)
	}
}

func TestPrivateFolder(t *testing.T) {
	folder := filepath.Join(t.TempDir(), "data")
	if wasOpen, err := PrivateFolder(folder); wasOpen || err != nil {
		t.Errorf("new folder: %v, %v", wasOpen, err)
	}
	if err := os.Chmod(folder, 0o755); err != nil {
		t.Fatal(err)
	}
	if wasOpen, err := PrivateFolder(folder); !wasOpen || err != nil {
		t.Errorf("open folder: %v, %v", wasOpen, err)
	}
	if about, _ := os.Stat(folder); about.Mode().Perm() != 0o700 {
		t.Errorf("mode %v, want 0700", about.Mode())
	}
}
