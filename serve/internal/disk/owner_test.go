// Tests of folders that belong to another user. Outside the proof.

package disk

import (
	"errors"
	"os"
	"os/exec"
	"path/filepath"
	"syscall"
	"testing"
)

const nobody = 65534

// folderOf returns a folder that belongs to a user. Only root can make one.
func folderOf(t *testing.T, uid int) string {
	if os.Geteuid() != 0 {
		t.Skip("only root can give a folder away")
	}
	folder := filepath.Join(os.TempDir(), filepath.Base(t.TempDir())+"-owner")
	if err := os.Mkdir(folder, 0o700); err != nil {
		t.Fatal(err)
	}
	t.Cleanup(func() { os.RemoveAll(folder) })
	if err := os.Chown(folder, uid, uid); err != nil {
		t.Fatal(err)
	}
	return folder
}

func TestCheckOwner(t *testing.T) {
	var wrong *OwnerError
	if err := CheckOwner(folderOf(t, nobody)); !errors.As(err, &wrong) || wrong.Owner != "nobody" {
		t.Errorf("the folder of another: %v", err)
	}
	if err := CheckOwner(t.TempDir()); err != nil {
		t.Errorf("the own folder: %v", err)
	}
	if err := CheckOwner(filepath.Join(t.TempDir(), "none")); err != nil {
		t.Errorf("no folder: %v", err)
	}
}

// TestBecomeOwner runs itself again, as the change is one of the whole process.
func TestBecomeOwner(t *testing.T) {
	if folder := os.Getenv("OWNED"); folder != "" {
		if err := BecomeOwner(folder); err != nil {
			t.Fatal(err)
		}
		if err := WriteFile(filepath.Join(folder, "file"), []byte("text")); err != nil {
			t.Fatal(err)
		}
		return
	}
	folder := folderOf(t, nobody)
	child := exec.Command("/proc/self/exe", "-test.run=^TestBecomeOwner$")
	child.Env = append(os.Environ(), "OWNED="+folder)
	if text, err := child.CombinedOutput(); err != nil {
		t.Fatalf("%v\n%s", err, text)
	}
	about, err := os.Stat(filepath.Join(folder, "file"))
	if err != nil {
		t.Fatal(err)
	}
	if stat := about.Sys().(*syscall.Stat_t); stat.Uid != nobody || stat.Gid != nobody {
		t.Errorf("the file belongs to %d:%d, not to the folder's owner", stat.Uid, stat.Gid)
	}
}
