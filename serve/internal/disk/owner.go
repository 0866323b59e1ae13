// Whose folder it is: what root writes into the folder of a service's user could not be read by the service. Outside the proof.

package disk

import (
	"errors"
	"fmt"
	"os"
	"os/user"
	"strconv"
	"syscall"
)

// OwnerError reports that a folder belongs to another user.
type OwnerError struct {
	Folder, Owner string
}

func (e *OwnerError) Error() string {
	return fmt.Sprintf("%s belongs to %s: run this as that user", e.Folder, e.Owner)
}

// ownerOf returns the user and the group of a folder, or false if there is no such folder.
func ownerOf(folder string) (uid, gid int, exists bool, err error) {
	about, err := os.Stat(folder)
	if errors.Is(err, os.ErrNotExist) {
		return 0, 0, false, nil
	}
	if err != nil {
		return 0, 0, false, err
	}
	stat := about.Sys().(*syscall.Stat_t)
	return int(stat.Uid), int(stat.Gid), true, nil
}

// CheckOwner returns an *OwnerError if a folder exists and belongs to another user than this process runs as.
func CheckOwner(folder string) error {
	uid, _, exists, err := ownerOf(folder)
	if err != nil || !exists || uid == os.Geteuid() {
		return err
	}
	name := strconv.Itoa(uid)
	if known, err := user.LookupId(name); err == nil {
		name = known.Username
	}
	return &OwnerError{Folder: folder, Owner: name}
}

// BecomeOwner makes a process of root one of the user who owns a folder. What it writes there afterwards is that user's.
func BecomeOwner(folder string) error {
	uid, gid, exists, err := ownerOf(folder)
	if err != nil || !exists || uid == os.Geteuid() || os.Geteuid() != 0 {
		return err
	}
	for _, become := range []func() error{
		func() error { return syscall.Setgroups([]int{gid}) }, func() error { return syscall.Setgid(gid) }, func() error { return syscall.Setuid(uid) },
	} {
		if err := become(); err != nil {
			return fmt.Errorf("becoming the owner of %s: %w", folder, err)
		}
	}
	return nil
}
