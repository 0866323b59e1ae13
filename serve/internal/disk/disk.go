// Package disk writes files durably, locks folders and checks for free space. Outside the proof.
package disk

import (
	"crypto/sha256"
	"encoding/hex"
	"errors"
	"fmt"
	"os"
	"path/filepath"

	"golang.org/x/sys/unix"
)

// MinFree is the free space below which no batch is appended: etcd stops its process when it cannot write.
const MinFree = 128 << 20

// SpaceError reports that a disk is nearly full, or that its free space is unknown.
type SpaceError struct {
	Folder string
	Free   uint64 // bytes
	Err    error  // why the free space is unknown, or nil
}

func (e *SpaceError) Error() string {
	if e.Err != nil {
		return fmt.Sprintf("the free space of %s is unknown: %v", e.Folder, e.Err)
	}
	return fmt.Sprintf("the disk is nearly full: %s has %d MiB left", e.Folder, e.Free>>20)
}

func (e *SpaceError) Unwrap() error { return e.Err }

// Free returns the free space of a folder's disk, in bytes.
func Free(folder string) (uint64, error) {
	var stat unix.Statfs_t
	if err := unix.Statfs(folder, &stat); err != nil {
		return 0, &os.PathError{Op: "statfs", Path: folder, Err: err}
	}
	return stat.Bavail * uint64(stat.Bsize), nil
}

// CheckFree returns a *SpaceError when the disk of a folder has less than MinFree bytes left.
func CheckFree(folder string) error {
	free, err := Free(folder)
	if err != nil {
		return &SpaceError{Folder: folder, Err: err}
	}
	if free < MinFree {
		return &SpaceError{Folder: folder, Free: free}
	}
	return nil
}

// Digest returns the SHA-256 of a text in hexadecimal.
func Digest(text []byte) string {
	sum := sha256.Sum256(text)
	return hex.EncodeToString(sum[:])
}

// WriteFile replaces a file atomically and durably. The new file is readable by its owner only.
func WriteFile(path string, text []byte) error {
	part, err := os.OpenFile(path+".part", os.O_WRONLY|os.O_CREATE|os.O_TRUNC, 0o600)
	if err != nil {
		return err
	}
	_, err = part.Write(text)
	if err == nil {
		err = part.Sync()
	}
	if closed := part.Close(); err == nil {
		err = closed
	}
	if err == nil {
		err = os.Rename(path+".part", path)
	}
	if err != nil {
		return err
	}
	return syncFolder(filepath.Dir(path))
}

func syncFolder(path string) error {
	folder, err := os.Open(path)
	if err != nil {
		return err
	}
	defer folder.Close()
	return folder.Sync()
}

// PrivateFolder creates a folder, or removes the permissions of group and others from an existing one. It reports whether it removed any.
func PrivateFolder(path string) (wasOpen bool, err error) {
	if err := os.MkdirAll(path, 0o700); err != nil {
		return false, err
	}
	about, err := os.Stat(path)
	if err != nil {
		return false, err
	}
	if about.Mode().Perm()&0o077 == 0 {
		return false, nil
	}
	return true, os.Chmod(path, about.Mode().Perm()&0o700)
}

// ErrLocked reports that another process holds a lock.
var ErrLocked = errors.New("another process holds the lock")

// TryLock takes an exclusive lock on a file until the process ends or unlock is called. It returns ErrLocked when another process has it.
func TryLock(path string) (unlock func(), err error) { return lock(path, unix.LOCK_EX|unix.LOCK_NB) }

// Lock waits for an exclusive lock on a file.
func Lock(path string) (unlock func(), err error) { return lock(path, unix.LOCK_EX) }

func lock(path string, how int) (func(), error) {
	file, err := unix.Open(path, unix.O_RDWR|unix.O_CREAT|unix.O_CLOEXEC, 0o600)
	if err != nil {
		return nil, &os.PathError{Op: "open", Path: path, Err: err}
	}
	for {
		err = unix.Flock(file, how)
		if !errors.Is(err, unix.EINTR) {
			break
		}
	}
	if err != nil {
		unix.Close(file)
		if errors.Is(err, unix.EWOULDBLOCK) {
			return nil, ErrLocked
		}
		return nil, &os.PathError{Op: "lock", Path: path, Err: err}
	}
	return func() { unix.Close(file) }, nil
}
