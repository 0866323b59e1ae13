// Package sandbox reads files in the folders of tasks. A task can put anything there, such as symbolic links or pipes, or replace its folder:
// nothing outside of it is ever opened. Outside the proof.
package sandbox

import (
	"errors"
	"io/fs"
	"os"
	"path/filepath"
	"sort"
	"strings"
	"syscall"

	"golang.org/x/sys/unix"
)

// Errors of paths.
var (
	ErrOutside = errors.New("the path is not in a sandbox")
	ErrSpecial = errors.New("it is neither a file nor a folder")
	ErrFolder  = errors.New("it is a folder")
)

// Root is the folder that contains the sandboxes.
type Root struct{ folder string }

// New returns a root. The path is absolute.
func New(folder string) Root { return Root{filepath.Clean(folder)} }

// Open opens a file or a folder at a path within a sandbox, which is a folder below the root. Links within the sandbox are followed as long as they
// stay there; the path to the sandbox itself must not contain a link. The caller closes it.
func (r Root) Open(box, path string) (*os.File, error) {
	if !isLocal(box) {
		return nil, ErrOutside
	}
	root, err := unix.Open(r.folder, unix.O_DIRECTORY|unix.O_CLOEXEC|unix.O_PATH, 0)
	if err != nil {
		return nil, wrap(r.folder, err)
	}
	defer unix.Close(root)
	in, err := unix.Openat2(root, box, &unix.OpenHow{Flags: unix.O_DIRECTORY | unix.O_CLOEXEC | unix.O_PATH, Resolve: unix.RESOLVE_BENEATH | unix.RESOLVE_NO_SYMLINKS | unix.RESOLVE_NO_XDEV})
	if err != nil {
		return nil, wrap(box, err)
	}
	defer unix.Close(in)
	return openIn(in, filepath.Join(r.folder, box), path)
}

// openIn opens a path below an open folder. A pipe does not block, and is refused, as is everything that is neither a file nor a folder.
func openIn(in int, name, path string) (*os.File, error) {
	path = strings.TrimLeft(filepath.Clean("/"+path), "/")
	if path == "" {
		path = "."
	}
	fd, err := unix.Openat2(in, path, &unix.OpenHow{Flags: unix.O_RDONLY | unix.O_CLOEXEC | unix.O_NONBLOCK | unix.O_NOCTTY, Resolve: unix.RESOLVE_BENEATH | unix.RESOLVE_NO_MAGICLINKS | unix.RESOLVE_NO_XDEV})
	if err != nil {
		return nil, wrap(path, err)
	}
	if err := check(in, fd); err != nil {
		unix.Close(fd)
		return nil, err
	}
	return os.NewFile(uintptr(fd), filepath.Join(name, path)), nil
}

// check returns an error for what is neither a file nor a folder, and for a file that has several names and does not belong to the sandbox's owner:
// if the kernel lets a user link to others' files, such a link would show them.
func check(in, fd int) error {
	var box, about unix.Stat_t
	if err := unix.Fstat(in, &box); err != nil {
		return err
	}
	if err := unix.Fstat(fd, &about); err != nil {
		return err
	}
	switch kind := about.Mode & unix.S_IFMT; {
	case kind != unix.S_IFREG && kind != unix.S_IFDIR:
		return ErrSpecial
	case kind == unix.S_IFREG && about.Nlink > 1 && about.Uid != box.Uid:
		return ErrOutside
	}
	return nil
}

// wrap names a path, and says of links that lead out that the path is not in a sandbox.
func wrap(path string, err error) error {
	if errors.Is(err, syscall.EXDEV) || errors.Is(err, syscall.ELOOP) {
		return ErrOutside
	}
	if errors.Is(err, syscall.ENXIO) { // a socket
		return ErrSpecial
	}
	return &fs.PathError{Op: "open", Path: path, Err: err}
}

// isLocal reports whether a path stays where it begins, by its text.
func isLocal(path string) bool {
	return path != "" && !filepath.IsAbs(path) && filepath.Clean(path) == path && path != ".." && !strings.HasPrefix(path, "../")
}

// Entry is a file or a folder in a list. Of a link, the link itself is described.
type Entry struct {
	Name string
	Info os.FileInfo
}

// List returns the entries of a folder, in order of their names. An entry that disappears meanwhile is left out.
func (r Root) List(box, path string) (entries []Entry, err error) {
	folder, err := r.Open(box, path)
	if err != nil {
		return nil, err
	}
	defer folder.Close()
	found, err := folder.ReadDir(-1)
	if err != nil {
		return nil, err
	}
	for _, one := range found {
		var about unix.Stat_t
		if unix.Fstatat(int(folder.Fd()), one.Name(), &about, unix.AT_SYMLINK_NOFOLLOW) == nil {
			entries = append(entries, Entry{one.Name(), info{one.Name(), about}})
		}
	}
	sort.Slice(entries, func(i, j int) bool { return entries[i].Name < entries[j].Name })
	return entries, nil
}

// Read returns a part of a file, and the size of the whole.
func (r Root) Read(box, path string, offset, length int64) (data []byte, size int64, err error) {
	file, err := r.Open(box, path)
	if err != nil {
		return nil, 0, err
	}
	defer file.Close()
	about, err := file.Stat()
	if err != nil {
		return nil, 0, err
	}
	if about.IsDir() {
		return nil, 0, ErrFolder
	}
	size = about.Size()
	if rest := size - offset; length > rest {
		length = rest
	}
	if length <= 0 {
		return nil, size, nil
	}
	data = make([]byte, length)
	n, err := file.ReadAt(data, offset)
	if n > 0 { // it may have become shorter
		err = nil
	}
	return data[:n], size, err
}
