// Information about a file. Outside the proof.

package sandbox

import (
	"io/fs"
	"time"

	"golang.org/x/sys/unix"
)

// info is a fs.FileInfo of a file that was looked up by its folder.
type info struct {
	name  string
	about unix.Stat_t
}

func (i info) Name() string       { return i.name }
func (i info) Size() int64        { return i.about.Size }
func (i info) ModTime() time.Time { return time.Unix(i.about.Mtim.Unix()) }
func (i info) IsDir() bool        { return i.Mode().IsDir() }
func (i info) Sys() interface{}   { return &i.about }

func (i info) Mode() fs.FileMode {
	mode := fs.FileMode(i.about.Mode & 0o777)
	switch i.about.Mode & unix.S_IFMT {
	case unix.S_IFDIR:
		mode |= fs.ModeDir
	case unix.S_IFLNK:
		mode |= fs.ModeSymlink
	case unix.S_IFIFO:
		mode |= fs.ModeNamedPipe
	case unix.S_IFSOCK:
		mode |= fs.ModeSocket
	case unix.S_IFBLK:
		mode |= fs.ModeDevice
	case unix.S_IFCHR:
		mode |= fs.ModeDevice | fs.ModeCharDevice
	}
	return mode
}
