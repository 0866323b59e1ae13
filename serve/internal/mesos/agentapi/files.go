// Files in sandboxes. Paths are those that `/state` shows as directories, or Mesos' virtual ones. Outside the proof.

package agentapi

import (
	"errors"
	"io/fs"
	"net/http"
	"os"
	"os/user"
	"path"
	"path/filepath"
	"strconv"
	"strings"
	"syscall"

	"golang.org/x/sys/unix"

	"gateway/internal/mesos/codec"
	"gateway/internal/sandbox"
)

// maxRead is the largest part of a file in one answer, as in Mesos.
var maxRead = 16 * os.Getpagesize()

// locate splits a path into a sandbox, below the work folder, and a path within it.
func (s *Server) locate(name string) (box, inside string, err error) {
	clean := path.Clean("/" + name)
	if rest := strings.TrimPrefix(clean, filepath.Clean(s.agent.Folder())+"/"); rest != clean {
		parts := strings.SplitN(rest, "/", 4) // KIND/KEY/sandbox/..
		if len(parts) >= 3 && (parts[0] == "tasks" || parts[0] == "executors") && parts[2] == "sandbox" {
			return strings.Join(parts[:3], "/"), strings.Join(parts[3:], "/"), nil
		}
		return "", "", notFound(name)
	}
	parts := strings.Split(strings.TrimPrefix(clean, "/"), "/") // frameworks/ID/executors/ID/runs/latest/.., and in a group tasks/ID/..
	if len(parts) < 6 || parts[0] != "frameworks" || parts[2] != "executors" || parts[4] != "runs" {
		return "", "", notFound(name)
	}
	for _, one := range s.view().boxes { // the latest is the last
		switch isRun := parts[5] == "latest" || parts[5] == one.key; {
		case one.framework != parts[1]:
		case one.executor == parts[3] && isRun:
			box, inside = one.path, strings.Join(parts[6:], "/")
		case one.group == parts[3] && len(parts) >= 8 && parts[6] == "tasks" && one.executor == parts[7]:
			box, inside = one.path, strings.Join(parts[8:], "/")
		}
	}
	if box == "" {
		return "", "", notFound(name)
	}
	return box, inside, nil
}

func notFound(name string) error {
	return refuse(http.StatusNotFound, "Requested path '%s' is not found: expected a path in a sandbox", name)
}

// fileError returns the answer to an error of a file.
func fileError(name string, err error) error {
	switch {
	case errors.Is(err, fs.ErrNotExist), errors.Is(err, syscall.ENOTDIR), errors.Is(err, syscall.EINVAL), errors.Is(err, syscall.ENAMETOOLONG),
		errors.Is(err, sandbox.ErrOutside): // which tells nothing of what is outside
		return notFound(name)
	case errors.Is(err, sandbox.ErrFolder):
		return refuse(http.StatusBadRequest, "Cannot read a directory.")
	case errors.Is(err, sandbox.ErrSpecial):
		return refuse(http.StatusBadRequest, "'%s' is neither a file nor a directory", name)
	case errors.Is(err, fs.ErrPermission):
		return refuse(http.StatusForbidden, "the agent may not read '%s'", name)
	}
	return refuse(http.StatusInternalServerError, "'%s': %v", name, err)
}

func (s *Server) list(name string) (box, inside string, entries []sandbox.Entry, err error) {
	if box, inside, err = s.locate(name); err != nil {
		return "", "", nil, err
	}
	if entries, err = s.files.List(box, inside); err != nil {
		return "", "", nil, fileError(name, err)
	}
	return box, inside, entries, nil
}

func (s *Server) listFiles(m codec.Message, name string) (codec.Message, error) {
	box, inside, entries, err := s.list(name)
	if err != nil {
		return m, err
	}
	list := codec.New("mesos.agent.Response.ListFiles")
	for _, e := range entries {
		about := e.Info.Sys().(*unix.Stat_t)
		list.Add("file_infos", codec.New("mesos.FileInfo").Set("path", s.pathOf(box, inside, e.Name)).Set("nlink", int64(about.Nlink)).Set("size", about.Size).
			Set("mtime.nanoseconds", e.Info.ModTime().UnixNano()).Set("mode", int64(about.Mode)).Set("uid", userName(about.Uid)).Set("gid", groupName(about.Gid)))
	}
	return m.Set("list_files", list), nil
}

func (s *Server) pathOf(box, inside, name string) string {
	return filepath.Join(s.agent.Folder(), box, inside, name)
}

func userName(id uint32) string {
	text := strconv.FormatUint(uint64(id), 10)
	if found, err := user.LookupId(text); err == nil {
		return found.Username
	}
	return text
}

func groupName(id uint32) string {
	text := strconv.FormatUint(uint64(id), 10)
	if found, err := user.LookupGroupId(text); err == nil {
		return found.Name
	}
	return text
}

// browse answers `/files/browse`.
func (s *Server) browse(w http.ResponseWriter, r *http.Request) error {
	name := r.URL.Query().Get("path")
	if name == "" {
		return refuse(http.StatusBadRequest, "Expecting 'path=value' in query.")
	}
	box, inside, entries, err := s.list(name)
	if err != nil {
		return err
	}
	list := []object{}
	for _, e := range entries {
		about := e.Info.Sys().(*unix.Stat_t)
		list = append(list, object{"path": s.pathOf(box, inside, e.Name), "nlink": about.Nlink, "size": about.Size, "mtime": float64(e.Info.ModTime().Unix()), "mode": modeText(e.Info.Mode()),
			"uid": userName(about.Uid), "gid": groupName(about.Gid)})
	}
	return sendJSON(w, list)
}

// modeText writes a mode as `ls -l` does.
func modeText(mode fs.FileMode) string {
	kind := "-"
	for bit, letter := range map[fs.FileMode]string{fs.ModeDir: "d", fs.ModeSymlink: "l", fs.ModeNamedPipe: "p", fs.ModeSocket: "s"} {
		if mode&bit != 0 {
			kind = letter
		}
	}
	switch {
	case mode&fs.ModeCharDevice != 0:
		kind = "c"
	case mode&fs.ModeDevice != 0:
		kind = "b"
	}
	return kind + mode.Perm().String()[1:]
}

func (s *Server) readFile(name string, offset, length int64) ([]byte, int64, error) {
	box, inside, err := s.locate(name)
	if err != nil {
		return nil, 0, err
	}
	if length > int64(maxRead) {
		length = int64(maxRead)
	}
	data, size, err := s.files.Read(box, inside, offset, length)
	if err != nil {
		return nil, 0, fileError(name, err)
	}
	return data, size, nil
}

// read answers `/files/read`. With the offset -1 it returns the size, as by Mesos.
func (s *Server) read(w http.ResponseWriter, r *http.Request) error {
	q := r.URL.Query()
	name := q.Get("path")
	if name == "" {
		return refuse(http.StatusBadRequest, "Expecting 'path=value' in query.")
	}
	offset, err := numberOf(q.Get("offset"), "offset")
	if err != nil {
		return err
	}
	length, err := numberOf(q.Get("length"), "length")
	if err != nil {
		return err
	}
	if length == -1 {
		length = int64(maxRead)
	}
	if offset == -1 {
		_, size, err := s.readFile(name, 0, 0)
		if err != nil {
			return err
		}
		return sendJSON(w, object{"data": "", "offset": size})
	}
	data, _, err := s.readFile(name, offset, length)
	if err != nil {
		return err
	}
	return sendJSON(w, object{"data": string(data), "offset": offset})
}

// numberOf reads a number that is at least -1. Without a number it returns -1.
func numberOf(text, what string) (int64, error) {
	if text == "" {
		return -1, nil
	}
	number, err := strconv.ParseInt(text, 10, 64)
	if err != nil {
		return 0, refuse(http.StatusBadRequest, "Failed to parse %s: '%s' is no number.", what, text)
	}
	if number < -1 {
		return 0, refuse(http.StatusBadRequest, "Negative %s provided: %d.", what, number)
	}
	return number, nil
}
