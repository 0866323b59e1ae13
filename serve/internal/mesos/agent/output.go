// Output of processes: files in the sandbox that are rotated by their size. Outside the proof.

package agent

import (
	"fmt"
	"io"
	"os"
	"path/filepath"
	"sync"
	"time"
)

// output writes the output of a pipe to a file. When the file would become too large, it is renamed to NAME.1, which becomes NAME.2, and so on.
type output struct {
	process *process
	path    string
	file    *os.File
	size    int64
}

// outputs are the pipes of a process.
type outputs struct {
	writers []*os.File
	done    sync.WaitGroup
}

// pipes gives a command its stdout and stderr.
func (p *process) pipes(sandbox string, stdout, stderr *io.Writer) (*outputs, error) {
	all := &outputs{}
	for name, to := range map[string]*io.Writer{"stdout": stdout, "stderr": stderr} {
		path := filepath.Join(sandbox, name)
		file, err := p.openOutput(path)
		if err != nil {
			return nil, err
		}
		if p.OutputBytes <= 0 {
			*to = file
			continue
		}
		about, err := file.Stat()
		if err != nil {
			return nil, err
		}
		reader, writer, err := os.Pipe()
		if err != nil {
			return nil, err
		}
		*to = writer
		all.writers = append(all.writers, writer)
		all.done.Add(1)
		go func(o *output) {
			defer all.done.Done()
			io.Copy(o, reader)
			o.file.Close()
		}(&output{process: p, path: path, file: file, size: about.Size()})
	}
	return all, nil
}

// end waits until all is written, when no process has the pipes any more.
func (all *outputs) end() {
	for _, one := range all.writers {
		one.Close()
	}
	done := make(chan struct{})
	go func() {
		all.done.Wait()
		close(done)
	}()
	select {
	case <-done:
	case <-time.After(5 * time.Second):
	}
}

// Write never fails, so that a full disk does not stop a task. Output that cannot be written is lost.
func (o *output) Write(text []byte) (int, error) {
	if o.size > 0 && o.size+int64(len(text)) > o.process.OutputBytes {
		o.rotate()
	}
	n, _ := o.file.Write(text)
	o.size += int64(n)
	return len(text), nil
}

// rotate begins a new file. If the old file cannot be renamed, its content is lost.
func (o *output) rotate() {
	name := func(k int) string {
		if k == 0 {
			return o.path
		}
		return fmt.Sprintf("%s.%d", o.path, k)
	}
	for k := o.process.OutputFiles; k > 0; k-- {
		os.Rename(name(k-1), name(k))
	}
	file, err := o.process.openOutput(o.path)
	if err == nil {
		o.file.Close()
		o.file = file
	}
	if about, bad := o.file.Stat(); err != nil || bad != nil || about.Size() > 0 {
		o.file.Truncate(0)
	}
	o.size = 0
}
