// Fetching of a command's URIs into the sandbox. Outside the proof.

package agent

import (
	"context"
	"fmt"
	"io"
	"net/http"
	"net/url"
	"os"
	"os/exec"
	"path"
	"path/filepath"
	"strings"
	"time"

	"gateway/internal/mesos/codec"
)

// fetchTime is how long one URI may take.
const fetchTime = 10 * time.Minute

// extractors are the commands that extract an archive in the current folder, by the ends of its name.
var extractors = []struct {
	ends    []string
	command []string
}{
	{[]string{".tar", ".tgz", ".tar.gz", ".tbz2", ".tar.bz2", ".txz", ".tar.xz"}, []string{"tar", "-xf"}},
	{[]string{".zip"}, []string{"unzip", "-o", "-q"}},
	{[]string{".gz"}, []string{"gzip", "-dkf"}},
}

// fetch fetches all URIs of a command, until the context ends.
func fetch(ctx context.Context, sandbox string, command codec.Message) error {
	for _, one := range command.List("uris") {
		if err := fetchOne(ctx, sandbox, one); err != nil {
			return fmt.Errorf("Failed to fetch '%s': %w", one.Text("value"), err)
		}
	}
	return nil
}

func fetchOne(ctx context.Context, sandbox string, one codec.Message) error {
	ctx, cancel := context.WithTimeout(ctx, fetchTime)
	defer cancel()
	from, err := url.Parse(one.Text("value"))
	if err != nil {
		return err
	}
	name := path.Base(from.Path)
	if file := one.Text("output_file"); file != "" {
		name = file
	}
	to := filepath.Join(sandbox, name)
	if name == "." || name == "/" || !strings.HasPrefix(to, sandbox+string(filepath.Separator)) {
		return fmt.Errorf("the file name %q is not in the sandbox", name)
	}
	if err := os.MkdirAll(filepath.Dir(to), 0o755); err != nil {
		return err
	}
	in, err := open(ctx, from)
	if err != nil {
		return err
	}
	defer in.Close()
	mode := os.FileMode(0o644)
	if one.Bool("executable") {
		mode = 0o755
	}
	out, err := os.OpenFile(to, os.O_CREATE|os.O_TRUNC|os.O_WRONLY, mode)
	if err != nil {
		return err
	}
	_, err = io.Copy(out, in)
	if closed := out.Close(); err == nil {
		err = closed
	}
	if err != nil || one.Bool("executable") || !one.Bool("extract") { // which is extracted by default
		return err
	}
	return extract(ctx, sandbox, to)
}

func open(ctx context.Context, from *url.URL) (io.ReadCloser, error) {
	switch from.Scheme {
	case "", "file":
		return os.Open(from.Path)
	case "http", "https":
		request, err := http.NewRequestWithContext(ctx, http.MethodGet, from.String(), nil)
		if err != nil {
			return nil, err
		}
		answer, err := http.DefaultClient.Do(request)
		if err != nil {
			return nil, err
		}
		if answer.StatusCode != http.StatusOK {
			answer.Body.Close()
			return nil, fmt.Errorf("the answer is %s", answer.Status)
		}
		return answer.Body, nil
	}
	return nil, fmt.Errorf("the scheme %q is not supported: expected file, http or https", from.Scheme)
}

// extract extracts an archive beside itself; another file stays as it is.
func extract(ctx context.Context, sandbox, file string) error {
	for _, one := range extractors {
		for _, end := range one.ends {
			if !strings.HasSuffix(file, end) {
				continue
			}
			command := exec.CommandContext(ctx, one.command[0], append(append([]string(nil), one.command[1:]...), file)...)
			command.Dir = sandbox
			if text, err := command.CombinedOutput(); err != nil {
				return fmt.Errorf("%s: %w: %.200s", one.command[0], err, text)
			}
			return nil
		}
	}
	return nil
}
