// Tests of the commands for tokens. Outside the proof.

package main

import (
	"bytes"
	"os"
	"path/filepath"
	"strings"
	"testing"
)

func TestTokenCommands(t *testing.T) {
	path := filepath.Join(t.TempDir(), "tokens.json")
	call := func(arguments ...string) (string, string, error) {
		var out, notes bytes.Buffer
		err := tokenCommand(arguments, &out, &notes)
		return out.String(), notes.String(), err
	}
	secrets := map[string]string{}
	for _, c := range [][]string{
		{"add", path, "ops", "operate", "clock"},
		{"add", "-expires", "2099-12-31", path, "web", "framework:web"},
		{path, "old", "read"}, // the form before there were names of commands
	} {
		out, _, err := call(c...)
		if err != nil || len(out) != 49 {
			t.Fatalf("%v: %q %v", c, out, err)
		}
		secrets[c[len(c)-2]] = strings.TrimSpace(out)
	}
	list, _, err := call("list", path)
	want := "NAME  RIGHTS         EXPIRES\nops   operate clock  never\nweb   framework:web  2100-01-01T00:00:00Z\nold   read           never\n"
	if err != nil || list != want {
		t.Errorf("%s\n%v", list, err)
	}
	text, _ := os.ReadFile(path)
	for name, secret := range secrets {
		if strings.Contains(string(text), secret) {
			t.Errorf("the file has the secret of %s", name)
		}
	}
	if _, notes, err := call("revoke", path, "web"); err != nil || !strings.Contains(notes, `"web" is removed from `+path) || !strings.Contains(notes, "SIGHUP") {
		t.Errorf("%q %v", notes, err)
	}
	if list, _, _ := call("list", path); strings.Contains(list, "web") {
		t.Error(list)
	}
	for problem, c := range map[string][]string{
		"usage":               {},
		"usage:":              {"add", path, "x"},
		"-later":              {"add", "-later", path, "x", "read"},
		`-expires "x"`:        {"add", "-expires", "x", path, "x", "read"},
		"has passed":          {"add", "-expires", "2001-01-01", path, "x", "read"},
		"already in use":      {"add", path, "ops", "read"},
		`unknown right "y"`:   {"add", path, "x", "y"},
		"has this name":       {"revoke", path, "nobody"},
		"gateway token list":  {"list"},
		"no such file":        {"list", path + ".none"},
		"gateway token revok": {"revoke", path},
	} {
		if out, _, err := call(c...); err == nil || !strings.Contains(err.Error(), problem) || out != "" {
			t.Errorf("%v: %q %v", c, out, err)
		}
	}
}
