// Tests of the settings and their senders. Outside the proof.

package audit

import (
	"fmt"
	"os"
	"path/filepath"
	"strings"
	"testing"
)

func applied(s *Settings, message int64, name string, pairs ...string) {
	var lines, replies [][]byte
	for k := 0; k < len(pairs); k += 2 {
		lines, replies = append(lines, []byte(pairs[k])), append(replies, []byte(pairs[k+1]+"\n"))
	}
	s.Apply(&Record{Message: message, Line: 10 * message, Name: name}, lines, replies)
}

func TestSettings(t *testing.T) {
	path := filepath.Join(t.TempDir(), "settings")
	s, isNew, err := OpenSettings(path)
	if err != nil || !isNew {
		t.Fatal(isNew, err)
	}
	applied(s, 1, "ops", `{"event":"set_limit","role":"eng","limit":"cpus:1"}`, ok, `{"event":"set_limit","role":"web","limit":"cpus:2"}`, ok)
	applied(s, 2, "bob", `{"event":"set_limit","role":"eng","limit":"x"}`, `{"name":"BadText","refused":33}`, `{"event":"set_weight","role":"eng","weight":"2"}`, ok)
	applied(s, 3, "ops", `{"event":"cycle"}`, `{"offers":[]}`, `x`, `{"name":"NotJson","refused":31}`)
	applied(s, 4, "eve", `{"event":"deactivate_agent","agent":"n1"}`, ok, `{"event":"reserve","agent":"n1","role":"eng","resources":"cpus:1"}`, ok)
	applied(s, 5, "ops", `{"event":"set_limit","role":"eng","limit":""}`, ok, `{"event":"activate_agent","agent":"n1"}`, ok)
	applied(s, 1, "ops", `{"event":"set_limit","role":"eng","limit":"cpus:1"}`, ok) // it comes again after a restart
	check := func(what string, s *Settings) {
		t.Helper()
		for _, c := range []struct {
			event  string
			fields map[string]string
			want   string
		}{
			{"set_limit", map[string]string{"role": "eng"}, "ops 5 50"},
			{"set_limit", nil, "ops 5 50; ops 1 11"},
			{"", map[string]string{"role": "eng"}, "ops 5 50; eve 4 41; bob 2 21"},
			{"", map[string]string{"agent": "n1"}, "ops 5 51; eve 4 41"},
			{"deactivate_agent", nil, ""},
			{"", map[string]string{"role": "none"}, ""},
		} {
			var found []string
			for _, one := range s.Find(c.event, c.fields, 10) {
				found = append(found, fmt.Sprint(one.Name, " ", one.Message, " ", one.Line))
			}
			if got := strings.Join(found, "; "); got != c.want {
				t.Errorf("%s: %s %v: %q, want %q", what, c.event, c.fields, got, c.want)
			}
		}
	}
	check("applied", s)
	if len(s.Find("", nil, 2)) != 2 {
		t.Error("the limit does not hold")
	}
	if err := s.Save(); err != nil {
		t.Fatal(err)
	}
	again, isNew, err := OpenSettings(path)
	if err != nil || isNew {
		t.Fatal(isNew, err)
	}
	check("saved", again)
	other := &Settings{byName: map[string]Setting{}}
	applied(other, 3, "old", `{"event":"set_limit","role":"eng","limit":"cpus:7"}`, ok)
	if err := other.Merge(s.Encode()); err != nil {
		t.Fatal(err)
	}
	check("merged", other)
	if other.DropAfter(4); len(other.Find("set_limit", nil, 10)) != 1 {
		t.Error("a setting stays that the list does not have")
	}
	if err := os.WriteFile(path, []byte("{"), 0o600); err != nil {
		t.Fatal(err)
	}
	if s, isNew, err := OpenSettings(path); err == nil || !strings.Contains(err.Error(), path) || !isNew || len(s.Find("", nil, 10)) != 0 {
		t.Error(isNew, err)
	}
}

// The number of settings is limited: the oldest are dropped.
func TestSettingsAreBounded(t *testing.T) {
	s := &Settings{byName: map[string]Setting{}}
	for n := int64(1); n <= 2*maxSettings; n++ {
		applied(s, n, "ops", fmt.Sprintf(`{"event":"set_weight","role":"r%d","weight":"2"}`, n), ok)
	}
	if found := s.Find("", nil, 10*maxSettings); len(found) > maxSettings || len(found) < maxSettings/2 || found[0].Message != 2*maxSettings {
		t.Error(len(found))
	}
	long := `{"event":"set_limit","role":"r","limit":"` + strings.Repeat("ä", 5000) + `"}`
	if applied(s, 3*maxSettings, "ops", long, ok); len(s.Find("set_limit", map[string]string{"role": "r"}, 1)[0].Text) > maxText+2 {
		t.Error("a long line is kept whole")
	}
}
