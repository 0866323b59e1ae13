// Who made each current setting of the cluster. This is kept as long as the setting exists, even after its message is pruned. Outside the proof.

package audit

import (
	"encoding/json"
	"errors"
	"fmt"
	"os"
	"sort"
	"strings"
	"sync"

	"gateway/internal/disk"
	"gateway/internal/registry"
)

// Setting is the last accepted event about a limit, a weight, a reservation, an agent or a framework.
type Setting struct {
	Message int64  `json:"message"`
	At      int64  `json:"at"`
	Name    string `json:"name,omitempty"` // who sent it, as in a Record
	Address string `json:"address,omitempty"`
	Cause   string `json:"cause,omitempty"`
	Line    int64  `json:"line"` // its number
	Event   string `json:"event"`
	Text    string `json:"text"` // of the line
}

// about says what an event sets: the kind of the setting, and the fields that identify it.
type about struct {
	kind   string
	fields []string
}

var abouts = map[string]about{
	"set_limit": {"limit", []string{"role"}}, "set_weight": {"weight", []string{"role"}},
	"reserve": {"reservation", []string{"agent", "role"}}, "unreserve": {"reservation", []string{"agent", "role"}},
	"activate_agent": {"active", []string{"agent"}}, "deactivate_agent": {"active", []string{"agent"}},
	"add_agent": {"agent", []string{"agent"}}, "set_agent": {"agent", []string{"agent"}}, "remove_agent": {"agent", []string{"agent"}},
	"add_framework": {"framework", []string{"framework"}}, "set_framework": {"framework", []string{"framework"}}, "remove_framework": {"framework", []string{"framework"}},
}

const (
	maxSettings = 16_384
	maxText     = 2_000 // bytes of a line that are kept
)

// Settings is the current settings. They are stored in a file of the gateway, and in etcd for gateways that have no file.
type Settings struct {
	path string

	mu      sync.Mutex
	byName  map[string]Setting
	isDirty bool
}

// OpenSettings returns the settings in a file, or none where there is no file. The error is of a file that is damaged.
func OpenSettings(path string) (s *Settings, isNew bool, err error) {
	s = &Settings{path: path, byName: map[string]Setting{}}
	text, err := os.ReadFile(path)
	if errors.Is(err, os.ErrNotExist) {
		return s, true, nil
	}
	if err == nil {
		err = s.Merge(text)
	}
	if err != nil {
		return &Settings{path: path, byName: map[string]Setting{}}, true, fmt.Errorf("%s: %w", path, err)
	}
	return s, false, nil
}

// Apply takes the lines of a message and their replies.
func (s *Settings) Apply(r *Record, lines, replies [][]byte) {
	for k, line := range lines {
		kind := registry.Kind(line)
		what, is := abouts[kind]
		if !is || registry.AnswerOf(replies[k]) != "ok" {
			continue
		}
		name := what.kind
		for _, field := range what.fields {
			name += "\x00" + registry.TextOf(line, field)
		}
		text := string(line)
		if len(text) > maxText {
			text = strings.ToValidUTF8(text[:maxText], "") + ".."
		}
		s.put(name, Setting{r.Message, r.At, r.Name, r.Address, r.Cause, r.Line + int64(k), kind, text})
	}
}

// put keeps a setting, unless a later one is known.
func (s *Settings) put(name string, new Setting) {
	s.mu.Lock()
	defer s.mu.Unlock()
	old, is := s.byName[name]
	if is && (old.Message > new.Message || old.Message == new.Message && old.Line >= new.Line) {
		return
	}
	s.byName[name], s.isDirty = new, true
	if len(s.byName) > maxSettings {
		s.dropOldest()
	}
}

// dropOldest drops a quarter of the settings. The lock is held.
func (s *Settings) dropOldest() {
	numbers := make([]int64, 0, len(s.byName))
	for _, one := range s.byName {
		numbers = append(numbers, one.Line)
	}
	sort.Slice(numbers, func(i, j int) bool { return numbers[i] < numbers[j] })
	for name, one := range s.byName {
		if one.Line < numbers[len(numbers)/4] {
			delete(s.byName, name)
		}
	}
}

// DropAfter drops settings of messages that the list does not have, for example after an old backup was restored.
func (s *Settings) DropAfter(message int64) {
	s.mu.Lock()
	defer s.mu.Unlock()
	for name, one := range s.byName {
		if one.Message > message {
			delete(s.byName, name)
			s.isDirty = true
		}
	}
}

// Encode returns the settings as a text.
func (s *Settings) Encode() []byte {
	s.mu.Lock()
	defer s.mu.Unlock()
	text, _ := json.Marshal(s.byName) // it has texts and numbers alone
	return text
}

// Merge adds the settings of a text that are not known, or later.
func (s *Settings) Merge(text []byte) error {
	var found map[string]Setting
	if err := json.Unmarshal(text, &found); err != nil {
		return err
	}
	for name, one := range found {
		s.put(name, one)
	}
	return nil
}

// Save writes the file if something changed. Changes that are lost in a crash are read again from the list.
func (s *Settings) Save() error {
	s.mu.Lock()
	isDirty := s.isDirty
	s.isDirty = false
	s.mu.Unlock()
	if !isDirty {
		return nil
	}
	err := disk.WriteFile(s.path, s.Encode())
	if err != nil {
		s.mu.Lock()
		s.isDirty = true
		s.mu.Unlock()
	}
	return err
}

// Find returns the settings whose lines have an event and some fields, the newest first, and at most so many. Empty texts do not restrict.
func (s *Settings) Find(event string, fields map[string]string, limit int) []Setting {
	s.mu.Lock()
	found := []Setting{}
	for name, one := range s.byName {
		if (event == "" || one.Event == event) && one.has(name, fields) {
			found = append(found, one)
		}
	}
	s.mu.Unlock()
	sort.Slice(found, func(i, j int) bool { return found[i].Line > found[j].Line })
	if len(found) > limit {
		found = found[:limit]
	}
	return found
}

// has reports whether a setting has some fields: those of its name, or, unless its line was cut, any.
func (one *Setting) has(name string, fields map[string]string) bool {
	if len(fields) == 0 {
		return true
	}
	object, values := map[string]json.RawMessage(nil), strings.Split(name, "\x00")[1:]
	for field, want := range fields {
		is := false
		for k, known := range abouts[one.Event].fields {
			is = is || known == field && k < len(values) && values[k] == want
		}
		if object == nil && !is {
			object = registry.Fields([]byte(one.Text))
		}
		if !is && !hasText(object[field], want) {
			return false
		}
	}
	return true
}
