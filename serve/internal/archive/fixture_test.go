// A list in memory and an archive of it, for tests. Outside the proof.

package archive

import (
	"context"
	"errors"
	"fmt"
	"os"
	"path/filepath"
	"strings"
	"testing"
	"time"

	"gateway/internal/audit"
)

// memory is a list in memory: each message has one event, and some are snapshots.
type memory struct {
	journal []byte
	records []audit.Record
	pruned  int64 // messages
	ready   bool
	lines   int64
}

// add appends a message of some bytes, or a snapshot if there is a cause.
func (m *memory) add(at int64, cause string) {
	r := audit.Record{Message: int64(len(m.records) + 1), At: at, Name: "ops", Line: m.lines + 1, Byte: int64(len(m.journal)), Events: map[string]int{}}
	if cause != "" {
		r.Name, r.Cause = "", cause
	} else {
		m.journal = append(m.journal, fmt.Sprintf("{\"event\":\"set_limit\",\"role\":\"r%d\"}\n{\"ok\":true}\n", r.Message)...)
		r.Lines, r.Events["set_limit"] = 1, 1
		m.lines++
	}
	r.Bytes = int64(len(m.journal)) - r.Byte
	m.records = append(m.records, r)
}

func (m *memory) ReadAt(text []byte, at int64) (int, error) {
	if m.pruned > 0 && at < m.records[m.pruned-1].Byte+m.records[m.pruned-1].Bytes || at+int64(len(text)) > int64(len(m.journal)) {
		return 0, fmt.Errorf("byte %d is %w", at, audit.ErrNotKept)
	}
	return copy(text, m.journal[at:]), nil
}

func (m *memory) Records(after int64, max int) ([]audit.Record, error) {
	if after < m.pruned {
		after = m.pruned
	}
	if after >= int64(len(m.records)) {
		return nil, nil
	}
	records := m.records[after:]
	if len(records) > max {
		records = records[:max]
	}
	return records, nil
}

func (m *memory) State(_ context.Context, message int64) ([]byte, error) {
	if r := m.records[message-1]; r.Cause == "state" || r.Cause == "epoch" {
		return []byte(fmt.Sprintf("state after %d\n", message)), nil
	}
	return nil, nil
}

func (m *memory) Last() (int64, bool) { return int64(len(m.records)), m.ready }

// fixture is an archive of a list.
type fixture struct {
	*testing.T
	config Config
	source *memory
	now    time.Time
	a      *Archiver
}

func newFixture(t *testing.T) *fixture {
	f := &fixture{T: t, source: &memory{ready: true}, now: time.UnixMilli(1_000_000),
		config: Config{Folder: filepath.Join(t.TempDir(), "archive"), Data: t.TempDir(), Bytes: 1 << 20, Every: time.Hour}}
	f.restart()
	return f
}

// restart starts again as after a crash: only the contents of the folders are known.
func (f *fixture) restart() {
	if f.a != nil && f.a.unlock != nil {
		f.a.unlock()
	}
	f.a = New(f.config)
	f.a.SetSource(f.source)
	f.a.now = func() time.Time { return f.now }
}

func (f *fixture) step() {
	f.Helper()
	if err := f.a.step(context.Background()); err != nil {
		f.Fatal(err)
	}
}

// fails checks that nothing is archived, for this reason.
func (f *fixture) fails(reason string) {
	f.Helper()
	if err := f.a.step(context.Background()); err == nil || !strings.Contains(err.Error(), reason) {
		f.Errorf("%v, want %q", err, reason)
	}
}

// fill appends messages, and a snapshot after every ten.
func (f *fixture) fill(count int) {
	for n := 0; n < count; n++ {
		cause := ""
		if len(f.source.records)%10 == 9 {
			cause = "state"
		}
		f.source.add(f.now.UnixMilli(), cause)
	}
}

// verify checks the archive, and that its journal is the list's from a message on.
func (f *fixture) verify() Report {
	f.Helper()
	var journal []byte
	r, err := Verify(f.config.Folder, func(s *Segment) error {
		journal = append(journal, s.JournalText...)
		return nil
	})
	if err != nil {
		f.Fatal(err)
	}
	if len(r.Gaps) == 0 && string(journal) != string(f.source.journal[r.From.Bytes:r.To.Bytes]) {
		f.Error("the archive has another journal")
	}
	return r
}

func (f *fixture) names() string {
	numbers, err := list(f.config.Folder)
	if err != nil {
		f.Fatal(err)
	}
	return fmt.Sprint(numbers)
}

// damage returns the damage that is found.
func (f *fixture) damage() *DamageError {
	_, err := Verify(f.config.Folder, func(*Segment) error { return nil })
	damage := (*DamageError)(nil)
	if err != nil && !errors.As(err, &damage) {
		f.Fatalf("%v is no damage", err)
	}
	return damage
}

func (f *fixture) read(number int) []byte {
	text, err := os.ReadFile(filepath.Join(f.config.Folder, Name(number)))
	if err != nil {
		f.Fatal(err)
	}
	return text
}

func (f *fixture) put(number int, text []byte) {
	if err := os.WriteFile(filepath.Join(f.config.Folder, Name(number)), text, 0o600); err != nil {
		f.Fatal(err)
	}
}
