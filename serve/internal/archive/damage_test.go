// Tests of damage, and of wrong replies. Outside the proof.

package archive

import (
	"context"
	"errors"
	"fmt"
	"os"
	"path/filepath"
	"strings"
	"testing"
	"time"

	"gateway/internal/audit"
)

// A flipped bit in any byte is found, and attributed to the right segment.
func TestFlippedBytes(t *testing.T) {
	f := newFixture(t)
	f.fill(30)
	f.step()
	for number := 1; number <= 3; number++ {
		right := f.read(number)
		body := int64(strings.IndexByte(string(right), '\n') + 1)
		file, err := os.OpenFile(filepath.Join(f.config.Folder, Name(number)), os.O_WRONLY, 0)
		if err != nil {
			t.Fatal(err)
		}
		put := func(at int, b byte) {
			if _, err := file.WriteAt([]byte{b}, int64(at)); err != nil {
				t.Fatal(err)
			}
		}
		for at := range right {
			flipped := append([]byte(nil), right...)
			flipped[at] ^= 1 << (at % 8)
			damage := (*DamageError)(nil)
			if _, err := decode(Name(number), flipped); !errors.As(err, &damage) {
				t.Fatalf("segment %d, byte %d: %v", number, at, err)
			}
			if at%10 != 0 { // the folder is verified for some: that takes longer
				continue
			}
			put(at, flipped[at])
			damage = f.damage()
			if damage == nil || damage.Name != Name(number) {
				t.Fatalf("segment %d, byte %d: %v", number, at, damage)
			}
			if isInBody := int64(at) >= body && at < len(right)-len(trailer(nil)); isInBody && damage.Offset != body {
				t.Fatalf("segment %d, byte %d: damage at %d, and the body begins at %d", number, at, damage.Offset, body)
			}
			put(at, right[at])
		}
		file.Close()
	}
	f.verify()
}

// The offset of damage in a long segment is near it.
func TestOffsetOfDamage(t *testing.T) {
	f := newFixture(t)
	f.config.Bytes = 4 << 20
	f.restart()
	for n := 0; n < 4000; n++ {
		f.source.add(f.now.UnixMilli(), "")
	}
	f.now = f.now.Add(time.Hour)
	f.step()
	text := f.read(1)
	at := len(text) / 2
	text[at] ^= 1
	f.put(1, text)
	if damage := f.damage(); damage == nil || damage.Offset > int64(at) || damage.Offset < int64(at-chunkSize) {
		t.Error(at, damage)
	}
}

func TestOtherDamage(t *testing.T) {
	for what, c := range map[string]struct {
		damage func(f *fixture)
		name   int
		reason string
	}{
		"cut":                {func(f *fixture) { f.put(2, f.read(2)[:len(f.read(2))-100]) }, 2, "bytes"},
		"empty":              {func(f *fixture) { f.put(2, nil) }, 2, "header"},
		"longer":             {func(f *fixture) { f.put(2, append(f.read(2), 'x')) }, 2, "bytes"},
		"exchanged":          {func(f *fixture) { one, other := f.read(2), f.read(3); f.put(2, other); f.put(3, one) }, 2, "renamed"},
		"copied":             {func(f *fixture) { f.put(3, f.read(2)) }, 3, "renamed"},
		"the first removed":  {func(f *fixture) { os.Remove(filepath.Join(f.config.Folder, Name(1))) }, 1, "missing"},
		"one removed":        {func(f *fixture) { os.Remove(filepath.Join(f.config.Folder, Name(3))) }, 3, "missing"},
		"made anew":          {func(f *fixture) { s, _ := read(f.config.Folder, 2); s.StateText = nil; f.put(2, s.encode()) }, 3, "follows"},
		"records taken away": {func(f *fixture) { s, _ := read(f.config.Folder, 4); s.AuditText = nil; f.put(4, s.encode()) }, 4, "do not belong"},
		"an event added": {func(f *fixture) {
			s, _ := read(f.config.Folder, 4)
			s.JournalText = append(s.JournalText[:len(s.JournalText)-1], "\n\n\n"...)
			f.put(4, s.encode())
		}, 4, "do not belong"},
	} {
		f := newFixture(t)
		f.fill(40)
		f.step()
		c.damage(f)
		if damage := f.damage(); damage == nil || damage.Name != Name(c.name) || !strings.Contains(damage.Reason, c.reason) {
			t.Errorf("%s: %v", what, damage)
		}
	}
	f := newFixture(t)
	f.fill(40)
	f.step()
	os.Remove(filepath.Join(f.config.Folder, Name(4)))
	f.restart()
	f.fails("lost segments: the last one is 3, and segment 4") // the gateway knows what it wrote
	f.put(4, []byte("x"))
	f.restart()
	f.fails("cannot be continued: 00000004.segment is damaged at byte 0")
	if err := os.Rename(f.config.Folder, f.config.Folder+".old"); err != nil {
		t.Fatal(err)
	}
	f.fill(20)
	f.source.pruned = 30
	f.step() // a new folder continues the chain
	if r := f.verify(); f.names() != "[5 6 7]" || r.From.Messages != 30 || r.To.Messages != 60 {
		t.Error(f.names(), r)
	}
}

// Replies are checked by the allocator itself, so a changed reply is found even if the chain of hashes was rebuilt after the change.
func TestReplies(t *testing.T) {
	program := os.Getenv("DRF")
	if program == "" {
		t.Skip("DRF is not set to the allocator's program")
	}
	f := newFixture(t)
	f.config.Bytes = 100
	f.restart()
	for n := 0; n < 8; n++ {
		r := audit.Record{Message: int64(n + 1), Name: "ops", Line: int64(n + 1), Lines: 1, Byte: int64(len(f.source.journal))}
		f.source.journal = append(f.source.journal, fmt.Sprintf("{\"event\":\"set_limit\",\"role\":\"r%d\",\"limit\":\"cpus:1\"}\n{\"ok\":true}\n", n)...)
		r.Bytes = int64(len(f.source.journal)) - r.Byte
		f.source.records = append(f.source.records, r)
	}
	f.step()
	check := func() (*Replies, error) {
		replies := NewReplies(program, t.TempDir())
		for number := 1; number < 100; number++ {
			s, err := read(f.config.Folder, number)
			if errors.Is(err, os.ErrNotExist) {
				break
			}
			if err == nil {
				err = replies.Add(context.Background(), s)
			}
			if err != nil {
				t.Fatal(err)
			}
		}
		return replies, replies.End()
	}
	if replies, err := check(); err != nil || replies.Checked < 7 || replies.Unchecked != 0 {
		t.Errorf("%+v %v", replies, err)
	}
	s, _ := read(f.config.Folder, 5)
	s.JournalText = []byte(strings.Replace(string(s.JournalText), `{"ok":true}`, `{"no":true}`, 1))
	f.put(5, s.encode())
	damage := (*DamageError)(nil)
	if _, err := check(); !errors.As(err, &damage) || damage.Name != Name(5) || damage.Reason != fmt.Sprintf("the reply to event line %d is not what drf replies", s.From.Lines+1) {
		t.Error(err)
	}
	for number := 1; number <= 5; number++ {
		os.Remove(filepath.Join(f.config.Folder, Name(number)))
	}
	replies := NewReplies(program, t.TempDir())
	if s, err := read(f.config.Folder, 6); err != nil || replies.Add(context.Background(), s) != nil || replies.End() != nil || replies.Checked != 0 || replies.Unchecked != s.To.Messages-s.From.Messages {
		t.Errorf("%+v", replies)
	}
}
