// Tests of archives: how segments end, disk errors, retention. Outside the proof.

package archive

import (
	"context"
	"errors"
	"fmt"
	"os"
	"path/filepath"
	"strings"
	"syscall"
	"testing"
	"time"

	"gateway/internal/audit"
)

func TestSegmentsEnd(t *testing.T) {
	f := newFixture(t)
	f.fill(25)
	f.step()
	if r := f.verify(); f.names() != "[1 2]" || r.To.Messages != 20 || r.To.Lines != 18 || r.Sha256 != f.a.Status().Sha256 || f.a.Status().Messages != 20 { // at snapshots
		t.Errorf("%+v %s", r, f.names())
	}
	f.now = f.now.Add(time.Hour)
	f.step()
	if r := f.verify(); f.names() != "[1 2 3]" || r.To.Messages != 25 { // by age
		t.Errorf("%+v %s", r, f.names())
	}
	f.config.Bytes = 400
	f.restart()
	f.fill(4)
	f.step()
	if r := f.verify(); f.names() != "[1 2 3 4]" || r.To.Messages != 28 { // by size: each record with its lines has about 160 bytes
		t.Errorf("%+v %s", r, f.names())
	}
	second, _ := read(f.config.Folder, 2)
	third, _ := read(f.config.Folder, 3)
	fourth, _ := read(f.config.Folder, 4)
	if string(second.StateText) != "state after 10\n" || string(third.StateText) != "state after 20\n" || len(fourth.StateText) != 0 || second.Previous == "" || third.Previous != second.Sha256 {
		t.Errorf("%+v", second.Header)
	}
}

// A crash at any point of writing a segment loses nothing, and is no damage.
func TestCrashes(t *testing.T) {
	f := newFixture(t)
	f.fill(15)
	f.step()
	for k, crash := range []func(path string, text []byte) error{
		func(path string, text []byte) error { return os.WriteFile(path+part, text[:len(text)/2], 0o600) },
		func(path string, text []byte) error { return os.WriteFile(path+part, text, 0o600) },
		func(path string, text []byte) error { return os.WriteFile(path, text, 0o600) }, // before the data folder knows it
	} {
		crash := crash
		f.a.write = func(path string, text []byte) error {
			if err := crash(path, text); err != nil {
				t.Fatal(err)
			}
			panic("the power fails")
		}
		f.fill(10)
		func() {
			defer func() { recover() }()
			f.a.step(context.Background())
		}()
		if damage := f.damage(); damage != nil {
			t.Errorf("crash %d: %v", k, damage)
		}
		f.restart()
		f.step()
		if r, want := f.verify(), int64(10*(k+2)); r.To.Messages != want || r.From.Messages != 0 || len(r.Gaps) != 0 {
			t.Errorf("crash %d: %+v", k, r)
		}
		if parts, _ := filepath.Glob(filepath.Join(f.config.Folder, "*"+part)); len(parts) > 0 {
			t.Error(parts)
		}
	}
}

// While nothing can be written, nothing is lost as long as the journal is kept.
func TestFullAndReadOnlyDisks(t *testing.T) {
	for _, problem := range []error{syscall.ENOSPC, syscall.EROFS, syscall.EACCES} {
		f := newFixture(t)
		f.fill(10)
		f.step()
		f.a.write = func(path string, text []byte) error {
			os.WriteFile(path+part, text[:10], 0o600)
			return &os.PathError{Op: "write", Path: path, Err: problem}
		}
		f.fill(35)
		f.fails(problem.Error())
		f.fails(problem.Error())
		if parts, _ := filepath.Glob(filepath.Join(f.config.Folder, "*"+part)); len(parts) > 0 {
			t.Error("what was written in vain takes space:", parts)
		}
		if messages, bytes := f.a.Needed(); messages != 10 || bytes != f.source.records[10].Byte {
			t.Error("needed:", messages, bytes)
		}
		f.a.write = func(path string, text []byte) error { return os.WriteFile(path, text, 0o600) }
		f.step()
		if r := f.verify(); r.To.Messages != 40 || len(r.Gaps) != 0 || f.a.Status().Gaps != 0 {
			t.Errorf("%+v", r)
		}
	}
}

// Messages that were pruned before they could be archived are a gap, which is reported.
func TestGap(t *testing.T) {
	f := newFixture(t)
	f.fill(10)
	f.step()
	f.a.write = func(string, []byte) error { return syscall.ENOSPC }
	f.fill(25)
	f.fails("no space")
	f.source.pruned = 25
	f.a.write = func(path string, text []byte) error { return os.WriteFile(path, text, 0o600) }
	f.fill(15)
	f.step()
	f.step()
	if r := f.verify(); fmt.Sprint(r.Gaps) != "[{10 26}]" || r.To.Messages != 50 || f.a.Status().Gaps != 1 {
		t.Errorf("%+v %+v", r, f.a.Status())
	}
	f.source.pruned = 45 // while it did not run
	f.restart()
	f.fill(10)
	f.step()
	if r := f.verify(); len(r.Gaps) != 1 || r.To.Messages != 60 {
		t.Errorf("%+v", r)
	}
	f.fill(5) // these are read, and pruned before their segment ends
	f.step()
	f.source.pruned = 63
	f.fill(15)
	f.step()
	f.step()
	if r := f.verify(); fmt.Sprint(r.Gaps) != "[{10 26} {60 64}]" || r.To.Messages != 80 || f.a.Status().Gaps != 1 {
		t.Errorf("%+v %+v", r, f.a.Status())
	}
}

// Segments are removed by size and by age, the oldest first, so that the first one that is kept begins with a state.
func TestRetention(t *testing.T) {
	f := newFixture(t)
	f.config.Bytes = 700 // several segments between two snapshots
	f.restart()
	f.fill(60)
	f.step()
	size := f.a.Status().Bytes
	f.config.MaxSize = size / 2
	f.restart()
	f.fill(10)
	f.step()
	r := f.verify()
	first, _ := read(f.config.Folder, r.First)
	if s := f.a.Status(); s.Bytes > size/2 || s.Bytes < size/4 || len(first.StateText) == 0 || r.From.Messages%10 != 0 || r.To.Messages < 65 {
		t.Errorf("%+v %+v", s, r)
	}
	f.config.MaxSize, f.config.MaxAge = 0, 24*time.Hour
	f.restart()
	f.now = f.now.Add(20 * time.Hour)
	f.fill(10)
	f.step()
	if again := f.verify(); again.First != r.First {
		t.Errorf("%+v", again)
	}
	f.now = f.now.Add(10 * time.Hour)
	f.fill(10)
	f.step()
	old := f.verify()
	if first, _ = read(f.config.Folder, old.First); old.From.Messages != 70 || len(first.StateText) == 0 {
		t.Errorf("%+v", old)
	}
	if info, _ := f.a.Status(), f.names(); info.Bytes != f.sizes() {
		t.Errorf("%d bytes of %d", info.Bytes, f.sizes())
	}
}

func (f *fixture) sizes() (sum int64) {
	numbers, _ := list(f.config.Folder)
	for _, number := range numbers {
		sum += int64(len(f.read(number)))
	}
	return sum
}

// Nothing is added to the archive if the list is not the archived one.
func TestAnotherList(t *testing.T) {
	f := newFixture(t)
	f.fill(40)
	f.step()
	whole := f.source
	f.source = &memory{ready: true}
	f.fill(30)
	f.restart()
	f.fails("the archive has 40 messages, and the list has 30: move " + f.config.Folder + " away")
	f.fill(9)
	f.source.add(f.now.UnixMilli()+1, "state")
	f.restart()
	f.fails("message 40 of the list is not the one in the archive")
	f.source = whole
	f.restart()
	f.fill(10)
	f.step()
	if r := f.verify(); r.To.Messages != 50 {
		t.Errorf("%+v", r)
	}
}

func TestTwoArchivers(t *testing.T) {
	f := newFixture(t)
	f.step()
	other := New(f.config)
	other.SetSource(f.source)
	if err := other.step(context.Background()); err == nil || !strings.Contains(err.Error(), "lock") {
		t.Error(err)
	}
}

// Records that only the archive has are searched too.
func TestBlocks(t *testing.T) {
	f := newFixture(t)
	f.fill(40)
	f.step()
	for before, want := range map[int64]string{41: "[39 38]", 15: "[14 13]", 11: "[9 8]", 1: "[]"} {
		page, err := audit.Search(context.Background(), f.a.Blocks(before), audit.Filter{Limit: 2, Event: "set_limit"})
		numbers := []int64{}
		for _, r := range page.Records {
			numbers = append(numbers, r.Message)
			if text := fmt.Sprintf(`{"event":"set_limit","role":"r%d"}`, r.Message); r.Matches[0].Text != text {
				t.Errorf("%s, want %s", r.Matches[0].Text, text)
			}
		}
		if err != nil || fmt.Sprint(numbers) != want {
			t.Errorf("before %d: %v %v, want %s", before, numbers, err, want)
		}
	}
}

// A snapshot waits for the archive, unless archiving fails.
func TestWaitFor(t *testing.T) {
	f := newFixture(t)
	f.fill(20)
	ctx, cancel := context.WithCancel(context.Background())
	defer cancel()
	f.step()
	f.a.setFault(nil)
	f.fill(20)
	ended := make(chan struct{})
	go func() {
		defer close(ended)
		f.a.Run(ctx)
	}()
	begun := time.Now()
	f.a.WaitFor(ctx, 40)
	if messages, _ := f.a.Needed(); messages != 40 {
		t.Error(messages, time.Since(begun))
	}
	cancel()
	<-ended
	f.a.setFault(errors.New("the disk is full"))
	f.a.WaitFor(context.Background(), 1000)
}
