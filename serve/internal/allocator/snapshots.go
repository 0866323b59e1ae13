// Snapshots: the states of the allocator and of the registry are kept as files and in etcd, and earlier messages are pruned. Outside the proof.

package allocator

import (
	"bytes"
	"context"
	"fmt"
	"io"
	"log"
	"os"
	"os/exec"
	"path/filepath"
	"sort"
	"strconv"
	"strings"
	"sync"
	"time"

	"gateway/internal/disk"
	"gateway/internal/oplog"
)

// snapshots makes a snapshot at each marker: every gateway reaches the marker at the same position, and makes the same snapshot. The first gateway
// puts it into etcd, and the others compare theirs with it. At an epoch's marker all gateways resume from that snapshot, in which numbers begin
// again.
type snapshots struct {
	allocator *Allocator
	making    sync.Mutex // one at a time
	pruned    int64      // etcd's revision after the last pruning here

	mu     sync.Mutex
	marked oplog.Snapshot   // at the last marker
	made   oplog.Snapshot   // the last whose files exist
	size   int64            // of the last that was made here, in bytes
	kept   []oplog.Snapshot // from the first of these on, replies are kept; the list begins at the last, when this gateway makes snapshots
}

func (s *snapshots) path(kind string, number int) string {
	return filepath.Join(s.allocator.config.Folder, fmt.Sprintf("%s.%08d", kind, number))
}

// arguments are the program's arguments to start from a snapshot.
func (s *snapshots) arguments(from oplog.Snapshot) []string {
	if from.Number == 0 {
		return nil
	}
	return []string{"--from", s.path("state", from.Number)}
}

// start returns the last snapshot but one, because the replies since then are kept, or the beginning, and restores the registry from it.
func (s *snapshots) start(ctx context.Context) (from oplog.Snapshot, revision int64, err error) {
	found, revision, err := s.allocator.log.Snapshots(ctx)
	var content oplog.Content
	if err == nil && len(found) > 1 {
		from = found[len(found)-2]
		content, err = s.fetch(ctx, from)
	}
	if err == nil {
		err = s.allocator.registry.Restore(content.Registry, content.State, from.Messages, from.At, from.Epoch)
	}
	if err != nil {
		return from, 0, err
	}
	s.mu.Lock()
	defer s.mu.Unlock()
	s.marked, s.made, s.kept = from, from, []oplog.Snapshot{from}
	s.removeBelow(from.Number)
	return from, revision, nil
}

// fetch reads the files of a snapshot, or writes them from etcd.
func (s *snapshots) fetch(ctx context.Context, from oplog.Snapshot) (c oplog.Content, err error) {
	c.State, _ = os.ReadFile(s.path("state", from.Number))
	if from.Registry != "" {
		c.Registry, _ = os.ReadFile(s.path("registry", from.Number))
	}
	if disk.Digest(c.State) == from.Sha256 && (from.Registry == "" || disk.Digest(c.Registry) == from.Registry) {
		return c, nil
	}
	if c, err = s.allocator.log.Content(ctx, from); err == nil {
		err = s.write(from.Number, c)
	}
	return c, err
}

func (s *snapshots) write(number int, c oplog.Content) error {
	if err := disk.WriteFile(s.path("registry", number), c.Registry); err != nil {
		return fmt.Errorf("writing snapshot %d: %w", number, err)
	}
	if err := disk.WriteFile(s.path("state", number), c.State); err != nil {
		return fmt.Errorf("writing snapshot %d: %w", number, err)
	}
	return nil
}

// removeBelow removes the files of snapshots before one.
func (s *snapshots) removeBelow(number int) {
	for _, kind := range []string{"state", "registry"} {
		paths, _ := filepath.Glob(filepath.Join(s.allocator.config.Folder, kind+".*"))
		for _, path := range paths {
			if path < s.path(kind, number) {
				os.Remove(path)
			}
		}
	}
}

// onMarker is called after a marker's message. A snapshot is made while messages continue to be applied; an epoch's marker ends the generation.
func (s *snapshots) onMarker(ctx context.Context, f *inFlight, now oplog.Position) error {
	number, err := strconv.Atoi(strings.TrimPrefix(f.Key, markerKey))
	if err != nil {
		return &oplog.FatalError{Err: fmt.Errorf("the marker %s has no number", f.Key)}
	}
	s.mu.Lock()
	s.marked = oplog.Snapshot{Position: now, Number: number, At: f.At, Epoch: s.marked.Epoch, Since: s.marked.Since, Sum: s.allocator.journal.sumSoFar()}
	if f.Marker == oplog.MarkerEpoch {
		s.marked.Epoch, s.marked.Since = s.marked.Epoch+1, now.Lines
	}
	marked := s.marked
	s.mu.Unlock()
	if f.Marker == oplog.MarkerEpoch {
		s.allocator.registry.Begin(marked.Epoch)
	}
	if err := s.adoptConverted(ctx, marked); err != nil {
		return err
	}
	registry, err := s.registryAt(marked)
	if err != nil && f.Marker != oplog.MarkerEpoch { // others make it, or the next one is made
		log.Printf("snapshot %d is not made here: %v", number, err)
		return nil
	}
	if err != nil {
		return err
	}
	if f.Marker == oplog.MarkerEpoch {
		if marked, err = s.make(ctx, marked, registry, "--epoch"); err != nil {
			return err
		}
		return epochError{marked}
	}
	go func() {
		if _, err := s.make(ctx, marked, registry); err != nil && ctx.Err() == nil {
			log.Printf("snapshot %d was not made: %v", number, err)
			if oplog.IsFatal(err) {
				s.allocator.fail(err)
			}
		}
	}()
	return nil
}

// adoptConverted gives the registry the state of a gateway that starts at this snapshot, if the snapshot was converted and has no registry.
func (s *snapshots) adoptConverted(ctx context.Context, marked oplog.Snapshot) error {
	found, _, err := s.allocator.log.Snapshots(ctx)
	if err != nil {
		return err
	}
	for _, one := range found {
		if one.Number == marked.Number && one.Registry == "" {
			content, err := s.allocator.log.Content(ctx, one)
			if err != nil {
				return err
			}
			s.allocator.registry.ResetRows(content.State, marked.Messages, marked.At)
		}
	}
	return nil
}

// registryAt returns the registry's snapshot at a marker. When the child was restarted, the registry may be past it, and the file has it.
func (s *snapshots) registryAt(marked oplog.Snapshot) ([]byte, error) {
	path := s.path("registry", marked.Number)
	if text, is := s.allocator.registry.Snapshot(marked.Messages); is {
		if err := disk.WriteFile(path, text); err != nil {
			return nil, fmt.Errorf("writing snapshot %d: %w", marked.Number, err)
		}
		return text, nil
	}
	text, err := os.ReadFile(path)
	if err != nil {
		return nil, fmt.Errorf("the registry's snapshot %d is lost: %w", marked.Number, err)
	}
	return text, nil
}

const markerKey = "state/"

// bytesPerMessage is how large a snapshot may be for each message since the last one: large ones take long, and are made less often.
const bytesPerMessage = 256

// shortApart is the time between snapshots while callers are refused because space is short.
const shortApart = 2 * time.Second

// due returns the marker that is to be appended now, if there is one. Snapshots are some time apart, unless the list grows too large for that: etcd
// holds each message's key in memory.
func (s *snapshots) due(now oplog.Position, at time.Time) (*oplog.Batch, bool) {
	c := s.allocator.config
	s.mu.Lock()
	defer s.mu.Unlock()
	b := &oplog.Batch{Key: fmt.Sprintf("%s%d", markerKey, s.marked.Number+1), Marker: oplog.MarkerSnapshot, Internal: true}
	if now.Lines-s.marked.Since > c.EpochLines {
		b.Marker = oplog.MarkerEpoch
	}
	isLate := now.Messages-s.marked.Messages >= c.SnapshotMessages && at.UnixMilli()-s.marked.At >= c.SnapshotApart.Milliseconds()
	isLarge := c.SnapshotBytes > 0 && now.Bytes-s.marked.Bytes >= c.SnapshotBytes
	isShort := s.allocator.log.Space.IsShort() && at.UnixMilli()-s.marked.At >= shortApart.Milliseconds()
	isLong := c.SnapshotMost > 0 && now.Messages-s.marked.Messages >= c.SnapshotMost+s.size/bytesPerMessage && s.made.Number == s.marked.Number // one is made at a time
	return b, isLate || isLarge || isShort || isLong || b.Marker == oplog.MarkerEpoch
}

// epoch returns the epoch that the last marker began or was in.
func (s *snapshots) epoch() int {
	s.mu.Lock()
	defer s.mu.Unlock()
	return s.marked.Epoch
}

// newest returns the last snapshot whose files exist.
func (s *snapshots) newest() oplog.Snapshot {
	s.mu.Lock()
	defer s.mu.Unlock()
	return s.made
}

// make makes the snapshot at a marker, from the one before it and the journal between them, and publishes it.
func (s *snapshots) make(ctx context.Context, marked oplog.Snapshot, registry []byte, arguments ...string) (oplog.Snapshot, error) {
	s.making.Lock()
	defer s.making.Unlock()
	a := s.allocator
	found, _, err := a.log.Snapshots(ctx)
	if err != nil {
		return marked, err
	}
	last := oplog.Snapshot{}
	if k := sort.Search(len(found), func(k int) bool { return found[k].Number >= marked.Number }); k > 0 {
		last = found[k-1]
		if _, err := s.fetch(ctx, last); err != nil {
			return marked, err
		}
	}
	a.waitForArchive(ctx, last.Position)
	part := io.NewSectionReader(a.journal, last.Bytes, marked.Bytes-last.Bytes)
	text, err := a.output(ctx, part, append(append([]string{"save"}, s.arguments(last)...), arguments...)...)
	if err == nil {
		err = s.write(marked.Number, oplog.Content{State: text, Registry: registry})
	}
	if err != nil {
		return marked, err
	}
	marked.Sha256, marked.Registry = disk.Digest(text), disk.Digest(registry)
	isFirst, err := a.log.Publish(ctx, marked, oplog.Content{State: text, Registry: registry})
	if err != nil {
		return marked, err
	}
	s.mu.Lock()
	if marked.Number > s.made.Number {
		s.made, s.size = marked, int64(len(text)+len(registry))
	}
	s.mu.Unlock()
	if isFirst {
		log.Printf("snapshot %d: message %d, %d bytes", marked.Number, marked.Messages, len(text)+len(registry))
		if fault := a.shareSettings(ctx); fault != nil {
			log.Print(fault)
		}
		err = s.prune(ctx, last)
	}
	kept := s.keepFrom(last, marked)
	a.positions.forget(kept.Revision)
	messages, end := a.prunable(kept)
	if fault := a.journal.prune(end); fault != nil {
		log.Printf("the disk space of pruned lines in the journal was not freed: %v", fault)
	}
	if fault := a.journal.Audit.Prune(messages); fault != nil {
		log.Printf("the disk space of pruned records in the audit was not freed: %v", fault)
	}
	s.removeBelow(last.Number)
	return marked, err
}

// keepFrom returns the position from which replies are kept, when the list is pruned up to a snapshot and a later one is made: they may be
// younger than the time for which they are kept. The file of the journal has a bound all the same.
func (s *snapshots) keepFrom(pruned, now oplog.Snapshot) oplog.Position {
	c := s.allocator.config
	s.mu.Lock()
	defer s.mu.Unlock()
	if pruned.Number > s.kept[len(s.kept)-1].Number {
		s.kept = append(s.kept, pruned)
	}
	isLarge := func() bool { return c.SnapshotBytes > 0 && now.Bytes-s.kept[0].Bytes > 2*c.SnapshotBytes }
	for len(s.kept) > 1 && (now.At-s.kept[1].At >= c.SnapshotApart.Milliseconds() || isLarge()) {
		s.kept = s.kept[1:]
	}
	return s.kept[0].Position
}

// prune removes from etcd what is older than a snapshot. The space of what was pruned the last time can then be used again.
func (s *snapshots) prune(ctx context.Context, from oplog.Snapshot) error {
	if from.Number == 0 {
		return nil
	}
	l := s.allocator.log
	if err := l.Prune(ctx, from.Position); err != nil {
		return err
	}
	if err := l.DropSnapshots(ctx, from.Number); err != nil {
		return err
	}
	_, revision, err := l.Snapshots(ctx)
	if err != nil {
		return err
	}
	before := s.pruned
	s.pruned = revision
	if l.Space.IsShort() { // a gateway that reads older messages starts again from a snapshot
		before = revision
	}
	if before == 0 {
		return nil
	}
	return l.Compact(ctx, before)
}

// output runs the program on a text.
func (a *Allocator) output(ctx context.Context, in io.Reader, arguments ...string) ([]byte, error) {
	command := exec.CommandContext(ctx, a.config.Program, arguments...)
	var complaint bytes.Buffer
	command.Stdin, command.Stderr = in, &complaint
	text, err := command.Output()
	if err != nil {
		return nil, fmt.Errorf("drf %s: %w: %.200s", arguments[0], err, complaint.String())
	}
	return text, nil
}
