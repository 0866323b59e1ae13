// The journal: the output of the allocator, in order, in one file. Outside the proof.

package allocator

import (
	"crypto/sha256"
	"encoding"
	"encoding/hex"
	"encoding/json"
	"errors"
	"fmt"
	"hash"
	"io"
	"log"
	"os"
	"path/filepath"
	"sync"

	"gateway/internal/audit"
	"gateway/internal/disk"
	"gateway/internal/oplog"

	"golang.org/x/sys/unix"
)

// Journal is derived from the list alone: each child of the allocator writes it again, from a snapshot on. Bytes are counted from the beginning of
// the first journal. Bytes that were once answered to callers must be the same after a restart: the file `answered`, which is durable, has their
// number and digest.
type Journal struct {
	Audit    *audit.Log      // who sent the messages
	Settings *audit.Settings // and who set what is set

	folder string
	mu     sync.RWMutex

	lacksSettings bool // there was no file
	file          *os.File
	base          int64     // the byte that the file begins with
	kept          int64     // the first byte that is not pruned
	end           int64     // of what is written
	sum           hash.Hash // of all bytes before the end
	answered      answered
}

// answered is how much of the journal was once answered to callers, and its digest.
type answered struct {
	Bytes  int64  `json:"bytes"`
	Sha256 string `json:"sha256"`
}

// OpenJournal returns the journal of a data folder. It has no content before an allocator runs.
func OpenJournal(folder string) (*Journal, error) {
	j := &Journal{Audit: audit.NewLog(folder), folder: folder, sum: sha256.New()}
	var broken error
	if j.Settings, j.lacksSettings, broken = audit.OpenSettings(filepath.Join(folder, "settings")); broken != nil {
		log.Printf("%v: the settings are read from etcd instead", broken)
	}
	text, err := os.ReadFile(filepath.Join(folder, "answered"))
	if err == nil {
		err = json.Unmarshal(text, &j.answered)
	}
	if err != nil && !errors.Is(err, os.ErrNotExist) {
		return nil, fmt.Errorf("%s/answered: %w", folder, err)
	}
	return j, nil
}

// begin starts a new file at a snapshot. Readers of the old file get an error.
func (j *Journal) begin(from oplog.Snapshot) error {
	if err := j.Audit.Begin(); err != nil {
		return err
	}
	j.mu.Lock()
	defer j.mu.Unlock()
	if j.file != nil {
		j.file.Close()
	}
	path := filepath.Join(j.folder, "journal")
	os.Remove(path)
	file, err := os.OpenFile(path, os.O_RDWR|os.O_CREATE|os.O_EXCL, 0o600)
	if err != nil {
		return fmt.Errorf("the journal: %w", err)
	}
	j.file, j.base, j.kept, j.end, j.sum = file, from.Bytes, from.Bytes, from.Bytes, sha256.New()
	if from.Number == 0 {
		return nil
	}
	if err := j.sum.(encoding.BinaryUnmarshaler).UnmarshalBinary(from.Sum); err != nil {
		return &oplog.FatalError{Err: fmt.Errorf("the journal's digest in snapshot %d: %w", from.Number, err)}
	}
	return nil
}

// write appends what the allocator wrote. When it reaches the bytes that were once answered, the digest must be the same.
func (j *Journal) write(block []byte) error {
	j.mu.Lock()
	defer j.mu.Unlock()
	if due := j.answered.Bytes - j.end; j.answered.Bytes > 0 && due >= 0 && due <= int64(len(block)) {
		if err := j.add(block[:due]); err != nil {
			return err
		}
		if j.digest() != j.answered.Sha256 {
			return &oplog.FatalError{Err: fmt.Errorf("the journal's first %d bytes differ from the replies that were given before: another program or another list made them", j.answered.Bytes)}
		}
		block = block[due:]
	}
	return j.add(block)
}

func (j *Journal) add(block []byte) error {
	if _, err := j.file.WriteAt(block, j.end-j.base); err != nil {
		return fmt.Errorf("the journal cannot be written: %w", err)
	}
	j.sum.Write(block)
	j.end += int64(len(block))
	return nil
}

func (j *Journal) digest() string { return hex.EncodeToString(j.sum.Sum(nil)) }

// checkWhole is called when everything that the list had is written. It returns a *oplog.FatalError if more was answered before.
func (j *Journal) checkWhole() error {
	j.mu.RLock()
	defer j.mu.RUnlock()
	if lost := j.answered.Bytes - j.end; lost > 0 {
		return &oplog.FatalError{Err: fmt.Errorf("the journal had %d bytes more than the list gives: the list has lost messages that were already answered", lost)}
	}
	return nil
}

// Mark makes durable how much is written. The journal itself need not be durable, because it can be written again.
func (j *Journal) Mark() error {
	j.mu.RLock()
	now := answered{j.end, j.digest()}
	isNew := j.end > j.answered.Bytes
	j.mu.RUnlock()
	if !isNew {
		return nil
	}
	text, _ := json.Marshal(now)
	if err := disk.WriteFile(filepath.Join(j.folder, "answered"), text); err != nil {
		return fmt.Errorf("the journal's length cannot be written: %w", err)
	}
	j.mu.Lock()
	defer j.mu.Unlock()
	j.answered = now
	return nil
}

// sumSoFar returns the digest in a form that can be continued.
func (j *Journal) sumSoFar() []byte {
	j.mu.RLock()
	defer j.mu.RUnlock()
	sum, _ := j.sum.(encoding.BinaryMarshaler).MarshalBinary() // never fails
	return sum
}

// prune gives the space of the bytes before a position back to the disk.
func (j *Journal) prune(to int64) error {
	j.mu.Lock()
	defer j.mu.Unlock()
	if to <= j.kept {
		return nil
	}
	j.kept = to
	return unix.Fallocate(int(j.file.Fd()), unix.FALLOC_FL_PUNCH_HOLE|unix.FALLOC_FL_KEEP_SIZE, 0, to-j.base)
}

// Bounds returns the first byte that is kept, the end, and the digest of all bytes before the end.
func (j *Journal) Bounds() (kept, end int64, sum string) {
	j.mu.RLock()
	defer j.mu.RUnlock()
	return j.kept, j.end, j.digest()
}

// ReadAt reads from the whole journal at a byte. Bytes that are pruned, or not written again yet, give an error and not an early end.
func (j *Journal) ReadAt(text []byte, at int64) (int, error) {
	j.mu.RLock()
	defer j.mu.RUnlock()
	if at < j.kept || j.file == nil {
		return 0, fmt.Errorf("byte %d of the journal is %w", at, audit.ErrNotKept)
	}
	n, err := j.file.ReadAt(text, at-j.base)
	if err == io.EOF {
		err = io.ErrUnexpectedEOF
	}
	return n, err
}
