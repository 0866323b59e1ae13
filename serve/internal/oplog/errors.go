// Errors of the list. Outside the proof.

package oplog

import (
	"errors"
	"fmt"
)

// ErrNotDue reports that a condition of a batch does not hold. The batch was not appended.
var ErrNotDue = errors.New("a condition of the batch does not hold")

// AppliedError reports that the batch was appended before, and that its message is pruned.
type AppliedError struct {
	Message int64 // its number
}

func (e *AppliedError) Error() string {
	return fmt.Sprintf("these lines were applied as message %d; its replies are no longer kept", e.Message)
}

// ConflictError reports that the key was used for other lines. The batch was not appended.
type ConflictError struct {
	Message int64 // that used the key, or 0 where its number is unknown
}

func (e *ConflictError) Error() string {
	if e.Message == 0 {
		return "this key was used for other lines"
	}
	return fmt.Sprintf("this key was used for other lines, in message %d", e.Message)
}

// TooLargeError reports that etcd does not take a batch in one request. The batch was not appended.
type TooLargeError struct{}

func (*TooLargeError) Error() string { return "the batch is larger than etcd takes in one request" }

// FullError reports that the store has no room for another batch at present, or that no more keys can be kept. The batch was not appended.
type FullError struct {
	What string
	Keys bool // the number of kept keys is at its limit, or that of the caller's
}

func (e *FullError) Error() string { return e.What }

// UnavailableError reports that the list did not answer in time.
type UnavailableError struct {
	MayBeApplied bool // the batch may have been appended
	Err          error
}

func (e *UnavailableError) Error() string {
	if e.Err == nil {
		return "the list did not answer in time"
	}
	return fmt.Sprintf("the list cannot be reached: %v", e.Err)
}

func (e *UnavailableError) Unwrap() error { return e.Err }

// ClockError reports that this gateway cannot append, because its clock disagrees with the other gateways' clocks.
type ClockError struct{ Reason string }

func (e *ClockError) Error() string { return "this gateway accepts no events: " + e.Reason }

// FatalError reports contradicting data: the gateway stops rather than answer from them.
type FatalError struct{ Err error }

func (e *FatalError) Error() string { return e.Err.Error() }
func (e *FatalError) Unwrap() error { return e.Err }

// IsFatal reports whether an error is, or wraps, a FatalError.
func IsFatal(err error) bool {
	fatal := (*FatalError)(nil)
	return errors.As(err, &fatal)
}
