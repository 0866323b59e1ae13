// Errors as answers: the only place where errors get statuses. Outside the proof.

package api

import (
	"crypto/rand"
	"encoding/hex"
	"errors"
	"fmt"
	"log"
	"net/http"
	"strconv"
	"time"

	"gateway/internal/allocator"
	"gateway/internal/audit"
	"gateway/internal/disk"
	"gateway/internal/limit"
	"gateway/internal/oplog"
	"gateway/internal/session"
)

// Values of the header Drf-Applied, which each answer to a batch has: they say what this request did.
const (
	appliedYes     = "yes"
	appliedNo      = "no"
	appliedUnknown = "unknown"
)

// answerError is an answer other than 200.
type answerError struct {
	status  int
	text    string
	applied string
	message int64         // as which a batch was applied, or 0
	retry   time.Duration // after which to try again, or 0
}

func (e *answerError) Error() string { return e.text }

// refusal is an answer to a request that changed nothing.
func refusal(status int, format string, values ...interface{}) *answerError {
	return &answerError{status: status, text: fmt.Sprintf(format, values...), applied: appliedNo}
}

func formatInt(number int64) string { return strconv.FormatInt(number, 10) }

// answerTo returns the answer to an error. An unexpected error gets an id, which is also in the log.
func answerTo(err error) *answerError {
	var (
		answer      *answerError
		applied     *oplog.AppliedError
		conflict    *oplog.ConflictError
		tooLarge    *oplog.TooLargeError
		full        *oplog.FullError
		unavailable *oplog.UnavailableError
		clock       *oplog.ClockError
		notReady    *allocator.NotReadyError
		space       *disk.SpaceError
		limited     *limit.Error
		unknown     *session.UnknownError
	)
	switch {
	case errors.As(err, &answer):
		return answer
	case errors.As(err, &applied):
		return &answerError{http.StatusGone, err.Error(), appliedYes, applied.Message, 0}
	case errors.As(err, &conflict):
		return refusal(http.StatusConflict, "%v", err)
	case errors.As(err, &tooLarge):
		return refusal(http.StatusRequestEntityTooLarge, "%v", err)
	case errors.As(err, &full):
		if full.Keys {
			return &answerError{http.StatusTooManyRequests, err.Error(), appliedNo, 0, 10 * time.Second}
		}
		return &answerError{http.StatusServiceUnavailable, err.Error(), appliedNo, 0, time.Second}
	case errors.As(err, &unavailable):
		how := appliedNo
		if unavailable.MayBeApplied {
			how = appliedUnknown
		}
		return &answerError{http.StatusServiceUnavailable, err.Error(), how, 0, time.Second}
	case errors.As(err, &clock), errors.As(err, &notReady), errors.As(err, &space):
		return &answerError{http.StatusServiceUnavailable, err.Error(), appliedNo, 0, time.Second}
	case errors.As(err, &limited):
		return &answerError{http.StatusTooManyRequests, err.Error(), appliedNo, 0, limited.RetryAfter}
	case errors.As(err, &unknown):
		return refusal(http.StatusNotFound, "%v", err)
	case errors.Is(err, session.ErrNotWatched):
		return refusal(http.StatusNotImplemented, "%v", err)
	case errors.Is(err, allocator.ErrDue):
		return &answerError{http.StatusGatewayTimeout, err.Error(), appliedYes, 0, 0}
	case errors.Is(err, allocator.ErrForgotten):
		return &answerError{http.StatusGone, err.Error(), appliedYes, 0, 0}
	case errors.Is(err, audit.ErrNotKept): // the allocator was restarted meanwhile, or records were pruned
		return &answerError{http.StatusServiceUnavailable, err.Error() + ": ask again", appliedNo, 0, time.Second}
	case errors.Is(err, allocator.ErrNoAnswer):
		return &answerError{http.StatusServiceUnavailable, err.Error() + ": ask again", appliedNo, 0, time.Second}
	}
	var random [6]byte
	rand.Read(random[:])
	id := hex.EncodeToString(random[:])
	log.Printf("error %s: %v", id, err)
	return &answerError{http.StatusInternalServerError, "an unexpected error; the gateway's log has it as " + id, appliedUnknown, 0, 0}
}

var appliedTexts = map[string]string{
	appliedYes:     "",
	appliedNo:      "; nothing was applied",
	appliedUnknown: "; the batch may have been applied: send it again with its key",
}

// refuse writes the answer to an error.
func (s *Server) refuse(w http.ResponseWriter, r *http.Request, err error) {
	answer := answerTo(err)
	text := answer.text
	if r.URL.Path == Prefix+"events" {
		w.Header().Set("Drf-Applied", answer.applied)
		text += appliedTexts[answer.applied]
	}
	if answer.message > 0 {
		w.Header().Set("Drf-Message", formatInt(answer.message))
	}
	if answer.retry > 0 {
		w.Header().Set("Retry-After", formatInt(int64((answer.retry+time.Second-1)/time.Second)))
	}
	s.metrics.Refused(answer.status)
	limitTime(r, s.inTime)
	http.Error(w, text, answer.status)
}
