// Package limit bounds how much one caller, and all callers together, can ask of a gateway. Outside the proof.
package limit

import (
	"fmt"
	"sync"
	"time"
)

// Rates are the limits of each caller. In a burst, a caller can use as much as it could in some seconds.
type Rates struct {
	Requests, Bytes, Lines float64 // a second; 0 is without limit
	Burst                  time.Duration
	Streams                int // that are open at once
}

// Error reports that a limit is reached. The request changed nothing.
type Error struct {
	What       string
	RetryAfter time.Duration
}

func (e *Error) Error() string {
	return fmt.Sprintf("%s: try again in %v", e.What, e.RetryAfter.Round(100*time.Millisecond))
}

// Limiter records what each caller has used.
type Limiter struct {
	rates Rates
	now   func() time.Time

	mu      sync.Mutex
	callers map[string]*usage
}

type usage struct {
	requests, bytes, lines bucket
	streams                int
}

// bucket holds what can be used at once. A request larger than a burst makes it negative; then it needs time to fill again.
type bucket struct {
	level float64
	at    time.Time
}

// New returns a limiter.
func New(rates Rates) *Limiter {
	return &Limiter{rates: rates, now: time.Now, callers: map[string]*usage{}}
}

func (l *Limiter) caller(name string) *usage {
	u, is := l.callers[name]
	if !is {
		u = &usage{}
		l.callers[name] = u
	}
	return u
}

// take uses an amount, unless nothing is left.
func (l *Limiter) take(b *bucket, rate, amount float64, what string) error {
	if rate == 0 {
		return nil
	}
	now, most := l.now(), rate*l.rates.Burst.Seconds()
	if b.at.IsZero() {
		b.level = most
	} else if b.level += rate * now.Sub(b.at).Seconds(); b.level > most {
		b.level = most
	}
	b.at = now
	if b.level <= 0 {
		wait := time.Duration((1 - b.level) / rate * float64(time.Second))
		return &Error{fmt.Sprintf("this caller may send %.0f %s a second", rate, what), wait}
	}
	b.level -= amount
	return nil
}

// Request counts a request of a caller.
func (l *Limiter) Request(name string) error {
	l.mu.Lock()
	defer l.mu.Unlock()
	return l.take(&l.caller(name).requests, l.rates.Requests, 1, "requests")
}

// Batch counts a batch of a caller.
func (l *Limiter) Batch(name string, bytes, lines int) error {
	l.mu.Lock()
	defer l.mu.Unlock()
	u := l.caller(name)
	if err := l.take(&u.bytes, l.rates.Bytes, float64(bytes), "bytes"); err != nil {
		return err
	}
	return l.take(&u.lines, l.rates.Lines, float64(lines), "lines")
}

// Stream counts an open stream of a caller, until release is called.
func (l *Limiter) Stream(name string) (release func(), err error) {
	l.mu.Lock()
	defer l.mu.Unlock()
	u := l.caller(name)
	if l.rates.Streams > 0 && u.streams >= l.rates.Streams {
		return nil, &Error{fmt.Sprintf("this caller may have %d open streams", l.rates.Streams), 5 * time.Second}
	}
	u.streams++
	return func() {
		l.mu.Lock()
		defer l.mu.Unlock()
		u.streams--
	}, nil
}
