// What a client may send. Outside the proof.

package h2

import (
	"encoding/binary"
	"fmt"
	"time"

	"golang.org/x/net/http2"
)

const (
	maxHeaders       = 64 << 10 // bytes of the headers of a request, as they are sent
	maxContinuations = 32       // frames of one request's headers
	headSize         = 9        // of a frame
)

// allowances are how many frames of a kind a client may send: at once, and a second. Rates of honest clients are far below: they send one
// SETTINGS, few PING, and a WINDOW_UPDATE for some thousand bytes of an answer.
var allowances = map[http2.FrameType]allowance{
	http2.FrameRSTStream:    {burst: 200, rate: 50}, // each ends a request whose handler still runs
	http2.FrameSettings:     {burst: 20, rate: 1},
	http2.FramePing:         {burst: 100, rate: 10},
	http2.FramePriority:     {burst: 500, rate: 100},
	http2.FrameWindowUpdate: {burst: 20_000, rate: 5_000},
	http2.FrameData:         {burst: 500, rate: 100}, // without content
}

type allowance struct {
	burst, rate float64
	used        float64
	at          time.Time
}

// take uses one of an allowance, and reports whether it was there.
func (a *allowance) take(now time.Time) bool {
	if a.used -= now.Sub(a.at).Seconds() * a.rate; a.used < 0 || a.at.IsZero() {
		a.used = 0
	}
	a.used, a.at = a.used+1, now
	return a.used <= a.burst
}

// frames follows the frames of a client through the bytes that come.
type frames struct {
	now        func() time.Time
	allowances map[http2.FrameType]*allowance
	skip       int // bytes until the next frame begins
	head       [headSize]byte
	has        int // bytes of the head

	headers       int // bytes of the headers that are not complete
	continuations int
}

func newFrames(now func() time.Time) frames {
	f := frames{now: now, allowances: map[http2.FrameType]*allowance{}, skip: len(http2.ClientPreface)}
	for kind, a := range allowances {
		a := a
		f.allowances[kind] = &a
	}
	return f
}

// look returns why the client may not send the next bytes, or nil.
func (f *frames) look(text []byte) error {
	for len(text) > 0 {
		if f.skip > 0 {
			some := f.skip
			if some > len(text) {
				some = len(text)
			}
			f.skip, text = f.skip-some, text[some:]
			continue
		}
		some := copy(f.head[f.has:], text)
		if f.has, text = f.has+some, text[some:]; f.has < headSize {
			return nil
		}
		f.has = 0
		length := int(binary.BigEndian.Uint32(f.head[:4]) >> 8)
		f.skip = length
		if err := f.begin(http2.FrameType(f.head[3]), http2.Flags(f.head[4]), length); err != nil {
			return err
		}
	}
	return nil
}

// begin returns why the client may not send a frame, or nil.
func (f *frames) begin(kind http2.FrameType, flags http2.Flags, length int) error {
	switch {
	case kind == http2.FrameHeaders, kind == http2.FrameContinuation:
		if kind == http2.FrameHeaders {
			f.headers, f.continuations = 0, 0
		} else {
			f.continuations++
		}
		if f.headers += length; f.headers > maxHeaders || f.continuations > maxContinuations {
			return fmt.Errorf("h2: headers of over %d bytes or %d frames", maxHeaders, maxContinuations)
		}
		return nil
	case kind == http2.FrameData && (length > 0 || flags.Has(http2.FlagDataEndStream)):
		return nil
	}
	if a := f.allowances[kind]; a != nil && !a.take(f.now()) {
		return fmt.Errorf("h2: too many frames %v", kind)
	}
	return nil
}
