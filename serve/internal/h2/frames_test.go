// Tests of what a client may send. Outside the proof.

package h2

import (
	"bytes"
	"testing"
	"time"

	"golang.org/x/net/http2"
)

// sent is the preface and what a function writes as frames.
func sent(write func(*http2.Framer)) []byte {
	var text bytes.Buffer
	text.WriteString(http2.ClientPreface)
	write(http2.NewFramer(&text, nil))
	return text.Bytes()
}

func TestFrames(t *testing.T) {
	times := func(n int, write func(*http2.Framer)) func(*http2.Framer) {
		return func(f *http2.Framer) {
			for k := 0; k < n; k++ {
				write(f)
			}
		}
	}
	headers := func(first int, more ...int) func(*http2.Framer) {
		return func(f *http2.Framer) {
			f.WriteHeaders(http2.HeadersFrameParam{StreamID: 1, BlockFragment: make([]byte, first), EndHeaders: len(more) == 0})
			for k, size := range more {
				f.WriteContinuation(1, k+1 == len(more), make([]byte, size))
			}
		}
	}
	for _, one := range []struct {
		name      string
		write     func(*http2.Framer)
		isAllowed bool
	}{
		{"nothing", func(*http2.Framer) {}, true},
		{"requests", times(10_000, headers(100)), true},
		{"headers in some frames", times(100, headers(1000, 1000, 1000, 10)), true},
		{"large headers", headers(16_000, 16_000, 16_000, 16_000, 16_000), false},
		{"headers in many frames", headers(1, make([]int, 33)...), false},
		{"a body", times(10_000, func(f *http2.Framer) { f.WriteData(1, false, make([]byte, 100)) }), true},
		{"a body in empty frames", times(501, func(f *http2.Framer) { f.WriteData(1, false, nil) }), false},
		{"ends of bodies", times(10_000, func(f *http2.Framer) { f.WriteData(1, true, nil) }), true},
		{"some resets", times(200, func(f *http2.Framer) { f.WriteRSTStream(1, http2.ErrCodeCancel) }), true},
		{"rapid resets", times(201, func(f *http2.Framer) { headers(10)(f); f.WriteRSTStream(1, http2.ErrCodeCancel) }), false},
		{"settings", times(20, func(f *http2.Framer) { f.WriteSettings() }), true},
		{"a flood of settings", times(21, func(f *http2.Framer) { f.WriteSettings() }), false},
		{"a flood of pings", times(101, func(f *http2.Framer) { f.WritePing(false, [8]byte{}) }), false},
		{"a flood of priorities", times(501, func(f *http2.Framer) { f.WritePriority(1, http2.PriorityParam{}) }), false},
		{"windows", times(20_000, func(f *http2.Framer) { f.WriteWindowUpdate(0, 1) }), true},
		{"a flood of windows", times(20_001, func(f *http2.Framer) { f.WriteWindowUpdate(0, 1) }), false},
	} {
		text := sent(one.write)
		for _, size := range []int{1, 7, 1 << 20} { // bytes that come together
			f := newFrames(func() time.Time { return time.Unix(1000, 0) })
			err := error(nil)
			for rest := text; len(rest) > 0 && err == nil; {
				some := rest
				if len(some) > size {
					some = some[:size]
				}
				err, rest = f.look(some), rest[len(some):]
			}
			if (err == nil) != one.isAllowed {
				t.Errorf("%s, %d bytes at a time: %v", one.name, size, err)
			}
		}
	}
}

// What was used of an allowance is there again after some time.
func TestAllowance(t *testing.T) {
	a, now := allowance{burst: 3, rate: 2}, time.Unix(1000, 0)
	take := func() (taken int) {
		for a.take(now) {
			taken++
		}
		a.used-- // the one that was not there
		return taken
	}
	for _, one := range []struct {
		after time.Duration
		want  int
	}{{0, 3}, {0, 0}, {time.Second, 2}, {time.Hour, 3}} {
		now = now.Add(one.after)
		if got := take(); got != one.want {
			t.Errorf("after %v: %d, want %d", one.after, got, one.want)
		}
	}
}
