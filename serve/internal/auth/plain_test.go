// Tests that plain lines are judged as others are. Outside the proof.

package auth

import (
	"fmt"
	"math/rand"
	"testing"
)

// A line is judged in the same way with a space in it, which makes it be no plain one.
func TestPlainLinesAreJudgedAsOthers(t *testing.T) {
	chance := rand.New(rand.NewSource(3))
	pick := func(of ...string) string { return of[chance.Intn(len(of))] }
	callers := []*Caller{}
	for k, rights := range [][]string{{"admin"}, {"operate"}, {"clock"}, {"operate", "clock"}, {"read"}, {"agent:n*", "framework:site", "role:web"}, {}} {
		callers = append(callers, &Caller{Name: fmt.Sprint("c", k), Rights: rights})
	}
	plain := 0
	for n := 0; n < 20_000; n++ {
		line := ""
		for k := chance.Intn(5); k >= 0; k-- {
			line += "," + pick(`"event"`, `"event"`, `"agent"`, `"framework"`, `"at"`, `"total"`, `"a<b"`, `"zone"`, `"Event"`) + ":" +
				pick(`"cycle"`, `"add_agent"`, `"set_agent"`, `"accept"`, `"finish"`, `"add_framework"`, `"rescind"`, `"n1"`, `"m1"`, `"site"`, `"other"`, `"<&>"`, `""`, "5", "-0", "1.5", "null", "[1]", `"\\u0061"`)
		}
		line = "{" + line[1:] + "}"
		for _, c := range callers {
			got, is := c.judgePlain([]byte(line))
			if !is {
				continue
			}
			plain++
			want, wrong := c.Judge([]byte(line[:1] + " " + line[1:]))
			if c.Has("admin", "") {
				want.Line = []byte(line)
			}
			if wrong != nil || got.Kind != want.Kind || got.Timed != want.Timed || string(got.Line) != string(want.Line) {
				t.Fatalf("%s, %v: %s %+v, want %s %+v %v", line, c.Rights, got.Line, got, want.Line, want, wrong)
			}
		}
	}
	if plain < 5_000 {
		t.Error(plain)
	}
}

func BenchmarkJudge(b *testing.B) {
	line := []byte(`{"event":"add_agent","agent":"n1","total":"cpus:4;mem:1024"}`)
	for _, right := range []string{"admin", "operate"} {
		c := &Caller{Name: "c", Rights: []string{right}}
		b.Run(right, func(b *testing.B) {
			b.ReportAllocs()
			for n := 0; n < b.N; n++ {
				if _, err := c.Judge(line); err != nil {
					b.Fatal(err)
				}
			}
		})
	}
}
