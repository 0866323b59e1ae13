// Tests of tokens and rights. Outside the proof.

package auth

import (
	"errors"
	"path/filepath"
	"strings"
	"sync"
	"testing"
	"time"
)

func TestJudge(t *testing.T) {
	site := &Caller{Name: "site", Rights: []string{"framework:site", "role:web"}}
	rack := &Caller{Name: "rack", Rights: []string{"agent:rack1-*", "agent:one"}}
	ops := &Caller{Name: "ops", Rights: []string{"operate"}}
	web := &Caller{Name: "web", Rights: []string{"role:web", "operate"}}
	for _, c := range []struct {
		by    *Caller
		line  string
		want  string // or empty, where it may not be sent
		timed bool
	}{
		{site, `{"framework":"site","event":"accept","offer":1,"task":"t","use":"cpus:1"}`, `{"event":"accept","framework":"site","offer":1,"task":"t","use":"cpus:1"}`, true},
		{site, `{"framework":"a","event":"finish","framework":"site","task":"t"}`, `{"event":"finish","framework":"site","task":"t"}`, false},
		{site, `{"framework":"site","event":"finish","framework":"a","task":"t"}`, "", false},
		{site, `{"FRAMEWORK":"site","event":"finish","task":"t"}`, "", false},
		{site, `{"event":"decline","framework":"site","offer":1,"at":1}`, "", false},
		{site, `{"event":"add_framework","framework":"site","roles":["web","web/x"]}`, `{"event":"add_framework","framework":"site","roles":["web","web/x"]}`, false},
		{site, `{"event":"add_framework","framework":"site","roles":["webx"]}`, "", false},
		{site, `{"event":"add_framework","framework":"site","roles":["web"],"roles":["ops"]}`, "", false},
		{site, `{"event":"add_framework","framework":"site","roles":[["web"]]}`, "", false},
		{site, `{"roles":["web","web/x"],"event":"set_framework","framework":"site"}`, `{"event":"set_framework","framework":"site","roles":["web","web/x"]}`, false},
		{site, `{"event":"set_framework","framework":"site","roles":["web","ops"]}`, "", false}, // each role of the list needs its right
		{site, `{"event":"set_framework","framework":"site","roles":["webx"]}`, "", false},
		{site, `{"event":"set_framework","framework":"site","roles":["web"],"roles":["ops"]}`, "", false},
		{site, `{"event":"set_framework","framework":"site","roles":"web"}`, "", false},
		{site, `{"event":"set_framework","framework":"site"}`, "", false},
		{site, `{"event":"set_framework","framework":"other","roles":["web"]}`, "", false},
		{web, `{"event":"set_framework","framework":"site","roles":["web"]}`, "", false}, // the role's right alone is not enough
		{ops, `{"event":"set_framework","framework":"site","roles":["web"]}`, "", false},
		{site, `{"event":"remove_framework","framework":"site"}`, `{"event":"remove_framework","framework":"site"}`, false},
		{site, `{"event":"cycle"}`, "", false},
		{site, `{"event":"report"}`, "", false},
		{site, `{"event":null}`, "", false},
		{rack, `{"event":"add_agent","agent":"rack1-7","total":"cpus:1"}`, `{"agent":"rack1-7","event":"add_agent","total":"cpus:1"}`, false},
		{rack, `{"event":"add_agent","agent":"rack2-7","total":"cpus:1"}`, "", false},
		{rack, `{"event":"remove_agent","agent":"one"}`, `{"agent":"one","event":"remove_agent"}`, false},
		{rack, `{"event":"remove_agent","agent":"ones"}`, "", false},
		{rack, `{"event":"remove_agent"}`, "", false},
		{ops, `{"event":"set_weight","role":"<web>&","weight":"2"}`, `{"event":"set_weight","role":"<web>&","weight":"2"}`, false}, // as it came
		{ops, `{"event":"accept","framework":"site","offer":1,"task":"t","use":""}`, "", false},
	} {
		judged, err := c.by.Judge([]byte(c.line))
		if (err == nil) != (c.want != "") || err == nil && (string(judged.Line) != c.want || judged.Timed != c.timed) {
			t.Errorf("%s: %s %v %v", c.line, judged.Line, judged.Timed, err)
		}
	}
}

func TestAdminLinesAreUnchanged(t *testing.T) {
	admin := &Caller{Name: "a", Rights: []string{"admin"}}
	for line, timed := range map[string]bool{` { "event" : "cycle" } `: true, `{"event":"cycle","at":1}`: false, `{"at":$,"event":"cycle"}`: false, "x": false, "": false, `{"Event":"cycle"}`: false} {
		judged, err := admin.Judge([]byte(line))
		if string(judged.Line) != line || judged.Timed != timed || err != nil {
			t.Errorf("%q: %q %v %v", line, judged.Line, judged.Timed, err)
		}
	}
}

func TestMaySend(t *testing.T) {
	for right, want := range map[string]bool{"read": false, "admin": true, "operate": true, "clock": true, "framework:a": true, "agent:a": true} {
		if may := (&Caller{Rights: []string{right}}).MaySend(); may != want {
			t.Errorf("%s: %v", right, may)
		}
	}
}

func TestTokens(t *testing.T) {
	path := filepath.Join(t.TempDir(), "tokens.json")
	token, err := AddCaller(path, "one", []string{"read", "agent:a*"}, time.Time{})
	if err != nil {
		t.Fatal(err)
	}
	callers, err := ReadCallers(path)
	if err != nil {
		t.Fatal(err)
	}
	if one, err := callers.Find(token, time.Now().AddDate(200, 0, 0)); err != nil || one.Name != "one" {
		t.Error(one, err)
	}
	for _, bad := range []string{"", token + "0", token[1:], "one"} {
		if one, err := callers.Find(bad, time.Now()); !errors.Is(err, ErrUnknownToken) || one != nil {
			t.Errorf("%q: %v %v", bad, one, err)
		}
	}
	for _, bad := range [][]string{{"one", "read"}, {"a/b", "read"}, {"two", "write"}, {"cycle", "read"}, {"two", "role:"}} {
		if _, err := AddCaller(path, bad[0], bad[1:], time.Time{}); err == nil {
			t.Errorf("%v was accepted", bad)
		}
	}
	if again, err := ReadCallers(path); err != nil || again.Len() != 1 {
		t.Error("a bad caller changed the file", again, err)
	}
}

// A right to run tasks as a user is for that user alone, and no right to send lines.
func TestUserRights(t *testing.T) {
	path := filepath.Join(t.TempDir(), "tokens.json")
	for _, right := range []string{"user:root", "user:web-1", "user:_apt", "user:machine$"} {
		if _, err := AddCaller(path, "n"+strings.Trim(right[5:], "$"), []string{right}, time.Time{}); err != nil {
			t.Error(err)
		}
	}
	for _, right := range []string{"user:", "user:-x", "user:*", "user:a b", "user:a/b"} {
		if _, err := AddCaller(path, "other", []string{right}, time.Time{}); err == nil {
			t.Errorf("%s was accepted", right)
		}
	}
	c := &Caller{Name: "web", Rights: []string{"user:web"}}
	if !c.Has("user", "web") || c.Has("user", "root") || c.Has("user", "web2") || c.Has("user", "") || c.MaySend() {
		t.Error("the right is another one than that of the user web")
	}
}

func TestUnknownRightIsNamed(t *testing.T) {
	_, err := AddCaller(filepath.Join(t.TempDir(), "tokens.json"), "web", []string{"y"}, time.Time{})
	if err == nil || !strings.Contains(err.Error(), `token "web": unknown right "y"; expected admin, operate`) {
		t.Error(err)
	}
}

// Two commands that add tokens at once both succeed, and neither's token is lost.
func TestTokensAtOnce(t *testing.T) {
	path := filepath.Join(t.TempDir(), "tokens.json")
	tokens := make([]string, 20)
	var group sync.WaitGroup
	for k := range tokens {
		group.Add(1)
		go func(k int) {
			defer group.Done()
			var err error
			if tokens[k], err = AddCaller(path, "caller"+string(rune('a'+k)), []string{"read"}, time.Time{}); err != nil {
				t.Error(err)
			}
		}(k)
	}
	group.Wait()
	callers, err := ReadCallers(path)
	if err != nil {
		t.Fatal(err)
	}
	for k, token := range tokens {
		if _, err := callers.Find(token, time.Now()); err != nil {
			t.Errorf("token %d: %v", k, err)
		}
	}
}

func TestExpiredToken(t *testing.T) {
	path, at := filepath.Join(t.TempDir(), "tokens.json"), time.Date(2027, 1, 31, 12, 0, 0, 999, time.UTC)
	token, err := AddCaller(path, "web", []string{"read"}, at)
	if err != nil {
		t.Fatal(err)
	}
	callers, err := ReadCallers(path)
	if err != nil {
		t.Fatal(err)
	}
	if one, err := callers.Find(token, at.Add(-time.Second)); err != nil || one.Name != "web" {
		t.Error("before it:", one, err)
	}
	for _, now := range []time.Time{at.Truncate(time.Second), at.AddDate(10, 0, 0)} {
		expired := (*ExpiredError)(nil)
		if _, err := callers.Find(token, now); !errors.As(err, &expired) || expired.Name != "web" || !strings.Contains(err.Error(), `"web" expired at 2027-01-31T12:00:00Z`) {
			t.Errorf("at %v: %v", now, err)
		}
	}
	if _, err := callers.Find(token+"0", at.AddDate(1, 0, 0)); !errors.Is(err, ErrUnknownToken) {
		t.Error("another token:", err)
	}
}

func TestRevokeCaller(t *testing.T) {
	path := filepath.Join(t.TempDir(), "tokens.json")
	tokens := map[string]string{}
	for _, name := range []string{"a", "b", "c"} {
		var err error
		if tokens[name], err = AddCaller(path, name, []string{"read"}, time.Time{}); err != nil {
			t.Fatal(err)
		}
	}
	if err := RevokeCaller(path, "b"); err != nil {
		t.Fatal(err)
	}
	if err := RevokeCaller(path, "b"); !errors.Is(err, ErrNoCaller) || !strings.Contains(err.Error(), `"b"`) {
		t.Error("again:", err)
	}
	callers, err := ReadCallers(path)
	if err != nil {
		t.Fatal(err)
	}
	for name, want := range map[string]error{"a": nil, "b": ErrUnknownToken, "c": nil} {
		if _, err := callers.Find(tokens[name], time.Now()); !errors.Is(err, want) {
			t.Errorf("%s: %v", name, err)
		}
	}
}

func TestParseExpiry(t *testing.T) {
	now := time.Date(2026, 12, 1, 4, 30, 0, 0, time.UTC)
	for text, want := range map[string]string{ // or empty, where it is refused
		"30d": "2026-12-31T04:30:00Z", "1d": "2026-12-02T04:30:00Z", "12h": "2026-12-01T16:30:00Z", "2026-12-01": "2026-12-02T00:00:00Z", "2027-02-28": "2027-03-01T00:00:00Z",
		"2027-01-31T12:00:00+02:00": "2027-01-31T10:00:00Z", "36500d": "2126-11-07T04:30:00Z",
		"2026-11-30": "", "2026-12-01T04:30:00Z": "", "0d": "", "36501d": "", "2000000000d": "", "2000000000h": "", "-1d": "", "1.5d": "", "d": "", "30": "", "": "", "30 d": "", "2027-02-30": "", "1w": "", "3000-01-01": "",
	} {
		at, err := ParseExpiry(text, now)
		if (err == nil) != (want != "") || err == nil && at.UTC().Format(time.RFC3339) != want {
			t.Errorf("%q: %v %v", text, at, err)
		}
	}
}

func TestBearerToken(t *testing.T) {
	for header, want := range map[string]string{"Bearer abc": "abc", "bearer abc": "abc", "BEARER  abc": "abc", "abc": "", "Basic abc": "", "": ""} {
		token, is := BearerToken(header)
		if token != want || is != (want != "") {
			t.Errorf("%q: %q %v", header, token, is)
		}
	}
}
