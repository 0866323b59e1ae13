// Tests of Mesos' credentials files. Outside the proof.

package auth

import (
	"errors"
	"os"
	"path/filepath"
	"reflect"
	"strings"
	"testing"
	"time"
)

func TestParseCredentials(t *testing.T) {
	for _, c := range []struct {
		text string
		want []Credential
	}{
		{"a x\nb  y\n\n", []Credential{{"a", "x", 1}, {"b", "y", 2}}},
		{"\r\n\ta.b-c_1 se{cret}\r\n", []Credential{{"a.b-c_1", "se{cret}", 2}}},
		{`{"credentials":[{"principal":"a","secret":"x y"}]}`, []Credential{{"a", "x y", 1}}},
		{"\n{\n \"credentials\": [\n  {\"principal\": \"a\",\n   \"secret\": \"x\"},\n\n  {\"secret\":\"y\",\"principal\":\"b\"}\n ]\n}\n", []Credential{{"a", "x", 4}, {"b", "y", 7}}},
	} {
		if list, err := ParseCredentials("f", []byte(c.text)); err != nil || !reflect.DeepEqual(list, c.want) {
			t.Errorf("%q: %v %v", c.text, list, err)
		}
	}
}

// Each wrong line is named by its number, and no error has the secret.
func TestBadCredentials(t *testing.T) {
	for _, c := range []struct{ text, want string }{
		{"", "there are no credentials"}, {"\n \n", "there are no credentials"}, {`{"credentials":[]}`, "there are no credentials"},
		{"a SECRET\n\nSECRET\n", "line 3: 1 words"},
		{"a SECRET more\n", "line 1: 3 words"},
		{"a SECRET\nb/c SECRET\n", `line 2: the principal "b/c": expected 1 to 64 letters`},
		{"a SECRET\nb SECRET\na SECRET2\n", `line 3: the principal "a" is in line 1 too`},
		{"# SECRET\n", `line 1: the principal "#"`},
		{"cycle SECRET\n", "line 1: the principal \"cycle\": this name is reserved"},
		{"a " + strings.Repeat("x", maxSecret+1), "line 1: the secret of \"a\": expected 1 to 4096 bytes"},
		{"{\n\"credentials\":[\n{\"principal\":\"a\",\"secret\":\"SECRET\"},\n{\"principal\":\"b\"}]}", "line 4: expected {"},
		{"{\n\"credentials\":[\n{\"principal\":\"a\",\"secret\":7}]}", "line 3: expected {"},
		{"{\"credentials\":[{\"principal\":\"a\",\"secret\":\"SECRET\",\"more\":\"x\"}]}", "line 1: expected {"},
		{"{\"credentials\":[{\"principal\":\"a\",\"secret\":\"\"}]}", "line 1: the secret of \"a\""},
		{"{\"credentials\":[{\"principal\":\"a\",\"secret\":null}]}", "line 1: the secret of \"a\""},
		{"{\"credentials\":\n[{\"principal\":\"a\",\"secret\":\"SECRET\"}\n\n}", "line 4: "},
		{"{\"credentials\":[{\"principal\":\"a\",\"secret\":\"SECRET", "line 1: expected {"},
		{"{\"credentials\":[{\"principal\":\"a\",\"secret\":\"SECRET\"}]", "line 1: it is not JSON: it ends too early"},
		{"{\"credentials\":[{\"principal\":\"a\",\"secret\":\"SECRET\"}]}\n{}", "line 2: there is more"},
		{"{\"credentials\":[{\"principal\":\"a\",\"secret\":\"SECRET\"}],\n\"x\":1}", "line 2: expected {"},
		{"{\"Credentials\":[]}", "line 1: expected {"}, {"{}", "line 1: expected {"}, {"{x", "line 1: it is not JSON"},
	} {
		list, err := ParseCredentials("f", []byte(c.text))
		if err == nil || !strings.HasPrefix(err.Error(), "f: ") || !strings.Contains(err.Error(), c.want) || strings.Contains(err.Error(), "SECRET") || list != nil {
			t.Errorf("%q: %v, want %s", c.text, err, c.want)
		}
	}
}

func TestImportCredentials(t *testing.T) {
	folder := t.TempDir()
	tokens, file := filepath.Join(folder, "tokens.json"), filepath.Join(folder, "credentials")
	token, err := AddCaller(tokens, "old", []string{"read"}, time.Time{})
	if err != nil {
		t.Fatal(err)
	}
	write := func(text string) {
		t.Helper()
		if err := os.WriteFile(file, []byte(text), 0o600); err != nil {
			t.Fatal(err)
		}
	}
	before, _ := os.ReadFile(tokens)
	for text, want := range map[string]string{"a x\nold y\n": `line 2: ` + tokens + ` has the principal "old" already`, "a x\nb\n": "line 2: 1 words"} {
		write(text)
		if _, err := ImportCredentials(tokens, file, nil); err == nil || !strings.Contains(err.Error(), want) {
			t.Errorf("%v, want %s", err, want)
		}
	}
	write("a same\nb same\n")
	if _, err := ImportCredentials(tokens, file, []string{"what"}); err == nil || !strings.Contains(err.Error(), `unknown right "what"`) {
		t.Error(err)
	}
	if after, _ := os.ReadFile(tokens); string(after) != string(before) {
		t.Errorf("something was imported: %s", after)
	}
	if list, err := ImportCredentials(tokens, file, []string{"role:web"}); err != nil || len(list) != 2 {
		t.Fatal(list, err)
	}
	after, _ := os.ReadFile(tokens)
	callers, err := ReadCallers(tokens)
	if err != nil || callers.Len() != 3 || strings.Contains(string(after), "same") || callers.List()[1].Sha256 == callers.List()[2].Sha256 {
		t.Fatalf("%v %s", err, after)
	}
	now := time.Now()
	for _, c := range []struct {
		name, secret string
		is           bool
	}{{"a", "same", true}, {"b", "same", true}, {"old", token, true}, {"a", token, false}, {"old", "same", false}, {"a", "", false}, {"", "same", false}, {"c", "same", false}} {
		by, err := callers.FindPrincipal(c.name, c.secret, now)
		if c.is != (err == nil) || c.is && by.Name != c.name || !c.is && !errors.Is(err, ErrUnknownToken) {
			t.Errorf("%q %q: %v %v", c.name, c.secret, by, err)
		}
	}
	for _, bearer := range []string{"same", callers.List()[1].Sha256, ""} { // a secret without its name is nothing
		if by, err := callers.Find(bearer, now); !errors.Is(err, ErrUnknownToken) {
			t.Errorf("%q: %v", bearer, by)
		}
	}
	expired := now.Add(-time.Second)
	callers.List()[1].Expires = &expired
	expiry := (*ExpiredError)(nil)
	if _, err := callers.FindPrincipal("a", "same", now); !errors.As(err, &expiry) || expiry.Name != "a" {
		t.Error(err)
	}
	if _, err := callers.FindPrincipal("a", "wrong", now); !errors.Is(err, ErrUnknownToken) {
		t.Error("who has not the secret gets to know that it expired", err)
	}
}
