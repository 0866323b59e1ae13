// Principals of Mesos' credentials files, who authenticate by HTTP Basic. Outside the proof.

package auth

import (
	"bytes"
	"crypto/rand"
	"crypto/subtle"
	"encoding/hex"
	"encoding/json"
	"errors"
	"fmt"
	"io"
	"os"
	"strings"
	"time"

	"gateway/internal/disk"
)

// Credential is a principal of a credentials file, with its secret.
type Credential struct {
	Principal, Secret string
	Line              int // at which it begins
}

const (
	saltSize  = 16
	maxSecret = 4096
)

// saltedDigest is the digest of a secret that a person chose: it is different for each principal, and cannot be used as a token's digest.
func saltedDigest(salt, name, secret string) string {
	return disk.Digest([]byte(salt + "\x00" + name + "\x00" + secret))
}

// FindPrincipal returns the caller of a name, as HTTP Basic has it. The secret is its token, or that of a credentials file. Errors:
// ErrUnknownToken, *ExpiredError.
func (c *Callers) FindPrincipal(name, secret string, now time.Time) (*Caller, error) {
	found := (*Caller)(nil)
	for _, one := range c.list {
		if one.Name == name && one.Salt != "" {
			found = one
		}
	}
	if found == nil {
		by, err := c.Find(secret, now)
		if err == nil && by.Name != name {
			return nil, ErrUnknownToken
		}
		return by, err
	}
	switch sum := saltedDigest(found.Salt, name, secret); {
	case subtle.ConstantTimeCompare([]byte(sum), []byte(strings.ToLower(found.Sha256))) != 1:
		return nil, ErrUnknownToken
	case found.HasExpired(now):
		return nil, &ExpiredError{found.Name, *found.Expires}
	}
	return found, nil
}

// ImportCredentials adds the principals of a credentials file to a tokens file, each with some rights, and returns them: all of them, or none.
func ImportCredentials(tokens, file string, rights []string) ([]Credential, error) {
	text, err := os.ReadFile(file)
	if err != nil {
		return nil, fmt.Errorf("reading credentials: %w", err)
	}
	list, err := ParseCredentials(file, text)
	if err != nil {
		return nil, err
	}
	return list, change(tokens, func(callers []*Caller) ([]*Caller, error) {
		known := map[string]bool{}
		for _, c := range callers {
			known[c.Name] = true
		}
		for _, one := range list {
			if known[one.Principal] {
				return nil, fmt.Errorf("%s: line %d: %s has the principal %q already; nothing is imported: revoke that token first, or remove the line", file, one.Line, tokens, one.Principal)
			}
			salt := make([]byte, saltSize)
			if _, err := rand.Read(salt); err != nil {
				return nil, fmt.Errorf("creating a salt: %w", err)
			}
			c := &Caller{Name: one.Principal, Salt: hex.EncodeToString(salt), Rights: append([]string{}, rights...)}
			c.Sha256 = saltedDigest(c.Salt, c.Name, one.Secret)
			callers = append(callers, c)
		}
		return callers, nil
	})
}

// ParseCredentials reads a credentials file in either of Mesos' forms: JSON, or a principal and a secret in each line. Errors name the line,
// and no secret.
func ParseCredentials(path string, text []byte) (list []Credential, err error) {
	at := func(line int, format string, values ...interface{}) error {
		return fmt.Errorf("%s: line %d: "+format, append([]interface{}{path, line}, values...)...)
	}
	if bytes.HasPrefix(bytes.TrimSpace(text), []byte("{")) {
		list, err = parseJSONCredentials(text, at)
	} else {
		list, err = parseTextCredentials(text, at)
	}
	if err != nil {
		return nil, err
	}
	seen := map[string]int{}
	for _, one := range list {
		switch {
		case !isName.MatchString(one.Principal):
			return nil, at(one.Line, "the principal %q: expected 1 to 64 letters, digits, dots, dashes and underscores", one.Principal)
		case internalOwners[one.Principal]:
			return nil, at(one.Line, "the principal %q: this name is reserved for the gateways", one.Principal)
		case one.Secret == "" || len(one.Secret) > maxSecret:
			return nil, at(one.Line, "the secret of %q: expected 1 to %d bytes", one.Principal, maxSecret)
		case seen[one.Principal] > 0:
			return nil, at(one.Line, "the principal %q is in line %d too", one.Principal, seen[one.Principal])
		}
		seen[one.Principal] = one.Line
	}
	if len(list) == 0 {
		return nil, fmt.Errorf("%s: there are no credentials: expected lines of a principal and a secret, or {\"credentials\":[{\"principal\":..,\"secret\":..},..]}", path)
	}
	return list, nil
}

type errorAt func(line int, format string, values ...interface{}) error

func parseTextCredentials(text []byte, at errorAt) (list []Credential, err error) {
	for k, line := range strings.Split(string(text), "\n") {
		words := strings.Fields(line)
		if len(words) == 0 {
			continue
		}
		if len(words) != 2 {
			return nil, at(k+1, "%d words: expected a principal and a secret", len(words))
		}
		list = append(list, Credential{words[0], words[1], k + 1})
	}
	return list, nil
}

var errForm = errors.New(`expected {"credentials":[{"principal":..,"secret":..},..]}`)

func parseJSONCredentials(text []byte, at errorAt) (list []Credential, err error) {
	reader := json.NewDecoder(bytes.NewReader(text))
	line := func() int { // of what comes next
		rest := bytes.TrimLeft(text[reader.InputOffset():], " \t\r\n,:")
		return 1 + bytes.Count(text[:len(text)-len(rest)], []byte("\n"))
	}
	expect := func(want json.Token) error {
		here := line()
		switch token, err := reader.Token(); {
		case err != nil:
			return at(here, "it is not JSON: %v", withoutOffset(err))
		case token != want:
			return at(here, "%v", errForm)
		}
		return nil
	}
	for _, want := range []json.Token{json.Delim('{'), "credentials", json.Delim('[')} {
		if err := expect(want); err != nil {
			return nil, err
		}
	}
	for reader.More() {
		here := line()
		var one map[string]string
		if err := reader.Decode(&one); err != nil {
			return nil, at(here, "%v (%v)", errForm, withoutOffset(err))
		}
		principal, isOne := one["principal"]
		secret, isOther := one["secret"]
		if !isOne || !isOther || len(one) != 2 {
			return nil, at(here, "%v", errForm)
		}
		list = append(list, Credential{principal, secret, here})
	}
	for _, want := range []json.Token{json.Delim(']'), json.Delim('}')} {
		if err := expect(want); err != nil {
			return nil, err
		}
	}
	here := line()
	if _, err := reader.Token(); !errors.Is(err, io.EOF) {
		return nil, at(here, "there is more after the credentials")
	}
	return list, nil
}

// withoutOffset returns an error of the JSON reader as a text that contains nothing of the file.
func withoutOffset(err error) string {
	syntax, kind := (*json.SyntaxError)(nil), (*json.UnmarshalTypeError)(nil)
	switch {
	case errors.Is(err, io.EOF), errors.Is(err, io.ErrUnexpectedEOF):
		return "it ends too early"
	case errors.As(err, &syntax):
		return "a character that is not expected"
	case errors.As(err, &kind):
		return "a " + kind.Value + " that is not expected"
	}
	return "unreadable"
}
