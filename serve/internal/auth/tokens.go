// Package auth, outside the proof, decides which callers may make which calls: tokens, their rights, and lines that are rewritten so that the
// allocator reads exactly what was judged.
package auth

import (
	"bytes"
	"crypto/rand"
	"crypto/sha256"
	"crypto/subtle"
	"encoding/hex"
	"encoding/json"
	"errors"
	"fmt"
	"os"
	"regexp"
	"strings"
	"time"

	"gateway/internal/disk"
)

// Caller is the owner of a token. Its rights are admin, operate, clock, read, framework:NAME, role:ROLE, agent:NAME, agent:PREFIX* or user:NAME.
type Caller struct {
	Name    string     `json:"name"`
	Sha256  string     `json:"sha256"`
	Salt    string     `json:"salt,omitempty"` // of a secret that is used with the name alone, by HTTP Basic, or empty: of a token
	Rights  []string   `json:"rights"`
	Expires *time.Time `json:"expires,omitempty"` // or nil: never

	sum []byte // Sha256, decoded
}

// HasExpired reports whether a caller's token is no longer valid.
func (c *Caller) HasExpired(now time.Time) bool { return c.Expires != nil && !now.Before(*c.Expires) }

// Errors of tokens files and of tokens.
var (
	ErrUnknownToken = errors.New("unknown token")
	ErrNoCaller     = errors.New("no token has this name")
)

// ExpiredError reports that a token was valid once.
type ExpiredError struct {
	Name string
	At   time.Time
}

func (e *ExpiredError) Error() string {
	return fmt.Sprintf("the token %q expired at %s: ask for a new one", e.Name, e.At.UTC().Format(time.RFC3339))
}

// Callers is the content of a tokens file.
type Callers struct {
	list     []*Caller
	replaced chan struct{}
}

// internalOwners own the keys of messages that gateways append for themselves.
var internalOwners = map[string]bool{"cycle": true, "rescind": true, "silent": true, "state": true}

const rightsText = "admin, operate, clock, read, framework:NAME, role:ROLE, agent:NAME, agent:PREFIX* or user:NAME"

var (
	isName  = regexp.MustCompile(`^[A-Za-z0-9_.-]{1,64}$`)
	isRight = regexp.MustCompile(`^(admin|operate|clock|read|framework:[A-Za-z0-9_.-]{1,64}|agent:[A-Za-z0-9_.-]{0,64}\*?|role:[!-~]{1,64}|user:[A-Za-z0-9_][A-Za-z0-9_.-]{0,31}\$?)$`)
)

// IsName reports whether a text may name a caller, an agent or a framework in a path.
func IsName(text string) bool { return isName.MatchString(text) }

// ReadCallers reads a tokens file.
func ReadCallers(path string) (*Callers, error) {
	text, err := os.ReadFile(path)
	if err != nil {
		return nil, fmt.Errorf("reading tokens: %w", err)
	}
	return parse(path, text)
}

func parse(path string, text []byte) (*Callers, error) {
	callers := &Callers{replaced: make(chan struct{})}
	reader := json.NewDecoder(bytes.NewReader(text))
	reader.DisallowUnknownFields()
	if err := reader.Decode(&callers.list); err != nil {
		return nil, fmt.Errorf("%s: not a valid file of tokens: %w", path, err)
	}
	names := map[string]bool{}
	for k, c := range callers.list {
		if c == nil {
			return nil, fmt.Errorf("%s: entry %d is null", path, k)
		}
		if sum, err := hex.DecodeString(c.Sha256); err != nil || len(sum) != sha256.Size {
			return nil, fmt.Errorf("%s: token %q: %q is not a SHA-256 in hexadecimal", path, c.Name, c.Sha256)
		}
		c.sum, _ = hex.DecodeString(c.Sha256)
		switch {
		case !isName.MatchString(c.Name):
			return nil, fmt.Errorf("%s: token %q: expected a name of 1 to 64 letters, digits, dots, dashes and underscores", path, c.Name)
		case internalOwners[c.Name]:
			return nil, fmt.Errorf("%s: token %q: this name is reserved for the gateways", path, c.Name)
		case names[c.Name]:
			return nil, fmt.Errorf("%s: token %q: this name is already in use", path, c.Name)
		}
		if salt, err := hex.DecodeString(c.Salt); err != nil || len(salt) != 0 && len(salt) != saltSize {
			return nil, fmt.Errorf("%s: token %q: the salt is not %d bytes in hexadecimal", path, c.Name, saltSize)
		}
		names[c.Name] = true
		for _, right := range c.Rights {
			if !isRight.MatchString(right) {
				return nil, fmt.Errorf("%s: token %q: unknown right %q; expected %s", path, c.Name, right, rightsText)
			}
		}
	}
	return callers, nil
}

// change rewrites a tokens file. Two processes may do that at once. A file that would be wrong is not written.
func change(path string, edit func([]*Caller) ([]*Caller, error)) error {
	unlock, err := disk.Lock(path + ".lock")
	if err != nil {
		return err
	}
	defer unlock()
	callers, err := ReadCallers(path)
	if errors.Is(err, os.ErrNotExist) {
		callers, err = &Callers{}, nil
	}
	if err != nil {
		return err
	}
	list, err := edit(callers.list)
	if err != nil {
		return err
	}
	text, err := json.MarshalIndent(list, "", "  ")
	if err == nil {
		_, err = parse(path, text)
	}
	if err == nil {
		err = disk.WriteFile(path, append(text, '\n'))
	}
	return err
}

// AddCaller creates a token, adds its digest to a file, and returns it. It is valid until a time, or always where that is zero.
func AddCaller(path, name string, rights []string, expires time.Time) (string, error) {
	secret := make([]byte, 24)
	if _, err := rand.Read(secret); err != nil {
		return "", fmt.Errorf("creating a token: %w", err)
	}
	token := hex.EncodeToString(secret)
	caller := &Caller{Name: name, Sha256: disk.Digest([]byte(token)), Rights: rights}
	if !expires.IsZero() {
		expires = expires.UTC().Truncate(time.Second)
		caller.Expires = &expires
	}
	err := change(path, func(list []*Caller) ([]*Caller, error) { return append(list, caller), nil })
	if err != nil {
		return "", err
	}
	return token, nil
}

// RevokeCaller removes a token from a file. It returns ErrNoCaller when the file has none of the name.
func RevokeCaller(path, name string) error {
	return change(path, func(list []*Caller) ([]*Caller, error) {
		for k, c := range list {
			if c.Name == name {
				return append(list[:k:k], list[k+1:]...), nil
			}
		}
		return nil, fmt.Errorf("%s: token %q: %w", path, name, ErrNoCaller)
	})
}

// List returns the callers in the order of the file.
func (c *Callers) List() []*Caller { return c.list }

// Renewed returns the same callers, whose streams end separately from those that are open.
func (c *Callers) Renewed() *Callers { return &Callers{list: c.list, replaced: make(chan struct{})} }

// Len returns the number of callers.
func (c *Callers) Len() int { return len(c.list) }

// Replace is called when the file is read again: streams of its callers end.
func (c *Callers) Replace() { close(c.replaced) }

// Replaced returns a channel that is closed when the file is read again.
func (c *Callers) Replaced() <-chan struct{} { return c.replaced }

// Find returns the caller with a token. It compares with every token, so that the time does not show which one matches. Errors: ErrUnknownToken,
// *ExpiredError.
func (c *Callers) Find(token string, now time.Time) (*Caller, error) {
	found := (*Caller)(nil)
	sum := sha256.Sum256([]byte(token))
	for _, one := range c.list {
		if subtle.ConstantTimeCompare(sum[:], one.sum) == 1 && one.Salt == "" {
			found = one
		}
	}
	switch {
	case found == nil:
		return nil, ErrUnknownToken
	case found.HasExpired(now):
		return nil, &ExpiredError{found.Name, *found.Expires}
	}
	return found, nil
}

// BearerToken returns the token of an Authorization header. The scheme may be in any case.
func BearerToken(header string) (string, bool) {
	scheme, token, found := strings.Cut(header, " ")
	if !found || !strings.EqualFold(scheme, "Bearer") {
		return "", false
	}
	return strings.TrimLeft(token, " "), true
}
