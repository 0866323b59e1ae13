// Names of the allocator for ids of Mesos'. Outside the proof.

package resources

import (
	"crypto/sha256"
	"encoding/hex"
	"regexp"
	"strings"
)

var isName = regexp.MustCompile(`^[A-Za-z0-9_.-]{1,64}$`)

// IsName reports whether the allocator takes a text as the name of an agent, a framework or a task.
func IsName(text string) bool { return isName.MatchString(text) }

// NameOf returns the allocator's name for an id: the id itself, or a digest if it is too long or has other characters. Two ids never get the same
// name, because an id that begins with `x.` gets a digest too.
func NameOf(id string) string {
	if IsName(id) && !strings.HasPrefix(id, "x.") {
		return id
	}
	return Digest(id)
}

// Digest returns a name that is made from an id.
func Digest(id string) string {
	sum := sha256.Sum256([]byte(id))
	return "x." + hex.EncodeToString(sum[:])[:48]
}

// IsBelow reports whether a role is another one, or below it.
func IsBelow(role, above string) bool {
	return role == above || strings.HasPrefix(role, above+"/")
}
