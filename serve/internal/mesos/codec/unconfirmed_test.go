// Compares the numbers that no published file confirms with the manual's table of them. Outside the proof.

package codec

import (
	"fmt"
	"os"
	"path/filepath"
	"regexp"
	"sort"
	"strings"
	"testing"
)

// unconfirmed returns the names without their messages, each with its number: of the parts that are newer than mesos-go, and of drains. Fields with
// one name and one number count once.
func unconfirmed(t *testing.T) (found []string) {
	t.Helper()
	known := map[string]bool{}
	for _, name := range []string{"scheduler.proto", "master.proto", "quota.proto", "drain.proto"} {
		file, err := files.FindFileByPath(name)
		if err != nil {
			t.Fatal(err)
		}
		for key, value := range numbers(file) {
			if name != "drain.proto" && !isOf(newer, key) || strings.Contains(key, "Entry.") { // which maps have
				continue
			}
			if _, rest, isField := strings.Cut(value, " = "); isField {
				value, _, _ = strings.Cut(rest, ",")
			}
			known[fmt.Sprintf("`%s` %s", key[strings.LastIndexByte(key, '.')+1:], value)] = true
		}
	}
	for one := range known {
		found = append(found, one)
	}
	sort.Strings(found)
	return found
}

func TestUnconfirmedNumbersAreInTheManual(t *testing.T) {
	text, err := os.ReadFile(filepath.Join("..", "..", "..", "..", "docs", "MESOS-API.md"))
	if err != nil {
		t.Skip(err)
	}
	_, table, _ := strings.Cut(string(text), "| Message | Not verified |")
	table, _, _ = strings.Cut(table, "\n\n")
	listed := map[string]bool{}
	for _, one := range regexp.MustCompile("`[A-Za-z_]+` [0-9]+").FindAllString(table, -1) {
		listed[one] = true
	}
	for _, one := range unconfirmed(t) {
		if !listed[one] {
			t.Errorf("%s is not in the table", one)
		}
		delete(listed, one)
	}
	for one := range listed {
		t.Errorf("%s is in the table, and not in the .proto files", one)
	}
}
