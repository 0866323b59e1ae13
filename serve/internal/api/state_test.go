// Tests of differences between states. Outside the proof.

package api

import (
	"encoding/json"
	"fmt"
	"math/rand"
	"reflect"
	"strings"
	"testing"
	"time"
)

// apply does with edits what the page does.
func apply(t *testing.T, old, edits []string) (rows []string) {
	for _, edit := range edits {
		var run [2]int
		if strings.HasPrefix(edit, "[") {
			if err := json.Unmarshal([]byte(edit), &run); err != nil {
				t.Fatal(err)
			}
			rows = append(rows, old[run[0]:run[0]+run[1]]...)
		} else {
			rows = append(rows, edit)
		}
	}
	return rows
}

func TestEdits(t *testing.T) {
	chance := rand.New(rand.NewSource(3))
	for n := 0; n < 500; n++ {
		var old, new []string
		for k := chance.Intn(30); k > 0; k-- {
			old = append(old, fmt.Sprintf(`{"row":%d}`, chance.Intn(40)))
		}
		for _, row := range old {
			if chance.Intn(4) > 0 {
				new = append(new, row)
			}
			if chance.Intn(4) == 0 {
				new = append(new, fmt.Sprintf(`{"row":%d}`, chance.Intn(60)))
			}
		}
		if got := apply(t, old, edits(old, new)); !reflect.DeepEqual(got, new) {
			t.Fatalf("%v to %v became %v by %v", old, new, got, edits(old, new))
		}
	}
	var large []string
	for k := 0; k < 10_000; k++ {
		large = append(large, fmt.Sprintf(`{"row":%d}`, k))
	}
	changed := append(append(append([]string(nil), large[:500]...), `{"row":"new"}`), large[501:]...)
	if got := edits(large, changed); !reflect.DeepEqual(got, []string{"[0,500]", `{"row":"new"}`, "[501,9499]"}) {
		t.Error(len(got), got)
	}
}

func TestCacheOfStates(t *testing.T) {
	c := &stateCache{}
	for n := int64(1); n <= 5; n++ {
		c.add(cachedState{n, time.Now(), []string{fmt.Sprint(n)}})
	}
	c.add(cachedState{2, time.Now(), nil})
	if _, is := c.find(2); is {
		t.Error("an old state is kept")
	}
	if rows, is := c.find(4); !is || rows[0] != "4" {
		t.Error(rows, is)
	}
	if s, is := c.fresh(); !is || s.message != 5 {
		t.Error(s, is)
	}
	c.states[len(c.states)-1].at = time.Now().Add(-2 * freshFor)
	if _, is := c.fresh(); is {
		t.Error("an old state is fresh")
	}
}
