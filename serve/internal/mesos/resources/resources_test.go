// Tests of resources. Outside the proof.

package resources

import (
	"math"
	"math/rand"
	"reflect"
	"strings"
	"testing"

	"gateway/internal/mesos/codec"
)

func TestText(t *testing.T) {
	for text, want := range map[string]string{
		"cpus:1.5": "cpus:1.5", "cpus:0.0005": "cpus:0.001", "cpus:0.00049": "", "mem:1024;cpus:2": "cpus:2;mem:1024", "ports:[5-9,1-4,20-20]": "ports:[1-9,20-20]",
		"disk:{b,a,b}": "disk:{a,b}", "cpus(eng):2; cpus:1": "cpus:1;cpus(eng):2", "cpus:1;cpus:2.5": "cpus:3.5", " ; ": "", "x ( a/b ) : 3": "x(a/b):3",
	} {
		if b, err := Parse(text); err != nil || b.Text() != want {
			t.Errorf("%q: %q %v", text, b.Text(), err)
		}
	}
	for _, bad := range []string{"cpus", "cpus:", "cpus:-1", "cpus:NaN", "ports:[9-1]", "ports:[1]", "ports:[1-4294967296]", "disk:{}", "cpus(-a):1", "a b:1", "cpus:2e12"} {
		if b, err := Parse(bad); err == nil {
			t.Errorf("%q: %q", bad, b.Text())
		}
	}
}

func TestThousandths(t *testing.T) {
	for amount, want := range map[float64]uint64{0: 0, 0.1: 100, 0.0015: 2, 0.0004: 0, 1.0005: 1001, 3.9999: 4000, 1024: 1024000} {
		if n, err := Thousandths(amount); err != nil || n != want {
			t.Errorf("%v: %d %v", amount, n, err)
		}
	}
	for _, bad := range []float64{-0.001, math.NaN(), math.Inf(1), 2e9 * 1000} {
		if n, err := Thousandths(bad); err == nil {
			t.Errorf("%v: %d", bad, n)
		}
	}
}

func TestMessages(t *testing.T) {
	b, err := Parse("cpus:1.5;cpus(eng/a):2;ports:[1-9,20-29];disks:{sda,sdb}")
	if err != nil {
		t.Fatal(err)
	}
	for _, style := range []Style{{}, {"eng/a", false}, {"eng/a", true}} {
		list := b.Messages(style)
		again, err := FromMessages(list)
		if err != nil || !reflect.DeepEqual(again, b) {
			t.Errorf("%+v: %s %v", style, again.Text(), err)
		}
		if text := string(list[1].JSON()); strings.Contains(text, "allocation_info") != (style.Allocated != "") || strings.Contains(text, "reservations") != style.Refined {
			t.Errorf("%+v: %s", style, text)
		}
	}
	for text, want := range map[string]string{
		`{"name":"cpus","type":"SCALAR","scalar":{"value":-1}}`:                                             "the amount -1",
		`{"name":"cpus","type":"SCALAR","scalar":{"value":1},"revocable":{}}`:                               "`revocable`",
		`{"name":"cpus","type":"SCALAR","scalar":{"value":1},"shared":{}}`:                                  "`shared`",
		`{"name":"disk","type":"SCALAR","scalar":{"value":1},"disk":{"persistence":{"id":"x"}}}`:            "volumes",
		`{"name":"cpus","type":"SCALAR","scalar":{"value":1},"reservations":[{"role":"a"},{"role":"a/b"}]}`: "2 stacked",
		`{"name":"ports","type":"RANGES","ranges":{"range":[{"begin":1,"end":4294967296}]}}`:                "the range 1-4294967296",
		`{"name":"a b","type":"SCALAR","scalar":{"value":1}}`:                                               "the name",
		`{"name":"cpus","type":"SCALAR","scalar":{"value":1},"role":"a","reservations":[{"role":"a"}]}`:     "both set",
		`{"name":"x","type":"TEXT"}`:                                                                         "the type TEXT",
		`{"name":"cpus","type":"SCALAR","scalar":{"value":1},"role":"-a"}`:                                   "the role",
		`{"name":"x","type":"SET","set":{"item":["a;b"]}}`:                                                   "the item",
		`{"name":"cpus","type":"SCALAR","scalar":{"value":1},"reservations":[{"role":"*x:"}],"future":true}`: "the role",
	} {
		m, err := codec.ReadJSON("mesos.Resource", []byte(text))
		if err != nil {
			t.Fatal(text, err)
		}
		if _, err := FromMessages([]codec.Message{m}); err == nil || !strings.Contains(err.Error(), want) {
			t.Errorf("%s: %v", text, err)
		}
	}
}

// Compares Take with sets of single units.
func TestTake(t *testing.T) {
	random := rand.New(rand.NewSource(1))
	draw := func() Bundle {
		b := Bundle{}
		b.put(Key{"cpus", "*"}, Value{Scalar: uint64(random.Intn(4))})
		var ranges []Range
		for k := random.Intn(4); k > 0; k-- {
			first := uint64(random.Intn(12))
			ranges = joinRanges(ranges, []Range{{first, first + uint64(random.Intn(4))}})
		}
		b.put(Key{"ports", "*"}, Value{Ranges: ranges})
		b.put(Key{"disks", "a"}, Value{Items: joinItems(nil, []string{"a", "b", "c"}[:random.Intn(4)])})
		return b
	}
	units := func(b Bundle) map[string]int {
		all := map[string]int{}
		for key, v := range b {
			all[key.Name] += int(v.Scalar)
			for _, r := range v.Ranges {
				for n := r.First; n <= r.Last; n++ {
					all[key.Name+string(rune('A'+n))]++
				}
			}
			for _, item := range v.Items {
				all[key.Name+item]++
			}
		}
		return all
	}
	for k := 0; k < 3000; k++ {
		has, wants := draw(), draw()
		before, wanted := units(has), units(wants)
		taken := units(has.Take(wants))
		for _, name := range []string{"cpus", "disksa", "disksb", "disksc", "portsA", "portsD", "portsH", "portsP"} {
			want := wanted[name]
			if before[name] < want {
				want = before[name]
			}
			if taken[name] != want || units(has)[name] != before[name]-want || units(wants)[name] != wanted[name]-want {
				t.Fatalf("%s: had %d, wanted %d, took %d", name, before[name], wanted[name], taken[name])
			}
		}
	}
}

func TestIsRole(t *testing.T) {
	for role, want := range map[string]bool{"*": true, "eng": true, "eng/a": true, "": false, "a//b": false, "-a": false, "a-": true, "a/..": false, "a:b": false, "a b": false, "a/*": false,
		strings.Repeat("a", 65): false, "a/b/c/d/e/f/g/h": true, "a/b/c/d/e/f/g/h/i": false} {
		if IsRole(role) != want {
			t.Errorf("%q: %v", role, !want)
		}
	}
}
