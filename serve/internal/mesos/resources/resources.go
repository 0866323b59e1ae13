// Package resources converts resources between Mesos' messages and the allocator's text. Outside the proof.
package resources

import (
	"fmt"
	"math"
	"regexp"
	"sort"
	"strconv"
	"strings"
)

// Key is the name of a resource, and the role that it is reserved for, or `*`.
type Key struct{ Name, Role string }

// Range is numbers from the first to the last.
type Range struct{ First, Last uint64 }

// Value is an amount: thousandths of a scalar, or disjoint ranges in order, or items in order.
type Value struct {
	Scalar uint64
	Ranges []Range
	Items  []string
}

func (v Value) isEmpty() bool { return v.Scalar == 0 && len(v.Ranges) == 0 && len(v.Items) == 0 }

// AddRanges adds ranges, which may be in any order.
func (v *Value) AddRanges(ranges ...Range) { v.Ranges = joinRanges(v.Ranges, ranges) }

// AddItems adds items, which may be in any order.
func (v *Value) AddItems(items ...string) { v.Items = joinItems(v.Items, items) }

// Bundle is resources. An empty value is not in it.
type Bundle map[Key]Value

const (
	// MaxAmount is the greatest amount of a scalar, in thousandths.
	MaxAmount = 1<<40 - 1
	// MaxNumber is the greatest number of a range.
	MaxNumber = 1<<32 - 1
)

// Keys returns the keys in order.
func (b Bundle) Keys() []Key {
	keys := make([]Key, 0, len(b))
	for key := range b {
		keys = append(keys, key)
	}
	sort.Slice(keys, func(i, j int) bool {
		return keys[i].Name < keys[j].Name || keys[i].Name == keys[j].Name && keys[i].Role < keys[j].Role
	})
	return keys
}

// Copy returns a copy.
func (b Bundle) Copy() Bundle {
	copied := make(Bundle, len(b))
	for key, value := range b {
		copied[key] = value
	}
	return copied
}

func (b Bundle) put(key Key, value Value) {
	if delete(b, key); !value.isEmpty() {
		b[key] = value
	}
}

// Add adds resources. Numbers and items that are in both count once.
func (b Bundle) Add(more Bundle) {
	for key, v := range more {
		mine := b[key]
		b.put(key, Value{mine.Scalar + v.Scalar, joinRanges(mine.Ranges, v.Ranges), joinItems(mine.Items, v.Items)})
	}
}

// Take moves the wanted resources out of b, as far as b has them. It returns what it moved, and removes it from wanted.
func (b Bundle) Take(wanted Bundle) Bundle {
	taken := Bundle{}
	for key, w := range wanted.Copy() {
		mine := b[key]
		v := Value{w.Scalar, commonRanges(mine.Ranges, w.Ranges), commonItems(mine.Items, w.Items)}
		if mine.Scalar < v.Scalar {
			v.Scalar = mine.Scalar
		}
		taken.put(key, v)
		b.put(key, mine.without(v))
		wanted.put(key, w.without(v))
	}
	return taken
}

// TakeFor moves the resources that a role wants (without reservations) out of b, and returns them. What b lacks remains in wanted. Reservations for
// the role are used first, then those for the roles above it, and then unreserved resources, so that no resources are taken that more roles could
// use.
func (b Bundle) TakeFor(role string, wanted Bundle) Bundle {
	taken := Bundle{}
	for _, reservation := range reservationsFor(role) {
		if len(b) == 0 || len(wanted) == 0 {
			break
		}
		ask := make(Bundle, len(wanted))
		for key, v := range wanted {
			ask[Key{key.Name, reservation}] = v
			delete(wanted, key)
		}
		taken.Add(b.Take(ask))
		for key, v := range ask {
			wanted[Key{key.Name, "*"}] = v
		}
	}
	return taken
}

// reservationsFor returns the roles whose reservations a role may use, the deepest first, and `*`.
func reservationsFor(role string) (roles []string) {
	for role != "" && role != "*" {
		roles = append(roles, role)
		cut := strings.LastIndexByte(role, '/')
		if cut < 0 {
			break
		}
		role = role[:cut]
	}
	return append(roles, "*")
}

func (v Value) without(other Value) Value {
	return Value{v.Scalar - other.Scalar, withoutRanges(v.Ranges, other.Ranges), withoutItems(v.Items, other.Items)}
}

func joinRanges(a, b []Range) (joined []Range) {
	all := append(append([]Range(nil), a...), b...)
	sort.Slice(all, func(i, j int) bool { return all[i].First < all[j].First })
	for _, r := range all {
		last := len(joined) - 1
		switch {
		case last < 0 || r.First > joined[last].Last+1:
			joined = append(joined, r)
		case r.Last > joined[last].Last:
			joined[last].Last = r.Last
		}
	}
	return joined
}

// commonRanges and withoutRanges take ranges that are disjoint and in order.
func commonRanges(a, b []Range) (common []Range) {
	for i, j := 0, 0; i < len(a) && j < len(b); {
		r := Range{max(a[i].First, b[j].First), min(a[i].Last, b[j].Last)}
		if r.First <= r.Last {
			common = append(common, r)
		}
		if a[i].Last < b[j].Last {
			i++
		} else {
			j++
		}
	}
	return common
}

func withoutRanges(a, b []Range) (rest []Range) {
	j := 0
	for _, r := range a {
		for j < len(b) && b[j].Last < r.First {
			j++
		}
		for k := j; k < len(b) && b[k].First <= r.Last; k++ {
			if b[k].First > r.First {
				rest = append(rest, Range{r.First, b[k].First - 1})
			}
			r.First = b[k].Last + 1
		}
		if r.First <= r.Last {
			rest = append(rest, r)
		}
	}
	return rest
}

func max(a, b uint64) uint64 {
	if a > b {
		return a
	}
	return b
}

func min(a, b uint64) uint64 { return a + b - max(a, b) }

func joinItems(a, b []string) (joined []string) {
	for _, item := range sorted(append(append([]string(nil), a...), b...)) {
		if len(joined) == 0 || joined[len(joined)-1] != item {
			joined = append(joined, item)
		}
	}
	return joined
}

func sorted(items []string) []string {
	sort.Strings(items)
	return items
}

func commonItems(a, b []string) []string  { return chosen(a, b, true) }
func withoutItems(a, b []string) []string { return chosen(a, b, false) }

func chosen(a, b []string, isIn bool) (items []string) {
	in := map[string]bool{}
	for _, item := range b {
		in[item] = true
	}
	for _, item := range a {
		if in[item] == isIn {
			items = append(items, item)
		}
	}
	return items
}

// Text returns the allocator's text.
func (b Bundle) Text() string {
	var pieces []string
	for _, key := range b.Keys() {
		name, v := key.Name, b[key]
		if key.Role != "*" {
			name += "(" + key.Role + ")"
		}
		switch {
		case len(v.Ranges) > 0:
			var ranges []string
			for _, r := range v.Ranges {
				ranges = append(ranges, fmt.Sprintf("%d-%d", r.First, r.Last))
			}
			pieces = append(pieces, name+":["+strings.Join(ranges, ",")+"]")
		case len(v.Items) > 0:
			pieces = append(pieces, name+":{"+strings.Join(v.Items, ",")+"}")
		default:
			pieces = append(pieces, name+":"+AmountText(v.Scalar))
		}
	}
	return strings.Join(pieces, ";")
}

// AmountText returns an amount of thousandths as the allocator writes it.
func AmountText(thousandths uint64) string {
	text := fmt.Sprintf("%d.%03d", thousandths/1000, thousandths%1000)
	return strings.TrimSuffix(strings.TrimRight(text, "0"), ".")
}

var isPiece = regexp.MustCompile(`^\s*([^():;\s]+)\s*(?:\(\s*([^():;]+?)\s*\))?\s*:\s*(.*?)\s*$`)

// Parse reads the allocator's text, and resources as people write them for a machine.
func Parse(text string) (Bundle, error) {
	b := Bundle{}
	for _, piece := range strings.Split(text, ";") {
		if strings.TrimSpace(piece) == "" {
			continue
		}
		parts := isPiece.FindStringSubmatch(piece)
		if parts == nil {
			return nil, fmt.Errorf("resources %q: expected NAME:AMOUNT, NAME:[FIRST-LAST,..] or NAME:{ITEM,..}", piece)
		}
		key, body := Key{parts[1], parts[2]}, parts[3]
		if key.Role == "" {
			key.Role = "*"
		}
		v, err := parseValue(body)
		if err == nil {
			err = Check(key, v)
		}
		if err != nil {
			return nil, fmt.Errorf("resources %q: %w", piece, err)
		}
		b.Add(Bundle{key: v})
	}
	return b, nil
}

func parseValue(body string) (v Value, err error) {
	if inner := strings.TrimSuffix(strings.TrimPrefix(body, "["), "]"); len(inner) == len(body)-2 && body[0] == '[' {
		for _, one := range strings.Split(inner, ",") {
			first, last, _ := strings.Cut(one, "-")
			a, err := strconv.ParseUint(strings.TrimSpace(first), 10, 32)
			if err != nil {
				return v, err
			}
			z, err := strconv.ParseUint(strings.TrimSpace(last), 10, 32)
			if err != nil {
				return v, err
			}
			if a > z {
				return v, fmt.Errorf("the range %q ends before it begins", one)
			}
			v.Ranges = joinRanges(v.Ranges, []Range{{a, z}})
		}
		return v, nil
	}
	if inner := strings.TrimSuffix(strings.TrimPrefix(body, "{"), "}"); len(inner) == len(body)-2 && body[0] == '{' {
		for _, one := range strings.Split(inner, ",") {
			v.Items = joinItems(v.Items, []string{strings.TrimSpace(one)})
		}
		return v, nil
	}
	amount, err := strconv.ParseFloat(body, 64)
	if err == nil {
		v.Scalar, err = Thousandths(amount)
	}
	return v, err
}

// Thousandths rounds an amount to thousandths, half up, as Mesos does.
func Thousandths(amount float64) (uint64, error) {
	if math.IsNaN(amount) || amount < 0 || amount > MaxAmount/1000 {
		return 0, fmt.Errorf("the amount %v is not from 0 to %d", amount, uint64(MaxAmount/1000))
	}
	return uint64(math.Floor(amount*1000 + 0.5)), nil
}

var (
	isLabel    = regexp.MustCompile(`^[A-Za-z0-9_./-]{1,64}$`)
	isRolePart = regexp.MustCompile(`^[!-'*+,.0-9<-~][!-'*-.0-9<-~]*$`) // visible, without / ( ) : ; and not beginning with a dash
)

// IsRole reports whether the allocator takes a role.
func IsRole(role string) bool {
	parts := strings.Split(role, "/")
	if role == "*" {
		return true
	}
	if len(role) > 64 || len(parts) > 8 {
		return false
	}
	for _, part := range parts {
		if part == "." || part == ".." || part == "*" || !isRolePart.MatchString(part) {
			return false
		}
	}
	return true
}

// Check reports a name, a role or an item that the allocator does not take.
func Check(key Key, v Value) error {
	if !isLabel.MatchString(key.Name) {
		return fmt.Errorf("the name %q: expected 1 to 64 letters, digits, and _ - . /", key.Name)
	}
	if !IsRole(key.Role) {
		return fmt.Errorf("the role %q: expected 1 to 8 parts of visible characters without ( ) : ;, at most 64 bytes", key.Role)
	}
	for _, item := range v.Items {
		if !isLabel.MatchString(item) {
			return fmt.Errorf("the item %q: expected 1 to 64 letters, digits, and _ - . /", item)
		}
	}
	return nil
}
