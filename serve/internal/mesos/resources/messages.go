// Resources as Mesos' messages. Outside the proof.

package resources

import (
	"fmt"

	"gateway/internal/mesos/codec"
)

// FromMessages reads the messages of a field such as TaskInfo.resources. What this service does not support is an error that names it.
func FromMessages(list []codec.Message) (Bundle, error) {
	b := Bundle{}
	for _, m := range list {
		key, v, err := fromMessage(m)
		if err != nil {
			return nil, fmt.Errorf("resource %q: %w", m.Text("name"), err)
		}
		b.Add(Bundle{key: v})
	}
	return b, nil
}

func fromMessage(m codec.Message) (key Key, v Value, err error) {
	for _, field := range []string{"provider_id", "revocable", "shared"} {
		if m.Has(field) {
			return key, v, fmt.Errorf("`%s` is not supported", field)
		}
	}
	if m.Has("disk.persistence") || m.Has("disk.volume") || m.Has("disk.source") {
		return key, v, fmt.Errorf("volumes and sources of disks are not supported")
	}
	role, err := roleOf(m)
	if err != nil {
		return key, v, err
	}
	key = Key{m.Text("name"), role}
	switch m.Enum("type") {
	case "SCALAR":
		v.Scalar, err = Thousandths(m.Float("scalar.value"))
	case "RANGES":
		for _, r := range m.List("ranges.range") {
			one := Range{r.Uint("begin"), r.Uint("end")}
			if one.First > one.Last || one.Last > MaxNumber {
				return key, v, fmt.Errorf("the range %d-%d: expected numbers in order, up to %d", one.First, one.Last, uint64(MaxNumber))
			}
			v.Ranges = joinRanges(v.Ranges, []Range{one})
		}
	case "SET":
		for _, item := range textsOf(m) {
			v.Items = joinItems(v.Items, []string{item})
		}
	default:
		return key, v, fmt.Errorf("the type %s is not SCALAR, RANGES or SET", m.Enum("type"))
	}
	if err == nil {
		err = Check(key, v)
	}
	return key, v, err
}

func textsOf(m codec.Message) []string { return m.Texts("set.item") }

// roleOf returns the role that a resource is reserved for, in the older or the newer form.
func roleOf(m codec.Message) (string, error) {
	reservations := m.List("reservations")
	role := m.Text("role") // its default is `*`
	switch {
	case len(reservations) > 1:
		return "", fmt.Errorf("%d stacked reservations are not supported: expected at most one", len(reservations))
	case len(reservations) == 1 && m.Has("role") && role != "*":
		return "", fmt.Errorf("`role` and `reservations` are both set")
	case len(reservations) == 1:
		return reservations[0].Text("role"), nil
	}
	return role, nil
}

// Style is how resources are written for a framework.
type Style struct {
	Allocated string // the role that they are offered to, or empty for a framework that has one role
	Refined   bool   // reservations are written in the newer form
}

// Messages writes resources.
func (b Bundle) Messages(style Style) (list []codec.Message) {
	for _, key := range b.Keys() {
		v, m := b[key], codec.New("mesos.Resource").Set("name", key.Name)
		switch {
		case len(v.Ranges) > 0:
			m.Set("type", "RANGES")
			ranges := codec.New("mesos.Value.Ranges")
			for _, r := range v.Ranges {
				ranges.Add("range", codec.New("mesos.Value.Range").Set("begin", int64(r.First)).Set("end", int64(r.Last)))
			}
			m.Set("ranges", ranges)
		case len(v.Items) > 0:
			m.Set("type", "SET")
			items := codec.New("mesos.Value.Set")
			for _, item := range v.Items {
				items.Add("item", item)
			}
			m.Set("set", items)
		default:
			m.Set("type", "SCALAR").Set("scalar.value", float64(v.Scalar)/1000)
		}
		switch {
		case !style.Refined:
			if m.Set("role", key.Role); key.Role != "*" {
				m.Set("reservation", codec.New("mesos.Resource.ReservationInfo"))
			}
		case key.Role != "*":
			m.Add("reservations", codec.New("mesos.Resource.ReservationInfo").Set("type", "DYNAMIC").Set("role", key.Role))
		}
		if style.Allocated != "" {
			m.Set("allocation_info.role", style.Allocated)
		}
		list = append(list, m)
	}
	return list
}
