// Values of JSON documents, with their places. Outside the proof.

package document

import (
	"bytes"
	"encoding/json"
	"errors"
	"fmt"
	"io"
	"strconv"
)

// value is a value of a document, and its place. A missing value and null are nil.
type value struct {
	r     *reader
	place string
	data  any
}

// parse reads a whole document.
func (r *reader) parse(answer Answer) value {
	v := value{r: r, place: answer.Name}
	if answer.Body == nil || r.err != nil {
		return v
	}
	decoder := json.NewDecoder(bytes.NewReader(answer.Body))
	decoder.UseNumber()
	err := decoder.Decode(&v.data)
	end := decoder.InputOffset()
	var syntax *json.SyntaxError
	switch {
	case errors.Is(err, io.EOF) || errors.Is(err, io.ErrUnexpectedEOF):
		r.fail(value{place: lineOf(answer, int64(len(answer.Body)))}, "the document is cut: expected more")
	case errors.As(err, &syntax):
		r.fail(value{place: lineOf(answer, syntax.Offset)}, "not JSON: %v", syntax)
	case err != nil:
		r.fail(v, "not JSON: %v", err)
	case len(bytes.TrimSpace(answer.Body[end:])) > 0:
		rest := bytes.TrimLeft(answer.Body[end:], " \t\r\n")
		r.fail(value{place: lineOf(answer, int64(len(answer.Body)-len(rest))+1)}, "expected nothing after the document")
	}
	if r.err != nil {
		v.data = nil
	}
	return v
}

// lineOf returns the place of the byte before an offset.
func lineOf(answer Answer, offset int64) string {
	before := answer.Body[:offset]
	return fmt.Sprintf("%s line %d column %d", answer.Name, bytes.Count(before, []byte("\n"))+1, len(before)-bytes.LastIndexByte(before, '\n')-1)
}

func (v value) exists() bool { return v.data != nil }

// field returns a field of an object.
func (v value) field(key string) value {
	place := v.place + "." + key
	if len(v.place) > 0 && v.place[len(v.place)-1] == ' ' {
		place = v.place + key
	}
	return value{v.r, place, v.object()[key]}
}

// root returns the document so that the places of its fields begin with the document's name.
func (v value) root() value {
	v.place += ": "
	return v
}

func (v value) object() map[string]any {
	object, isObject := v.data.(map[string]any)
	if v.exists() && !isObject {
		v.r.fail(v, "expected an object")
	}
	return object
}

func (v value) list() (list []value) {
	items, isList := v.data.([]any)
	if v.exists() && !isList {
		v.r.fail(v, "expected an array")
	}
	for k, item := range items {
		list = append(list, value{v.r, fmt.Sprintf("%s[%d]", v.place, k), item})
	}
	return list
}

func (v value) text() string {
	text, isText := v.data.(string)
	if v.exists() && !isText {
		v.r.fail(v, "expected a text")
	}
	return text
}

// required returns a text that must not be empty.
func (v value) required() string {
	text := v.text()
	if text == "" {
		v.r.fail(v, "missing or empty: expected a text")
	}
	return text
}

func (v value) flag(missing bool) bool {
	if !v.exists() {
		return missing
	}
	flag, isFlag := v.data.(bool)
	if !isFlag {
		v.r.fail(v, "expected true or false")
	}
	return flag
}

// number returns a number, and 0 for a missing one.
func (v value) number() float64 {
	if !v.exists() {
		return 0
	}
	digits, isNumber := v.data.(json.Number)
	if !isNumber {
		v.r.fail(v, "expected a number")
		return 0
	}
	number, err := strconv.ParseFloat(digits.String(), 64)
	if err != nil {
		v.r.fail(v, "the number %s is out of range", digits)
	}
	return number
}

// only reports the fields of an object that are not known. Each is reported at its first place.
func (v value) only(kind string, known map[string]bool) {
	object := v.object()
	for _, key := range sortedKeys(object) {
		if known[key] {
			continue
		}
		index, isSeen := v.r.unknown[kind+"."+key]
		if !isSeen {
			v.r.unknown[kind+"."+key] = len(v.r.cluster.LeftOut)
			v.r.leaveOut(v.field(key), "the field "+key+" of "+kind, "1")
			continue
		}
		times, _ := strconv.Atoi(v.r.cluster.LeftOut[index].Reason)
		v.r.cluster.LeftOut[index].Reason = strconv.Itoa(times + 1)
	}
}
