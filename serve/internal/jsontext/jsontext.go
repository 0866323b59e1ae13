// Package jsontext, outside the proof, writes and reads the JSON that messages have most often, without allocations: objects in one line, whose
// texts need no escapes. What it does not take, encoding/json does.
package jsontext

import "encoding/json"

// IsPlain reports whether a text is written between quotes as it is: by encoding/json, with and without escapes for HTML.
func IsPlain(text string) bool {
	for k := 0; k < len(text); k++ {
		switch c := text[k]; {
		case c < ' ', c > '~', c == '"', c == '\\', c == '<', c == '>', c == '&':
			return false
		}
	}
	return true
}

// AppendString appends a text as json.Marshal writes it.
func AppendString(to []byte, text string) []byte {
	if !IsPlain(text) {
		quoted, _ := json.Marshal(text) // a text has no error
		return append(to, quoted...)
	}
	return append(append(append(to, '"'), text...), '"')
}

// Field is a field of an object, as it is written there.
type Field struct {
	Name, Value []byte
}

// Fields appends the fields of an object to some that were read before, in their order. It takes objects without white space, with different names,
// whose values are texts without escapes, of visible ASCII characters and spaces, or integers; and reports whether it took this one.
func Fields(to []Field, object []byte) (fields []Field, is bool) {
	fields, rest := to, object
	if len(rest) < 2 || rest[0] != '{' || rest[len(rest)-1] != '}' {
		return to, false
	}
	for rest = rest[1:]; ; rest = rest[1:] {
		name, size := plainText(rest)
		if size == 0 || len(rest) == size || rest[size] != ':' {
			return to, false
		}
		rest = rest[size+1:]
		_, length := plainText(rest)
		if length == 0 {
			length = integer(rest)
		}
		if length == 0 || length == len(rest) {
			return to, false
		}
		for _, one := range fields[len(to):] {
			if string(one.Name) == string(name) {
				return to, false
			}
		}
		fields, rest = append(fields, Field{name, rest[:length:length]}), rest[length:]
		if rest[0] == '}' && len(rest) == 1 {
			return fields, true
		}
		if rest[0] != ',' {
			return to, false
		}
	}
}

// plainText returns the text that begins with a quote, and its size with quotes, or 0.
func plainText(from []byte) (text []byte, size int) {
	if len(from) == 0 || from[0] != '"' {
		return nil, 0
	}
	for k := 1; k < len(from); k++ {
		switch c := from[k]; {
		case c == '"':
			return from[1:k], k + 1
		case c < ' ', c > '~', c == '\\':
			return nil, 0
		}
	}
	return nil, 0
}

// integer returns the size of an integer of at most 15 digits, or 0.
func integer(from []byte) (size int) {
	digits := 0
	for k, c := range from {
		switch {
		case c == '-' && k == 0:
		case c >= '0' && c <= '9' && digits < 15:
			digits++
		case digits == 0, c >= '0' && c <= '9', c == '.', c == 'e', c == 'E':
			return 0
		default:
			if first := from[k-digits]; first == '0' && digits > 1 {
				return 0
			}
			return k
		}
	}
	return 0
}

// Integer returns the value of an integer that Fields took.
func Integer(value []byte) (number int64, is bool) {
	if len(value) == 0 || value[0] == '"' {
		return 0, false
	}
	isNegative := value[0] == '-'
	for _, c := range value {
		if c != '-' {
			number = number*10 + int64(c-'0')
		}
	}
	if isNegative {
		number = -number
	}
	return number, true
}

// String returns a text that Fields took, without its quotes.
func String(value []byte) (text string, is bool) {
	if len(value) < 2 || value[0] != '"' {
		return "", false
	}
	return string(value[1 : len(value)-1]), true
}
