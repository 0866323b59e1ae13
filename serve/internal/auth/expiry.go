// How long a token is valid, as an operator writes it. Outside the proof.

package auth

import (
	"fmt"
	"strconv"
	"strings"
	"time"
)

const maxDays = 36_500 // a hundred years: more is an error of who writes it

// ParseExpiry returns the time at which a token expires: after a number of days or hours, such as 30d or 12h, at a time such as
// 2027-01-31T12:00:00Z, or at the end of a day in UTC, such as 2027-01-31. It must be after now.
func ParseExpiry(text string, now time.Time) (time.Time, error) {
	at, err := parseExpiry(text, now)
	switch {
	case err != nil:
		return at, fmt.Errorf("%q: expected a number of days or hours such as 30d or 12h, a day such as 2027-01-31, or a time such as 2027-01-31T12:00:00Z", text)
	case !at.After(now):
		return at, fmt.Errorf("%q: this time has passed", text)
	case at.After(now.AddDate(0, 0, maxDays)):
		return at, fmt.Errorf("%q: expected at most %d days", text, maxDays)
	}
	return at, nil
}

func parseExpiry(text string, now time.Time) (time.Time, error) {
	for unit, length := range map[string]time.Duration{"d": 24 * time.Hour, "h": time.Hour} {
		if number := strings.TrimSuffix(text, unit); number != text {
			count, err := strconv.ParseUint(number, 10, 31)
			if limit := uint64(maxDays * 24 * time.Hour / length); count > limit {
				count = limit + 1
			}
			return now.Add(time.Duration(count) * length), err
		}
	}
	if day, err := time.ParseInLocation("2006-01-02", text, time.UTC); err == nil {
		return day.AddDate(0, 0, 1), nil
	}
	return time.Parse(time.RFC3339, text)
}
