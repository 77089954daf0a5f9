// Package print has the sentences of what is foretold, for people, and the same as JSON.
package print

import (
	"fmt"
	"strconv"
)

// Size gives bytes as a person reads them.
func Size(bytes int64) string {
	switch {
	case bytes < 1e3:
		return Counted(bytes, "byte", "bytes")
	case bytes < 1e6:
		return fmt.Sprintf("%.1f kB", float64(bytes)/1e3)
	case bytes < 1e9:
		return fmt.Sprintf("%.1f MB", float64(bytes)/1e6)
	}
	return fmt.Sprintf("%.1f GB", float64(bytes)/1e9)
}

// Counted gives a number with what it counts.
func Counted(number int64, one, many string) string {
	return Thousands(number) + " " + oneOf(number, one, many)
}

// oneOf gives the one word where there is one, and the other one of several.
func oneOf(count int64, alone, several string) string {
	if count == 1 {
		return alone
	}
	return several
}

func itOrThem(count int64) string { return oneOf(count, "it", "them") }

// Thousands gives a number with commas between its groups of three digits.
func Thousands(number int64) string {
	text := strconv.FormatInt(number, 10)
	for place := len(text) - 3; place > 0; place -= 3 {
		text = text[:place] + "," + text[place:]
	}
	return text
}
