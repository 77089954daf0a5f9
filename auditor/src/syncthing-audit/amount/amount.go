// Package amount says how much something is.
package amount

import "fmt"

// Of gives a number with its word, which ends with an s unless the number is 1.
func Of[N int | int64](number N, word string) string {
	if number == 1 {
		return "1 " + word
	}
	return fmt.Sprintf("%d %ss", number, word)
}

// Bytes gives bytes as a person reads them.
func Bytes(bytes int64) string {
	if bytes >= 1e10 {
		return fmt.Sprintf("%.1f GB", float64(bytes)/1e9)
	}
	return fmt.Sprintf("%.0f MB", float64(bytes)/1e6)
}
