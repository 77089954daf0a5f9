package commandline

import (
	"testing"
	"time"
)

// Numbers with their units, and what is none.
func TestBudgetAndEvery(t *testing.T) {
	for word, bytes := range map[string]int64{"20GB": 20e9, "1.5MB": 1500000, "1kB": 1000, "4TB": 4e12, "20": 0, "GB": 0, "0GB": 0, "-1GB": 0, "1e3GB": 0, "20GiB": 0, "999999999TB": 0, "": 0,
		"0.001kB": 1, "0.000kB": 0, "4000000TB": 4e18, "4000001TB": 0} {
		read := &Options{}
		if err := (bytesOf{read}).Set(word); (err == nil) != (bytes > 0) || read.Budget != bytes {
			t.Errorf("%q: %d, %v", word, read.Budget, err)
		}
	}
	for word, every := range map[string]time.Duration{"1d": 24 * time.Hour, "90m": 90 * time.Minute, "2w": 14 * 24 * time.Hour, "1s": time.Second, "12h": 12 * time.Hour, "0d": 0, "d": 0,
		"1y": 0, "400d": 0, "60w": 0, "-1h": 0, "1.5h": 0, "366d": 366 * 24 * time.Hour, "367d": 0, "8784h": 366 * 24 * time.Hour, "8785h": 0, "527040m": 366 * 24 * time.Hour, "527041m": 0,
		"52w": 52 * 7 * 24 * time.Hour, "53w": 0, "999999s": 999999 * time.Second} {
		read := &Options{}
		if err := (everyOf{read}).Set(word); (err == nil) != (every > 0) || read.Every != every {
			t.Errorf("%q: %v, %v", word, read.Every, err)
		}
	}
}
