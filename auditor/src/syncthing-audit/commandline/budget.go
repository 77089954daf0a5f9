package commandline

import (
	"errors"
	"regexp"
	"strconv"
	"time"
)

// bytesOf is the flag of how many bytes each look reads.
type bytesOf struct{ read *Options }

func (b bytesOf) String() string { return "" }

var formOfBytes = regexp.MustCompile(`^([0-9]{1,9}(?:\.[0-9]{1,3})?)(kB|MB|GB|TB)$`)

// Set reads a number with its unit.
func (b bytesOf) Set(value string) error {
	found := formOfBytes.FindStringSubmatch(value)
	if found == nil {
		return errors.New("it is a number with kB, MB, GB or TB, as 20GB")
	}
	number, _ := strconv.ParseFloat(found[1], 64) // its form is that of a number
	if number *= map[string]float64{"kB": 1e3, "MB": 1e6, "GB": 1e9, "TB": 1e12}[found[2]]; number == 0 || number > 4e18 {
		return errors.New("it is at least one byte, and at most 4000000TB")
	}
	b.read.Budget = int64(number)
	return nil
}

// SetBudget has each look read so many bytes, as the flag says it.
func SetBudget(read *Options, word string) error { return bytesOf{read}.Set(word) }

// everyOf is the flag of how often devices are looked at.
type everyOf struct{ read *Options }

func (e everyOf) String() string { return "" }

var formOfEvery = regexp.MustCompile(`^([0-9]{1,6})([smhdw])$`)

// Set reads a number with its unit.
func (e everyOf) Set(value string) error {
	found := formOfEvery.FindStringSubmatch(value)
	if found == nil {
		return errors.New("it is a number with s, m, h, d or w, as 1d")
	}
	number, _ := strconv.Atoi(found[1]) // its form is that of a number
	day := 24 * time.Hour
	unit := map[string]time.Duration{"s": time.Second, "m": time.Minute, "h": time.Hour, "d": day, "w": 7 * day}[found[2]]
	if number == 0 || time.Duration(number) > 366*day/unit {
		return errors.New("it is at least 1s, and at most 366d")
	}
	e.read.Every = time.Duration(number) * unit
	return nil
}
