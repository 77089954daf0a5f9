package ask

import (
	"encoding/hex"
	"fmt"
	"strconv"
	"strings"

	"golang.org/x/exp/slices"
	"syncthing-audit/finding"
)

// Line gives a failure as syncaudit writes it.
func Line(folder string, failure *finding.Failure) string {
	line := failure.Reason + " " + folder + " " + Printed(failure.Name)
	if failure.Device != 0 {
		line += " on " + strconv.FormatUint(failure.Device, 10)
	}
	return line
}

// Printed gives a name as syncaudit writes it: each byte below 0x21, each backslash and 0x7f as \xNN.
func Printed(name string) string {
	var text strings.Builder
	for place := 0; place < len(name); place++ {
		if letter := name[place]; letter < 0x21 || letter == '\\' || letter == 0x7f {
			fmt.Fprintf(&text, `\x%02x`, letter)
		} else {
			text.WriteByte(letter)
		}
	}
	return text.String()
}

// unprinted gives the name that is written so.
func unprinted(text string) (string, bool) {
	var name strings.Builder
	for place := 0; place < len(text); place++ {
		if text[place] != '\\' {
			name.WriteByte(text[place])
			continue
		}
		if place+4 > len(text) || text[place+1] != 'x' {
			return "", false
		}
		letter, err := hex.DecodeString(text[place+2 : place+4])
		if err != nil {
			return "", false
		}
		name.Write(letter)
		place += 3
	}
	return name.String(), true
}

// readFailures reads lines of what an answer isn't yes for; what is indented below is only said. Each one goes behind the last one, which isn't there
// for the first.
func readFailures(folder, text, yes string, goesBehind func(last, next *finding.Failure) bool) ([]finding.Failure, error) {
	failures := []finding.Failure{}
	var last *finding.Failure
	for rest := text; rest != ""; {
		var line string
		if line, rest, _ = strings.Cut(rest, "\n"); strings.HasPrefix(line, " ") {
			continue
		}
		next, is := readFailure(folder, line, yes)
		if !is {
			return nil, refused("syncaudit tells %q", line)
		}
		if !goesBehind(last, &next) {
			return nil, refused("syncaudit tells %q out of its order", line)
		}
		failures, last = append(failures, next), &next
	}
	return failures, nil
}

// readFailure reads such a line, of a reason for this.
func readFailure(folder, line, yes string) (finding.Failure, bool) {
	words := strings.Split(line, " ")
	if len(words) != 3 && len(words) != 5 || words[1] != folder || !slices.Contains(reasonsOf[yes], words[0]) {
		return finding.Failure{}, false
	}
	name, is := unprinted(words[2])
	failure := finding.Failure{Reason: words[0], Name: name}
	if len(words) == 5 {
		number, err := strconv.ParseUint(words[4], 10, 64)
		is = is && err == nil && words[3] == "on"
		failure.Device = number
	}
	return failure, is
}
