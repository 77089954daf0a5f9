package main

import (
	"crypto/sha256"
	"strings"

	"syncthing-audit/part"
)

// faults are what may be wrong with each name on the last of the devices, by the words of --each. Each function is given
// what a device in step has of a name. It gives what the device has instead, or nothing.
var faults = map[string]func(line *part.Name, isLast bool) *part.Name{
	"rotten":      onLast(rot),
	"permissions": onLast(func(line *part.Name) { line.Disk.Permissions = 0o600 }),
	"concurrent":  onLast(recordItself),
	"unscanned":   keepUnscanned,
	"long":        rotInLongNames,
}

// onLast has a fault on the last device alone.
func onLast(fault func(*part.Name)) func(*part.Name, bool) *part.Name {
	return func(line *part.Name, isLast bool) *part.Name {
		if isLast {
			fault(line)
		}
		return line
	}
}

// rot gives a file other bytes in its first block.
func rot(line *part.Name) {
	other := part.Hash(sha256.Sum256([]byte(line.Name + " is rotten")))
	was := line.Own.Content.Hash
	line.Disk.Contents[0].Hash = other
	line.Disk.Differ = &part.Differ{Count: 1, Ranges: [][2]int64{{0, 0}}, First: part.Pair{Recorded: &was, Found: &other}}
}

// rotInLongNames gives a file nearly the longest name that there is. On the last device it has other bytes in each second
// block, of more blocks than are listed one by one.
func rotInLongNames(line *part.Name, isLast bool) *part.Name {
	line.Name += part.Bytes(strings.Repeat("x", 1000))
	if !isLast {
		return line
	}
	rot(line)
	differ := line.Disk.Differ
	differ.Count, differ.Ranges = 150, nil
	for place := int64(0); place < part.MostRanges; place++ {
		differ.Ranges = append(differ.Ranges, [2]int64{2 * place, 2 * place})
	}
	return line
}

// recordItself has the device record a file by itself, so under a version that is concurrent to the others'.
func recordItself(line *part.Name) {
	own := *line.Own
	own.ModifiedBy++
	own.Version = part.Version{{own.ModifiedBy, 1700000000}}
	line.Own = &own
}

// keepUnscanned leaves the file on the last device's disk alone.
func keepUnscanned(line *part.Name, isLast bool) *part.Name {
	if !isLast {
		return nil
	}
	line.Own, line.Views = nil, nil
	return line
}
