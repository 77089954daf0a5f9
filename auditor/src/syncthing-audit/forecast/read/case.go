package read

import (
	"crypto/sha256"
	"strings"

	"golang.org/x/text/unicode/norm"
	"syncthing-audit/join"
)

// cases finds names that stand somewhere and differ by upper and lower case alone.
type cases struct{ folds repeats }

// foldOf is the same for names that differ by case alone.
func foldOf(name string) key { return keyOf(norm.NFC.String(strings.ToLower(name))) }

// keyOf gives the key of a text.
func keyOf(text string) key {
	sum := sha256.Sum256([]byte(text))
	var begins key
	copy(begins[:], sum[:])
	return begins
}

// take takes the name of a row, each once.
func (c *cases) take(row *join.Row) {
	if mayStand(row) {
		c.folds.take(foldOf(row.Name))
	}
}

// has says whether a name, or a directory above it, differs from another one by case alone.
func (c *cases) has(name string) bool {
	if len(c.folds.again) == 0 {
		return false
	}
	for ; name != ""; name = upper(name) {
		if c.folds.again[foldOf(name)] {
			return true
		}
	}
	return false
}

// repeats finds keys that come more than once.
type repeats struct {
	seen  filter
	again map[key]bool
}

func (r *repeats) take(next key) {
	if !r.seen.hasKey(next) {
		r.seen.addKey(next)
		return
	}
	if r.again == nil {
		r.again = map[key]bool{}
	}
	r.again[next] = true
}

// mayStand says whether a name stands on a disk, or is to be there by some record.
func mayStand(row *join.Row) bool {
	for _, at := range row.At {
		if at == nil {
			continue
		}
		if at.Disk != nil || at.Own != nil && !at.Own.Deleted {
			return true
		}
		for _, seen := range at.Views {
			if !seen.Record.Deleted {
				return true
			}
		}
	}
	return false
}
