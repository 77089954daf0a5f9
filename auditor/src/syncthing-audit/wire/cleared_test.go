package wire

import (
	"fmt"
	"strings"
	"testing"
)

// An Index stands in place of one with more names than are taken away at once.
func TestALongIndexThatBeginsAnew(t *testing.T) {
	index := NewIndex(42)
	defer index.Close()
	bytes := 0
	for sequence := 1; bytes < 3*mostCleared; sequence++ {
		name := fmt.Sprintf("%08d", sequence) + strings.Repeat("x", Usual.Name-8)
		if err := take(index, file{name: name, sequence: uint64(sequence), deleted: true}); err != nil {
			t.Fatal(err)
		}
		bytes += len(name)
	}
	limits := Usual
	err := (&taker{folder: "docs", limits: &limits, spent: new(spent), index: index}).take(indexOf("docs", file{name: "a", sequence: 1}), false)
	if count, failed := index.Count(); err != nil || failed != nil || count != 1 || index.Highest != 1 {
		t.Errorf("%d names up to %d, %v, %v", count, index.Highest, err, failed)
	}
}
