package history

import (
	"testing"

	"syncthing-audit/part"
)

// Over the wire a file's time isn't seen: a history keeps recorded bytes under the recorded time, nothing of other ones, and forgets nothing where no
// bytes were asked for. A name that wasn't audited there isn't called mended.
func TestWhatIsKeptOverTheWire(t *testing.T) {
	content := part.Content{Size: 3, BlockSize: 1 << 17}
	own := &part.Record{ModifiedS: 7, Content: &content}
	bytes := func(size int64, differ *part.Differ) *part.Node {
		return &part.Node{Size: size, Contents: []part.Content{{Size: size, BlockSize: 1 << 17}}, Differ: differ}
	}
	for _, one := range []struct {
		what                         string
		isOfRecords, isNotRead       bool
		disk                         *part.Node
		isKept, isForgotten, unclear bool
	}{
		{"the recorded bytes", false, false, bytes(3, nil), true, false, false},
		{"rot", false, false, bytes(3, &part.Differ{Count: 1}), false, false, false},
		{"cut", false, false, bytes(2, &part.Differ{Count: 1}), false, false, true},
		{"missing", false, false, nil, false, true, true},
		{"not asked for", true, false, nil, false, false, true},
		{"not asked for this time", false, true, nil, false, false, true},
	} {
		head, line := &part.Head{Wire: part.NewWire("observer", one.isOfRecords)}, &part.Name{Name: "a", Own: own, Disk: one.disk, NotRead: one.isNotRead}
		seen := seenOverWire(head, line)
		reading := readingOf(seen, head.Made)
		if (reading != nil) != one.isKept || isGone(seen) != one.isForgotten || isUnclearOverWire(head, line) != one.unclear {
			t.Errorf("%s: %+v, gone %v, unclear %v", one.what, reading, isGone(seen), isUnclearOverWire(head, line))
		}
		if reading != nil && seen.Disk.ModifiedS != 7 {
			t.Errorf("%s: at %d", one.what, seen.Disk.ModifiedS)
		}
	}
}
