package part

import (
	"testing"

	"github.com/syncthing/syncthing/lib/protocol"
)

// many are as many ranges as a list may have: each second block, from the first.
var many = func() [][2]int64 {
	made := make([][2]int64, MostRanges)
	for place := range made {
		made[place] = [2]int64{int64(2 * place), int64(2 * place)}
	}
	return made
}()

// differing are blocks that differ, by the blocks of the record and of the file, and whether a part may say so.
var differing = []struct {
	why             string
	recorded, found int64
	count           int64
	ranges          [][2]int64
	good            bool
}{
	{"one block", 3, 3, 1, [][2]int64{{1, 1}}, true},
	{"all blocks", 3, 3, 3, [][2]int64{{0, 2}}, true},
	{"blocks of a longer file", 1, 3, 2, [][2]int64{{1, 2}}, true},
	{"blocks of a shorter file", 3, 1, 2, [][2]int64{{1, 2}}, true},
	{"more than are listed", 300, 300, 150, many, true},
	{"more, of which too few are listed", 300, 300, 150, many[1:], false},
	{"fewer than are listed", 300, 300, 63, many, false},
	{"none", 3, 3, 0, nil, false},
	{"a list without a count", 3, 3, 0, [][2]int64{{1, 1}}, false},
	{"a count without a list", 3, 3, 2, nil, false},
	{"more blocks than the file has", 3, 3, 4, [][2]int64{{0, 3}}, false},
	{"more than the file has and more than are listed", 130, 130, 131, many, false},
	{"an end before its beginning", 3, 3, 1, [][2]int64{{0, 0}, {2, 1}}, false},
	{"blocks out of order", 3, 3, 2, [][2]int64{{2, 2}, {0, 0}}, false},
	{"a block twice", 3, 3, 2, [][2]int64{{1, 1}, {1, 1}}, false},
	{"a block below the first", 3, 3, 1, [][2]int64{{-1, -1}}, false},
	{"too long a list", 300, 300, 65, append(append([][2]int64{}, many...), [2]int64{200, 200}), false},
}

// What a part says of blocks that differ fits the file and its record, and a list that isn't whole is as long as it may be.
func TestBlocksThatDiffer(t *testing.T) {
	const size = protocol.MinBlockSize
	for _, one := range differing {
		name := &Name{Own: &Record{Content: &Content{Size: one.recorded * size, BlockSize: size}}, Disk: &Node{Size: one.found * size,
			Contents: []Content{{Size: one.found * size, BlockSize: size}}, Differ: &Differ{Count: one.count, Ranges: one.ranges}}}
		if err := checkDiffer(name); (err == nil) != one.good {
			t.Errorf("%s: %v", one.why, err)
		}
	}
	if checkDiffer(&Name{Disk: &Node{Differ: &Differ{Count: 1, Ranges: [][2]int64{{0, 0}}}}}) == nil {
		t.Error("blocks of nothing were taken")
	}
}
