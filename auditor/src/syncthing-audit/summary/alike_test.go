package summary

import (
	"strings"
	"testing"

	"syncthing-audit/part"
)

func TestSameOtherBytes(t *testing.T) {
	fault := func(device string, cause Cause, hashes ...byte) *Fault {
		disk := &part.Node{}
		for _, hash := range hashes {
			disk.Contents = append(disk.Contents, part.Content{Hash: part.Hash{hash}})
		}
		return &Fault{Device: device, Cause: cause, at: &part.Name{Disk: disk}}
	}
	faults := []*Fault{fault("a", OtherBytes, 1), fault("b", OtherBytes, 2), fault("c", Changed, 1), fault("d", OtherBytes, 3, 1), fault("e", OtherBytes)}
	same := sameOtherBytes(faults)
	if len(same) != 1 || strings.Join(same[0], " ") != "a d" {
		t.Errorf("the same are %s", same)
	}
}

func TestBlocksThatDiffer(t *testing.T) {
	many := make([][2]int64, 20)
	for place := range many {
		many[place] = [2]int64{int64(2 * place), int64(2 * place)}
	}
	for told, blocks := range map[string]Blocks{
		"block 152 differs":                                   {Count: 1, Ranges: [][2]int64{{152, 152}}},
		"blocks 2-4, 7 differ":                                {Count: 4, Ranges: [][2]int64{{2, 4}, {7, 7}}},
		"blocks 2-4 and 9 more differ":                        {Count: 12, Ranges: [][2]int64{{2, 4}}},
		"blocks 0, 2, 4, 6, 8, 10, 12, 14 and 12 more differ": {Count: 20, Ranges: many},
	} {
		if differing(&blocks) != told {
			t.Errorf("%s, not %s", differing(&blocks), told)
		}
	}
}

// All blocks with rot are counted, also those that the list lacks. A file that grew has as many blocks as stand on the
// disk.
func TestCountsOfBlocks(t *testing.T) {
	const size = 131072
	at := func(recorded, found int64, differ part.Differ) *part.Name {
		return &part.Name{Own: &part.Record{Content: &part.Content{Size: recorded, BlockSize: size}}, Disk: &part.Node{Size: found, Differ: &differ}}
	}
	ranges := make([][2]int64, part.MostRanges)
	for place := range ranges {
		ranges[place] = [2]int64{int64(2 * place), int64(2 * place)}
	}
	cases := []struct {
		why          string
		at           *part.Name
		of, unlisted int64
	}{
		{"in a few", at(3*size, 3*size, part.Differ{Count: 2, Ranges: [][2]int64{{0, 0}, {2, 2}}}), 3, 0},
		{"in more than are listed", at(300*size, 300*size, part.Differ{Count: 150, Ranges: ranges}), 300, 86},
		{"in a file that grew", at(size, 9*size+1, part.Differ{Count: 9, Ranges: [][2]int64{{1, 9}}}), 10, 0},
		{"in a file that shrank", at(9*size, size, part.Differ{Count: 8, Ranges: [][2]int64{{1, 8}}}), 9, 0},
	}
	for _, row := range cases {
		blocks := blocksOf(row.at)
		if blocks.Count != row.at.Disk.Differ.Count || blocks.Of != row.of || blocks.Unlisted != row.unlisted {
			t.Errorf("%s: %+v", row.why, blocks)
		}
	}
}
