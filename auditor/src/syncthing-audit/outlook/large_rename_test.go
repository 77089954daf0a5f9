package outlook

import (
	"fmt"
	"testing"

	"golang.org/x/exp/slices"
	"syncthing-audit/forecast"
	"syncthing-audit/join"
	"syncthing-audit/part"
)

// renamedRows gives the rows of a directory that the first of three devices renamed, with so many files below it. The second one took that, and the third one
// heard nothing of it.
func renamedRows(files int) []*join.Row {
	all := []*join.Row{movedAway(calmDirectory("d", 3)), movedTo(calmDirectory("e", 3))}
	for place := 0; place < files; place++ {
		hash := part.Hash{byte(place), byte(place >> 8), 1}
		for _, row := range []*join.Row{movedAway(calm(fmt.Sprintf("d/%05d", place), 3, 0)), movedTo(calm(fmt.Sprintf("e/%05d", place), 3, 0))} {
			eachContent(row, func(content *part.Content) { content.Hash = hash })
			all = append(all, row)
		}
	}
	slices.SortFunc(all, func(a, b *join.Row) bool { return a.Name < b.Name })
	return all
}

// movedAway has a name deleted on the first two of three devices, as these know of each other.
func movedAway(row *join.Row) *join.Row {
	for member := 0; member < 2; member++ {
		gone := part.Record{Type: row.At[member].Own.Type, Deleted: true, ModifiedS: 200, Version: [][2]uint64{{1, 5}, {9, 1}}, Sequence: 10}
		row.At[member].Own, row.At[member].Disk = &gone, nil
		row.At[1-member].Views[0].Record = &gone
	}
	return row
}

// movedTo has a name stand on the first two of three devices alone.
func movedTo(row *join.Row) *join.Row {
	for member := 0; member < 2; member++ {
		row.At[member].Own.Version, row.At[member].Own.Sequence = [][2]uint64{{1, 6}}, 11
		row.At[member].Views = []part.Seen{{View: 0, Record: row.At[member].Own}}
	}
	row.At[2] = nil
	return row
}

// eachContent calls for the bytes of a row.
func eachContent(row *join.Row, call func(*part.Content)) {
	for _, at := range row.At {
		if at == nil {
			continue
		}
		if at.Own != nil && at.Own.Content != nil {
			call(at.Own.Content)
		}
		if at.Disk != nil {
			for place := range at.Disk.Contents {
				call(&at.Disk.Contents[place])
			}
		}
		for _, seen := range at.Views {
			if seen.Record.Content != nil {
				call(seen.Record.Content)
			}
		}
	}
}

// However many files are below a directory that was renamed, it is known what becomes of each: the new names come right, the old ones are deleted, and nothing is
// to be done.
func TestALargeRename(t *testing.T) {
	for _, files := range []int{5, 400, 3000} {
		told := outlookBy(forecast.Usual, folderOf("send-receive", "send-receive", "send-receive"), renamedRows(files))
		if count := int64(files + 1); told.Right != count || told.Deleted != count || told.Names != 2*count || told.Walked > 0 || len(told.Plans) > 0 {
			t.Errorf("%d files: %v, %d walked, %d plans", files, countsOf(told), told.Walked, len(told.Plans))
		}
	}
}

// However many copies of a file a device made, and into however many directories it moved files, it is known what becomes of each. Where many copies of one file were
// renamed it isn't: one may be renamed from another one.
func TestManyCopiesAndDirectories(t *testing.T) {
	with := func(row *join.Row, number int) *join.Row {
		eachContent(row, func(content *part.Content) { content.Hash = part.Hash{byte(number), byte(number >> 8), 1} })
		return row
	}
	for why, contents := range map[string]int{"renamed": 500, "copies": 1} {
		all := []*join.Row{}
		for number := 0; number < 5; number++ {
			all = append(all, movedTo(calmDirectory(fmt.Sprint("e", number), 3)))
		}
		for number := 0; number < 500; number++ {
			all = append(all, with(movedTo(calm(fmt.Sprintf("e%d/%05d", number%5, number), 3, 0)), number%contents))
		}
		made := len(all)
		all = append(all, movedAway(calmDirectory("d", 3)))
		for number := 0; number < 500; number++ {
			all = append(all, with(movedAway(calm(fmt.Sprintf("d/%05d", number), 3, 0)), number%contents))
		}
		for _, rows := range [][]*join.Row{append([]*join.Row{}, all[:made]...), all} {
			slices.SortFunc(rows, func(a, b *join.Row) bool { return a.Name < b.Name })
			told := outlookBy(forecast.Usual, folderOf("send-receive", "send-receive", "send-receive"), rows)
			isKnown := contents > 1 || len(rows) == made
			if isKnown && (told.Right != int64(made) || told.Names != int64(len(rows)) || told.Walked > 0) || !isKnown && told.NotKnown != told.Names {
				t.Errorf("%s, %d names: %v, %d walked", why, len(rows), countsOf(told), told.Walked)
			}
		}
	}
}
