package summary

import (
	"fmt"
	"strings"
	"testing"
	"time"

	"syncthing-audit/finding"
	"syncthing-audit/part"
)

// Many names of other bytes on the same disks are one entry for a person: their first ones, and how many blocks differ. Another
// device or another mode is told by itself, and so are as few as one reads. --json has each with its blocks.
func TestManyNamesOfOtherBytes(t *testing.T) {
	fill := func(names int) func(*finding.Folder) {
		return func(folder *finding.Folder) {
			for next := 0; next < names; next++ {
				fails(folder, fmt.Sprintf("photos/%02d", next), []*part.Name{file(1, 1), with(file(1, 1), rotten), file(1, 1)}, "StoreDiffers 2")
			}
			fails(folder, "photos/10 on another", []*part.Name{file(1, 1), file(1, 1), with(file(1, 1), rotten)}, "StoreDiffers 3")
			fails(folder, "photos/20 of another mode", []*part.Name{file(1, 1), with(file(1, 1), rotten), file(1, 1)}, "StoreDiffers 2")
			folder.Permissions.Add(finding.Permissions{Name: "photos/20 of another mode", At: []finding.Bits{{Has: true, Index: 0o644},
				{Has: true, Index: 0o644, OnDisk: true, Disk: 0o600}, {Has: true, Index: 0o644}}})
		}
	}
	const many = `
40 names in docs: 12.0 MB
  server: other bytes on the disk; size and time are as recorded; 40 blocks differ in all (--json tells them)
  the first: photos/00 photos/01 photos/02 photos/03 photos/04, and 35 more (--lines has all)
  as recorded on: laptop, phone
  if nothing is done: it isn't known what happens: nothing is foretold of it.
  to do: before Syncthing starts or scans on any of these devices, copy elsewhere what is to stay of
         what stands on laptop, server.
  to do: to have again what server recorded, copy them from laptop to server with their times alone,
         into the files that stand there (cp --preserve=timestamps, or rsync --inplace --times
         --ignore-times) while Syncthing is stopped there.
`
	for names, entries := range map[int]int{mostAlone: mostAlone, 40: 0} {
		answer := answerOf(3, fill(names))
		summary := Of(answer)
		var written strings.Builder
		summary.Print(&written, time.UTC, time.Time{})
		text := written.String()
		if found := strings.Count(text, "\nphotos/"); found != entries || strings.Contains(text, many) != (names == 40) {
			t.Errorf("%d names have %d entries:\n%s", names, found, text)
		}
		if !strings.Contains(text, "\n'photos/10 on another'  (in docs") || !strings.Contains(text, "\n'photos/20 of another mode'  (in docs") {
			t.Errorf("what is another's isn't told by itself:\n%s", text)
		}
		if len(summary.Folders[0].Files) != names+2 || summary.Folders[0].Files[0].Faults[0].Blocks.Count != 1 {
			t.Errorf("%d names are told to programs", len(summary.Folders[0].Files))
		}
	}
}

// So are many files that were changed while Syncthing was off; what is of another type on the disk is told apart.
func TestManyChanges(t *testing.T) {
	answer := answerOf(2, func(folder *finding.Folder) {
		changed := func(at *part.Name) { rotten(at); at.Disk.ModifiedS = later }
		link := func(at *part.Name) { at.Disk = &part.Node{Type: 4, Target: "elsewhere"} }
		for next := 0; next < 40; next++ {
			fails(folder, fmt.Sprintf("a/%02d", next), []*part.Name{file(1, 1), with(file(1, 1), changed)}, "StoreDiffers 2")
			fails(folder, fmt.Sprintf("b/%02d", next), []*part.Name{file(1, 1), with(file(1, 1), link)}, "StoreDiffers 2")
		}
	})
	var written strings.Builder
	Of(answer).Print(&written, time.UTC, time.Time{})
	text := written.String()
	for _, told := range []string{`
40 names in docs: 12.0 MB
  server: changed on the disk since the last scan
  the first: a/00 a/01 a/02 a/03 a/04, and 35 more (--lines has all)
  as recorded on: laptop
  if nothing is done: it isn't known what happens: nothing is foretold of it.
  to do: before Syncthing starts or scans on any of these devices, copy elsewhere what is to stay of
         what stands on laptop, server.
  to do: to have again what server recorded, copy them from laptop to server with their times alone,`, `
40 names in docs: 12.0 MB
  server: a symlink on the disk, recorded as a file
  the first: b/00 b/01 b/02 b/03 b/04, and 35 more (--lines has all)`} {
		if !strings.Contains(text, told) {
			t.Errorf("this isn't told: %s\nbut:\n%s", told, text)
		}
	}
}

// Of a device that is behind as a whole what it has still to delete is told apart: to let it finish deletes that there.
func TestManyDeletions(t *testing.T) {
	answer := answerOf(2, func(folder *finding.Folder) {
		deleted := func(at *part.Name) { at.Own.Deleted, at.Own.Content, at.Disk = true, nil, nil }
		for next := 0; next < 40; next++ {
			fails(folder, fmt.Sprintf("c/%02d", next), []*part.Name{file(2, 1), with(file(1, 2), minuteBefore)}, "RecordDiffers 2", "StoreDiffers 2")
			fails(folder, fmt.Sprintf("d/%02d", next), []*part.Name{with(file(2, 1), deleted), file(1, 2)}, "RecordDiffers 2", "StoreDiffers 2")
		}
	})
	summary := Of(answer)
	var written strings.Builder
	summary.Print(&written, time.UTC, time.Time{})
	text := written.String()
	for _, told := range []string{`
  server: behind: hasn't taken what is newest
  the first: c/00 c/01 c/02 c/03 c/04, and 35 more (--lines has all)`, `
  server: behind: hasn't deleted them yet
  the first: d/00 d/01 d/02 d/03 d/04, and 35 more (--lines has all)`} {
		if strings.Count(text, told) != 1 {
			t.Errorf("this isn't told once: %s\nbut:\n%s", told, text)
		}
	}
	if groups := summary.Folders[0].Groups; len(groups) != 2 || groups[0].Deleted || !groups[1].Deleted {
		t.Error(groups)
	}
}

// So are many in conflict on one of three devices, of which another one is behind; where the device deleted them, that is told apart: of
// these Syncthing makes no conflict copies.
func TestManyConflicts(t *testing.T) {
	answer := answerOf(3, func(folder *finding.Folder) {
		other := func(at *part.Name) {
			at.Own.Version, at.Own.ModifiedS, at.Disk.ModifiedS = [][2]uint64{{2, 1}}, started-1, started-1
		}
		deleted := func(at *part.Name) { other(at); at.Own.Deleted, at.Own.Content, at.Disk = true, nil, nil }
		for next := 0; next < 40; next++ {
			fails(folder, fmt.Sprintf("c/%02d", next), []*part.Name{file(2, 1), with(file(1, 2), other), with(file(1, 3), minuteBefore)}, "RecordDiffers 2", "RecordDiffers 3")
			fails(folder, fmt.Sprintf("d/%02d", next), []*part.Name{file(2, 1), with(file(1, 2), deleted), with(file(1, 3), minuteBefore)}, "RecordDiffers 2", "RecordDiffers 3")
		}
	})
	var written strings.Builder
	Of(answer).Print(&written, time.UTC, time.Time{})
	text := written.String()
	for _, told := range []string{`
40 names in docs: 12.0 MB
  phone: behind: hasn't taken what is newest
  server: in conflict: has one change of it, and lacks another
  the first: c/00 c/01 c/02 c/03 c/04, and 35 more (--lines has all)`, `
40 names in docs: 12.0 MB
  phone: behind: hasn't taken what is newest
  server: in conflict: deleted them, and lacks a change of them
  the first: d/00 d/01 d/02 d/03 d/04, and 35 more (--lines has all)`} {
		if !strings.Contains(text, told) {
			t.Errorf("this isn't told: %s\nbut:\n%s", told, text)
		}
	}
}

// So are many names that were changed on a receive-only device, and many that were added there; what was changed is told apart from
// what was deleted.
func TestManyLocalChanges(t *testing.T) {
	answer := answerOf(2, func(folder *finding.Folder) {
		folder.Members[1].About.Kind = "receive-only"
		local := func(deleted bool) *part.Name {
			return with(file(1, 2), func(at *part.Name) { at.Own.Invalid, at.Own.Deleted = true, deleted })
		}
		for next := 0; next < 40; next++ {
			fails(folder, fmt.Sprintf("a/%02d", next), []*part.Name{file(2, 1), local(false)}, "LocalOnly 2", "StoreDiffers 2")
			unwon(folder, fmt.Sprintf("b/%02d", next), 1, finding.LocalChange, file(1, 1))
		}
		fails(folder, "c", []*part.Name{file(2, 1), local(true)}, "LocalOnly 2", "StoreDiffers 2")
	})
	summary := Of(answer)
	var written strings.Builder
	summary.Print(&written, time.UTC, time.Time{})
	text := written.String()
	for _, told := range []string{`
40 names in docs: 12.0 MB
  server: changed on this receive-only device
  the first: a/00 a/01 a/02 a/03 a/04, and 35 more (--lines has all)
  as recorded on: laptop
  if nothing is done: it isn't known what happens: nothing is foretold of it.`, `
40 names in docs: 12.0 MB
  server: added on this receive-only device; no other has it
  the first: b/00 b/01 b/02 b/03 b/04, and 35 more (--lines has all)
  if nothing is done: it isn't known what happens: nothing is foretold of it.`, `
c  (in docs, 300.0 kB)
  server: deleted on this receive-only device`} {
		if !strings.Contains(text, told) {
			t.Errorf("this isn't told: %s\nbut:\n%s", told, text)
		}
	}
	if strings.Contains(text, "\na/") || strings.Contains(text, "\nb/") || len(summary.Folders[0].Files) != 81 {
		t.Errorf("%d names are told to programs:\n%s", len(summary.Folders[0].Files), text)
	}
}
