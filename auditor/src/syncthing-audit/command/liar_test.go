package command

import (
	"path/filepath"
	"strings"
	"testing"

	"syncthing-audit/fixture"
	"syncthing-audit/part"
)

// A device that lies of a name hides nothing that another device's own disk and index say of it.
func TestALiarHidesNoFaultOfAnother(t *testing.T) {
	fixture.UseAuditor(t)
	find := func(lines []*part.Line, name string) *part.Line {
		for _, line := range lines {
			if line.Name != nil && string(line.Name.Name) == name {
				return line
			}
		}
		t.Fatal("no name", name)
		return nil
	}
	lostIn := func(parts []*hostile) {
		find(parts[0].Lines, "a").Name.Disk.Lost, find(parts[0].Lines, "a").Name.Disk.Differ = "it is lost", nil
	}
	nothing := func([]*hostile) {}
	for _, row := range []struct {
		why         string
		parts       func(device byte) []*hostile
		lie, honest func(parts []*hostile)
		told, good  string
	}{
		{"it changed between its looks", runningParts, func(parts []*hostile) {
			find(parts[0].Lines, "a").Name = &part.Name{Name: "a", Moved: []string{part.MovedRecord}}
		}, nothing, "other bytes on the disk; size and time are as recorded", "c"},
		{"it changed between its looks, and the other disk fails", runningParts, func(parts []*hostile) {
			find(parts[0].Lines, "a").Name = &part.Name{Name: "a", Moved: []string{part.MovedDisk}}
		}, lostIn, "it is lost", "c"},
		{"it changes all the time", runningParts, func(parts []*hostile) {
			for _, name := range []string{"a", "c"} {
				find(parts[0].Lines, name).Name = &part.Name{Name: part.Bytes(name), Moved: []string{part.MovedDisk}}
			}
		}, nothing, "other bytes on the disk; size and time are as recorded", "c"},
		{"it can't be read", stoppedParts, func(parts []*hostile) {
			find(parts[0].Lines, "a").Name = &part.Name{Name: "a", Out: []part.LeftOut{{Kind: part.Unreadable, Why: "it can't be read"}}}
		}, nothing, "other bytes on the disk; size and time are as recorded", "d"},
	} {
		honest, liar := row.parts(1), row.parts(2)
		row.honest(honest)
		row.lie(liar)
		room := t.TempDir()
		told, _ := toldOf(append(writtenParts(t, filepath.Join(room, "1"), honest), writtenParts(t, filepath.Join(room, "2"), liar)...))
		all := strings.Join(told, "\n")
		if len(told) < 4 || !strings.Contains(told[1], "StoreDiffers docs a on 1\n") || !strings.Contains(told[0], row.told) {
			t.Errorf("%s: %s", row.why, all)
		}
		if len(told) > 1 && strings.Contains(told[1], "StoreDiffers docs "+row.good) {
			t.Errorf("%s: a good file is told, too: %s", row.why, told[1])
		}
	}
}
