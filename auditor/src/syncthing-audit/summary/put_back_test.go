package summary

import (
	"strings"
	"testing"

	"syncthing-audit/finding"
	"syncthing-audit/part"
)

// rottenMore has two blocks of other bytes, and rottenAll has all.
func rottenMore(at *part.Name) {
	rotten(at)
	at.Disk.Contents[0].Hash = part.Hash{98}
	at.Disk.Differ.Count, at.Disk.Differ.Ranges = 2, [][2]int64{{0, 0}, {2, 2}}
}

func rottenAll(at *part.Name) {
	rotten(at)
	at.Disk.Differ.Count, at.Disk.Differ.Ranges = 3, [][2]int64{{0, 2}}
}

// Where no audited device has what is recorded, an entry says so before all else, and on which disks some of its blocks are. These are saved.
func TestWhatNoDeviceHas(t *testing.T) {
	const begins = "to do: look among old versions and backups: no audited device has what is recorded"
	for why, example := range map[string]struct {
		row         []*part.Name
		told, saves string
	}{
		"the only copy is rotten":        {[]*part.Name{with(file(1, 1), absent), with(file(1, 1), absent), with(file(1, 1), rotten)}, begins + ". Some of its blocks are on phone. to do", "phone"},
		"two copies are rotten":          {[]*part.Name{with(file(1, 1), rottenMore), with(file(1, 1), absent), with(file(1, 1), rotten)}, begins + ". Some of its blocks are on laptop, phone, the most on phone. to do", "laptop, phone"},
		"one has none of the blocks":     {[]*part.Name{with(file(1, 1), rottenAll), with(file(1, 1), absent), with(file(1, 1), rotten)}, begins + ". Some of its blocks are on phone. to do", "laptop, phone"},
		"one was cut short":              {[]*part.Name{with(file(1, 1), absent), with(file(1, 1), absent), with(file(1, 1), resized)}, begins + ". Some of its blocks are on phone. to do", "phone"},
		"no block is left":               {[]*part.Name{with(file(1, 1), absent), with(file(1, 1), absent), with(file(1, 1), rottenAll)}, begins + ". to do", "phone"},
		"all are missing":                {[]*part.Name{with(file(1, 1), absent), with(file(1, 1), absent), with(file(1, 1), absent)}, begins + ". not compared", ""},
		"one device has all":             {[]*part.Name{file(1, 1), with(file(1, 1), absent), with(file(1, 1), rotten)}, "", "laptop, phone"},
		"an edit, which is to go to all": {[]*part.Name{edit(file(1, 1)), edit(file(1, 1)), edit(file(1, 1))}, "", "laptop, phone, server"},
	} {
		reasons := "StoreDiffers 2,StoreDiffers 3"
		if why != "one device has all" {
			reasons = "StoreDiffers 1," + reasons
		}
		text := toldOf(example.row, reasons, 0, 1, func(*finding.Folder) {})
		if !strings.Contains(text, example.told) || strings.Contains(text, begins) != (example.told != "") {
			t.Errorf("%s: %s", why, text)
		}
		if example.saves != "" && !strings.Contains(text, "copy elsewhere what is to stay of what stands on "+example.saves) {
			t.Errorf("%s: %s", why, text)
		}
	}
}

// edit is an edit that no scan has seen.
func edit(row *part.Name) *part.Name { return with(row, afterwards(rotten)) }

// Bytes that a device recorded, and that another one has at their time, are copied from there, whatever is due.
func TestFromWhereBytesArePutBack(t *testing.T) {
	inConflict := func(phone *part.Name) []*part.Name { // the server has another change of the name than the others
		return []*part.Name{file(2, 2), with(with(file(1, 1), another), rotten), phone}
	}
	old := with(with(file(1, 1), another), func(row *part.Name) { row.Disk.ModifiedS-- })
	for why, row := range map[string]struct {
		phone  *part.Name
		isTold bool
	}{
		"a device has them":                 {with(file(1, 1), another), true},
		"a device has them at another time": {old, false},
		"no device has them":                {file(2, 2), false},
	} {
		reasons := "RecordDiffers 2,StoreDiffers 2"
		if row.phone.Own.Version[0][0] == 2 {
			reasons += ",RecordDiffers 3"
		}
		text := toldOf(inConflict(row.phone), reasons, 0, 1, func(*finding.Folder) {})
		if strings.Contains(text, "to have again what server recorded, copy it from phone to server with its time alone, into the file that stands there (cp --preserve=timestamps, ") != row.isTold {
			t.Errorf("%s: %s", why, text)
		}
	}
}

// What is missing, or stands in place of something else, is copied whole.
func TestHowBytesArePutBack(t *testing.T) {
	link := func(at *part.Name) { at.Disk = &part.Node{Type: 4, Target: "elsewhere"} }
	for has, change := range map[string]func(*part.Name){
		"to server as it is (cp -a, or rsync -aIX, as the user who runs Syncthing there), with the directories above that aren't there, while Syncthing is stopped there": absent,
		"to server as it is (cp -a, or rsync -aIX, as the user who runs Syncthing there), once what stands there is moved away, while Syncthing is stopped there":         link,
	} {
		if text := toldOf([]*part.Name{file(1, 1), with(file(1, 1), change)}, "StoreDiffers 2", 0, 1, func(*finding.Folder) {}); !strings.Contains(text, has) {
			t.Errorf("%q isn't in %s", has, text)
		}
	}
}

// another is recorded by the second device, beside what the first one recorded.
func another(at *part.Name) { at.Own.Version, at.Own.ModifiedBy = [][2]uint64{{2, 1}}, 2 }

// An entry tells the size of what is due, and not the greatest of all devices.
func TestTheSizeIsThatOfWhatIsDue(t *testing.T) {
	short := file(2, 2)
	short.Own.Content.Size, short.Disk.Size, short.Disk.Contents[0].Size = 39000, 39000, 39000
	text := toldOf([]*part.Name{short, file(1, 1)}, "RecordDiffers 2,StoreDiffers 2", 0, 1, func(*finding.Folder) {})
	if !strings.Contains(text, "(in docs, 39.0 kB)") {
		t.Error(text)
	}
}
