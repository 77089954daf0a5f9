package history

import (
	"errors"
	"io"
	"math/rand"
	"os"
	"path/filepath"
	"reflect"
	"sort"
	"strings"
	"testing"
	"time"

	"syncthing-audit/choice"
	"syncthing-audit/part"
)

// night gives when an audit was made: so many days after some day.
func night(day int) time.Time { return time.Date(2026, 1, 1, 3, 0, 0, 0, time.UTC).AddDate(0, 0, day) }

// file is a file of a device that was made up: its bytes by a letter, its time by a number. A file that isn't read has none.
type file struct {
	bytes    byte
	modified int64
	unread   bool
	recorded byte // the bytes that its device records, or none
}

// device has files by their names.
type device map[string]file

// made is a part that was made up.
type made struct {
	head  *part.Head
	lines []part.Line
}

func (m *made) Head() *part.Head { return m.head }

func (m *made) Next() (part.Line, error) {
	if len(m.lines) == 0 {
		return part.Line{}, io.EOF
	}
	line := m.lines[0]
	m.lines = m.lines[1:]
	return line, nil
}

var ids = []string{"7777777-777777N-7777777-777777N-7777777-777777N-7777777-77777Q4", "MFZWI3D-BONSGYC-YLTMRWG-C43ENR5-QXGZDMM-FZWI3DP-BONSGYY-LTMRWAD"}

// partOf gives the part of a device, by its place: of all names, or of those that were asked for.
func (d device) partOf(place int, names choice.Names) *made {
	folder := part.Folder{ID: "docs"}
	stream := &made{head: &part.Head{Device: ids[place], Names: names, Folders: []part.Folder{folder}}}
	add := func(line part.Line) { stream.lines = append(stream.lines, line) }
	add(part.Line{Begin: &part.Begin{Folder: "docs"}})
	listed := []string{}
	for name := range d {
		if names.Has("docs", name) {
			listed = append(listed, name)
		}
	}
	sort.Strings(listed)
	for _, name := range listed {
		line := &part.Name{Name: part.Bytes(name)}
		if recorded := d[name].recorded; recorded != 0 {
			line.Own = &part.Record{Content: &part.Content{Size: 9, BlockSize: 131072, Hash: part.Hash{recorded}}}
		}
		if file := d[name]; file.unread {
			line.Out = []part.LeftOut{{Kind: part.Unreadable}}
		} else {
			line.Disk = &part.Node{Size: 9, ModifiedS: file.modified, Contents: []part.Content{{Size: 9, BlockSize: 131072, Hash: part.Hash{file.bytes}}}}
		}
		add(part.Line{Name: line})
	}
	add(part.Line{End: &part.End{Folder: "docs", Last: true}})
	return stream
}

// opened gives a new history.
func opened(t *testing.T) *History {
	history, err := Open(t.TempDir())
	if err != nil {
		t.Fatal(err)
	}
	history.now = func() time.Time { return night(10000) }
	t.Cleanup(func() { history.Close() })
	return history
}

func (h *History) mustTake(t *testing.T, day int, devices ...device) {
	for place, device := range devices {
		if err := h.Take(device.partOf(place, choice.Names{}), night(day)); err != nil {
			t.Fatal(err)
		}
	}
}

// spreads gives the names of files whose bytes changed on all devices, each with the days between which they did.
func (h *History) spreads(t *testing.T) string {
	numbers := []uint64{part.Number(ids[0]), part.Number(ids[1])}
	told := []string{}
	err := h.EachSpread(func(string) []uint64 { return numbers }, func(spread Spread) error {
		days := func(at time.Time) string { return at.Format("2") }
		told = append(told, spread.Name+":"+days(spread.Change.Before.At)+"-"+days(spread.Change.Since.At)+":"+string(spread.Change.Before.Content.Hash[0]))
		return nil
	})
	if err != nil {
		t.Fatal(err)
	}
	return strings.Join(told, " ")
}

// Bytes that change under one time on all devices are told, and nothing else is: each case has what both devices have, day by day.
func TestBytesThatChangedEverywhere(t *testing.T) {
	for _, one := range []struct {
		why  string
		days [][2]file
		told string
	}{
		{"nothing changes", [][2]file{{{bytes: 'a'}, {bytes: 'a'}}, {{bytes: 'a'}, {bytes: 'a'}}}, ""},
		{"rot on one device", [][2]file{{{bytes: 'a'}, {bytes: 'a'}}, {{bytes: 'b'}, {bytes: 'a'}}}, ""},
		{"rot that spread in one night", [][2]file{{{bytes: 'a'}, {bytes: 'a'}}, {{bytes: 'b'}, {bytes: 'b'}}}, "f:1-2:a"},
		{"rot that spread a night later", [][2]file{{{bytes: 'a'}, {bytes: 'a'}}, {{bytes: 'b'}, {bytes: 'a'}}, {{bytes: 'b'}, {bytes: 'b'}}}, "f:1-2:a"},
		{"the same, still told later", [][2]file{{{bytes: 'a'}, {bytes: 'a'}}, {{bytes: 'b'}, {bytes: 'b'}}, {{bytes: 'b'}, {bytes: 'b'}}}, "f:1-2:a"},
		{"rot that was mended", [][2]file{{{bytes: 'a'}, {bytes: 'a'}}, {{bytes: 'b'}, {bytes: 'a'}}, {{bytes: 'a'}, {bytes: 'a'}}}, ""},
		{"spread and mended", [][2]file{{{bytes: 'a'}, {bytes: 'a'}}, {{bytes: 'b'}, {bytes: 'b'}}, {{bytes: 'a'}, {bytes: 'a'}}}, ""},
		{"an edit", [][2]file{{{bytes: 'a'}, {bytes: 'a'}}, {{bytes: 'b', modified: 1}, {bytes: 'b', modified: 1}}}, ""},
		{"an edit after rot", [][2]file{{{bytes: 'a'}, {bytes: 'a'}}, {{bytes: 'b'}, {bytes: 'b'}}, {{bytes: 'c', modified: 1}, {bytes: 'c', modified: 1}}}, ""},
		{"rotten twice", [][2]file{{{bytes: 'a'}, {bytes: 'a'}}, {{bytes: 'b'}, {bytes: 'b'}}, {{bytes: 'c'}, {bytes: 'c'}}}, "f:1-2:a"},
		{"not read for a night", [][2]file{{{bytes: 'a'}, {bytes: 'a'}}, {{unread: true}, {unread: true}}, {{bytes: 'b'}, {bytes: 'b'}}}, "f:1-3:a"},
	} {
		history := opened(t)
		for day, files := range one.days {
			history.mustTake(t, day, device{"f": files[0]}, device{"f": files[1]})
		}
		if told := history.spreads(t); told != one.told {
			t.Errorf("%s: %q, not %q", one.why, told, one.told)
		}
	}
}

// A year of nights, one slice each: what was read last of each file, and since when its bytes are others, is what a plain memory has.
func TestAYearOfNights(t *testing.T) {
	random := rand.New(rand.NewSource(1))
	history, devices := opened(t), []device{{}, {}}
	read := []map[string]Reading{{}, {}}
	for day := 0; day < 365; day++ {
		place := day % 2
		live(random, devices[place])
		names := []choice.Names{{}, {Prefix: "b"}, {Slice: 1 + day%3, Slices: 3}}[random.Intn(3)]
		if err := history.Take(devices[place].partOf(place, names), night(day)); err != nil {
			t.Fatal(err)
		}
		remember(read[place], devices[place], names, night(day))
		if found := history.readings(t, place); !reflect.DeepEqual(found, read[place]) {
			t.Fatalf("day %d: %v, not %v", day, found, read[place])
		}
		covered, err := history.Coverage("docs", part.Number(ids[place]))
		if err != nil || covered != coverageOf(read[place]) {
			t.Fatalf("day %d: %+v, %v", day, covered, err)
		}
	}
}

// livingNames are the names that files have which live, in one order: what is drawn then is the same at each run.
var livingNames = []string{"a", "b", "b/1", "b/2", "ba", "c", "d"}

// live changes some files of a device.
func live(random *rand.Rand, device device) {
	for _, name := range livingNames {
		switch random.Intn(6) {
		case 0:
			delete(device, name)
		case 1, 2:
			device[name] = file{bytes: byte('a' + random.Intn(3)), modified: int64(random.Intn(3)), unread: random.Intn(4) == 0}
		}
	}
}

// remember is what a history should have after a part: by name.
func remember(read map[string]Reading, device device, names choice.Names, at time.Time) {
	for name := range read {
		if _, is := device[name]; !is && names.Has("docs", name) {
			delete(read, name)
		}
	}
	for name, file := range device {
		if names.Has("docs", name) && !file.unread {
			read[name] = Reading{At: at, ModifiedS: file.modified, Content: part.Content{Size: 9, BlockSize: 131072, Hash: part.Hash{file.bytes}}}
		}
	}
}

func coverageOf(read map[string]Reading) Coverage {
	var made Coverage
	for name, reading := range read {
		if made.Files == 0 || reading.At.Before(made.Oldest) || reading.At.Equal(made.Oldest) && name < made.OldestName {
			made.Oldest, made.OldestName = reading.At, name
		}
		made.Files++
		made.Bytes += 9
	}
	return made
}

// readings gives all readings of a device.
func (h *History) readings(t *testing.T, place int) map[string]Reading {
	found, prefix := map[string]Reading{}, keyOfReadings("docs", part.Number(ids[place]))
	err := h.each(prefix, func(key, value []byte) error {
		reading, err := readReading(value)
		if err == nil {
			found[string(key[len(prefix):])] = *reading
		}
		return err
	})
	if err != nil {
		t.Fatal(err)
	}
	return found
}

// Two processes don't write one history, and one of another format isn't touched.
func TestHistoriesThatAreNotOpened(t *testing.T) {
	room := filepath.Join(t.TempDir(), "new", "history")
	history, err := Open(room)
	if err != nil {
		t.Fatal(err)
	}
	if _, err := Open(room); !errors.Is(err, ErrBusy) {
		t.Error(err)
	}
	if about, err := os.Stat(room); err != nil || about.Mode().Perm() != 0o700 {
		t.Error(about.Mode(), err)
	}
	if err := history.db.Put(keyOfFormat(), []byte("2"), nil); err != nil {
		t.Fatal(err)
	}
	history.Close()
	if _, err := Open(room); err == nil || !strings.Contains(err.Error(), `its format is "2", and this program knows 1`) {
		t.Error(err)
	}
}
