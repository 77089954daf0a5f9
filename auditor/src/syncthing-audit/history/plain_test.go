package history

import (
	"fmt"
	"math"
	"math/rand"
	"os"
	"path/filepath"
	"sort"
	"strings"
	"testing"
	"time"

	"syncthing-audit/choice"
	"syncthing-audit/part"
)

// memory is what a plain memory has of a device's names: what was read last, and how bytes changed under their time.
type memory struct {
	last    map[string]Reading
	changes map[string]Change
}

// take remembers what a part of a device says.
func (m *memory) take(device device, names choice.Names, at time.Time) {
	before := map[string]Reading{}
	for name, reading := range m.last {
		before[name] = reading
	}
	remember(m.last, device, names, at)
	for name := range before {
		if _, is := m.last[name]; !is {
			delete(m.changes, name)
		}
	}
	for name, now := range m.last {
		was, had := before[name]
		if !had || !now.At.Equal(at) {
			continue
		}
		change, isChanged := m.changes[name]
		switch {
		case isChanged && (now.ModifiedS != change.Before.ModifiedS || now.Content == change.Before.Content):
			delete(m.changes, name)
		case !isChanged && now.ModifiedS == was.ModifiedS && now.Content != was.Content:
			m.changes[name] = Change{Before: was, Since: now}
		}
	}
}

// spreadsOf tells the names whose bytes changed on each device that has them, to the same bytes.
func spreadsOf(devices []*memory) string {
	told := []string{}
	for name := range devices[0].last {
		told = append(told, name)
	}
	for name := range devices[1].last {
		if _, is := devices[0].last[name]; !is {
			told = append(told, name)
		}
	}
	sort.Strings(told)
	kept := []string{}
	for _, name := range told {
		var first *Change
		have, changed := []part.Content{}, 0
		for _, device := range devices {
			if reading, is := device.last[name]; is {
				have = append(have, reading.Content)
			}
			if change, is := device.changes[name]; is {
				changed++
				if first == nil || change.Since.At.Before(first.Since.At) {
					copied := change
					first = &copied
				}
			}
		}
		if changed == len(have) && have[0] == have[len(have)-1] {
			kept = append(kept, fmt.Sprintf("%s on %d: %v", name, changed, *first))
		}
	}
	return strings.Join(kept, "; ")
}

// Of two devices whose files live for many nights, those are told whose bytes changed under their time on each that has them, as a plain memory says.
func TestManyNightsOfSpreading(t *testing.T) {
	random, history := rand.New(rand.NewSource(2)), opened(t)
	devices, memories := []device{{}, {}}, []*memory{{map[string]Reading{}, map[string]Change{}}, {map[string]Reading{}, map[string]Change{}}}
	numbers := []uint64{part.Number(ids[0]), part.Number(ids[1])}
	met := map[int]int{}
	for day := 0; day < 250; day++ {
		place := random.Intn(2)
		live(random, devices[place])
		for _, name := range livingNames {
			if file, is := devices[1-place][name]; is && random.Intn(2) == 0 {
				devices[place][name] = file // Syncthing brings it there
			}
		}
		names := []choice.Names{{}, {Prefix: "b"}, {Slice: 1 + day%3, Slices: 3}}[random.Intn(3)]
		if err := history.Take(devices[place].partOf(place, names), night(day)); err != nil {
			t.Fatal(err)
		}
		memories[place].take(devices[place], names, night(day))
		told := []string{}
		err := history.EachSpread(func(string) []uint64 { return numbers }, func(spread Spread) error {
			told = append(told, fmt.Sprintf("%s on %d: %v", spread.Name, len(spread.Devices), spread.Change))
			return nil
		})
		if expected := spreadsOf(memories); err != nil || strings.Join(told, "; ") != expected {
			t.Fatalf("day %d: %q, not %q: %v", day, told, expected, err)
		}
		met[len(told)]++
	}
	if met[0] < 10 || met[1] < 10 || met[2] < 5 {
		t.Errorf("how many were told how often: %v", met)
	}
}

// The last readings of a name on all devices are those that a plain look at each key finds, whatever else the history has.
func TestLastReadingsAreThoseOfEachKey(t *testing.T) {
	random := rand.New(rand.NewSource(1))
	devices := []uint64{0, 1, 2, 255, 256, math.MaxUint64 - 1, math.MaxUint64}
	for turn := 0; turn < 20; turn++ {
		history, expected := opened(t), []byte{}
		for _, device := range devices {
			for _, folder := range []string{"doc", "docs", "docs2"} {
				for _, name := range []string{"", "a", "b", "b\x01", "ba", "c"} {
					if random.Intn(3) == 0 {
						continue
					}
					letter := byte('a' + random.Intn(4))
					reading := Reading{At: night(1), Content: part.Content{Size: 9, BlockSize: 9, Hash: part.Hash{letter}}}
					if err := history.db.Put(keyOfReading(folder, device, name), reading.bytes(), nil); err != nil {
						t.Fatal(err)
					}
					if folder == "docs" && name == "b" && !strings.Contains(string(expected), string(letter)) {
						expected = append(expected, letter)
					}
				}
			}
		}
		found, err := history.Wanted("docs", "b")
		told := []byte{}
		for _, one := range found {
			told = append(told, one.Content.Hash[0])
		}
		if err != nil || string(told) != string(expected) {
			t.Errorf("turn %d: %q, not %q: %v", turn, told, expected, err)
		}
		history.Close()
	}
}

// What a part has read of a name is a reading where all bytes of one file were read; whether nothing stands there any more is another matter.
func TestWhichNamesAreRead(t *testing.T) {
	content := []part.Content{{Size: 9, BlockSize: 131072, Hash: part.Hash{1}}, {Size: 9, BlockSize: 262144}}
	for why, row := range map[string]struct {
		line           *part.Name
		isRead, isGone bool
	}{
		"a file":            {&part.Name{Disk: &part.Node{Contents: content}}, true, false},
		"nothing":           {&part.Name{}, false, true},
		"a directory":       {&part.Name{Disk: &part.Node{Type: 1}}, false, true},
		"a lost file":       {&part.Name{Disk: &part.Node{Contents: content, Lost: "x"}}, false, false},
		"lost, not hashed":  {&part.Name{Disk: &part.Node{Lost: "x"}}, false, false},
		"not to its end":    {&part.Name{Disk: &part.Node{Contents: content, Unread: 1}}, false, false},
		"left out":          {&part.Name{Disk: &part.Node{Contents: content}, Out: []part.LeftOut{{}}}, false, false},
		"moved":             {&part.Name{Disk: &part.Node{Contents: content}, Moved: []string{"disk"}}, false, false},
		"left out and gone": {&part.Name{Out: []part.LeftOut{{}}}, false, false},
		"moved and gone":    {&part.Name{Moved: []string{"disk"}}, false, false},
	} {
		at := time.Date(2026, 1, 2, 3, 4, 5, 6, time.FixedZone("x", 3600))
		reading := readingOf(row.line, at)
		if (reading != nil) != row.isRead || isGone(row.line) != row.isGone {
			t.Errorf("%s: %+v, gone %v", why, reading, isGone(row.line))
		}
		if reading != nil && (reading.Content != content[0] || reading.At.Format(time.RFC3339Nano) != "2026-01-02T02:04:05Z") {
			t.Errorf("%s: %+v", why, reading)
		}
	}
	first := Reading{ModifiedS: 1, ModifiedNs: 2, Content: content[0]}
	for why, row := range map[string]struct {
		change                func(*Reading)
		hasTime, isOtherBytes bool
	}{
		"the same":       {func(*Reading) {}, true, false},
		"other bytes":    {func(r *Reading) { r.Content.Hash[0]++ }, true, true},
		"another cut":    {func(r *Reading) { r.Content.BlockSize, r.Content.Hash[0] = 7, 7 }, true, false},
		"another second": {func(r *Reading) { r.ModifiedS, r.Content.Hash[0] = 7, 7 }, false, false},
		"a part of it":   {func(r *Reading) { r.ModifiedNs, r.Content.Hash[0] = 7, 7 }, false, false},
		"another size":   {func(r *Reading) { r.Content.Size, r.Content.Hash[0] = 7, 7 }, false, false},
	} {
		other := first
		row.change(&other)
		if other.hasTimeOf(&first) != row.hasTime || other.isOtherBytesOf(&first) != row.isOtherBytes {
			t.Errorf("%s: %v, %v", why, other.hasTimeOf(&first), other.isOtherBytesOf(&first))
		}
		if again, err := readReading(other.bytes()); err != nil || again.ModifiedNs != other.ModifiedNs || again.ModifiedS != other.ModifiedS || again.Content != other.Content {
			t.Errorf("%s: %+v is read as %+v, %v", why, other, again, err)
		}
	}
}

// Of very many faults, and of very many files that changed everywhere, the first ones are listed and all are counted.
func TestVeryManyFaults(t *testing.T) {
	history, names := opened(t), []string{}
	good, rotten := device{}, device{}
	for number := 0; number <= MostListed; number++ {
		name := fmt.Sprintf("n%05d", number)
		names = append(names, name)
		good[name], rotten[name] = file{bytes: 'a'}, file{bytes: 'b'}
	}
	history.audit(t, 0, []device{good, good}, choice.Names{}, "")
	since := history.audit(t, 1, []device{rotten, rotten}, choice.Names{}, strings.Join(names, " "))
	if since.Count != MostListed+1 || len(since.Changed) != MostListed || since.New.Count != 2*(MostListed+1) || len(since.New.First) != MostListed {
		t.Errorf("%d, %d, %d, %d", since.Count, len(since.Changed), since.New.Count, len(since.New.First))
	}
	one := since.New.First[0]
	if one.Name != "n00000" || one.Folder != "docs" || one.Device != ids[0] || one.Reason != "other-bytes" || !one.First.Equal(night(1)) || one.Audits != 1 {
		t.Errorf("%+v", one)
	}
}

// A directory within a history stays as it is.
func TestADirectoryWithinAHistory(t *testing.T) {
	room := filled(t)
	inner := filepath.Join(room, "lost+found")
	if err := os.Mkdir(inner, 0o700); err != nil {
		t.Fatal(err)
	}
	history, err := Open(room)
	if err != nil {
		t.Fatal(err)
	}
	history.Close()
	if about, err := os.Stat(inner); err != nil || about.Mode().Perm() != 0o700 {
		t.Errorf("%v, %v", about.Mode(), err)
	}
}

// Over the wire what nobody recorded as a file, or has otherwise than recorded, isn't read; nor is it clear where something stands there.
func TestNamesOverTheWireWithoutARecord(t *testing.T) {
	content := part.Content{Size: 3, BlockSize: 1 << 17}
	disk := func(size int64) *part.Node { return &part.Node{Size: size, Contents: []part.Content{content}} }
	head := &part.Head{Wire: part.NewWire("observer", false)}
	for why, row := range map[string]struct {
		own             *part.Record
		disk            *part.Node
		isRead, unclear bool
	}{
		"no record, and nothing":     {nil, nil, false, false},
		"no record, and a file":      {nil, disk(3), false, true},
		"a directory":                {&part.Record{Type: 1}, nil, false, false},
		"a directory, and a file":    {&part.Record{Type: 1}, disk(3), false, true},
		"deleted":                    {&part.Record{Deleted: true}, nil, false, false},
		"deleted, and a file":        {&part.Record{Deleted: true, Content: &content}, disk(3), true, true},
		"recorded, and as it is":     {&part.Record{Content: &content}, disk(3), true, false},
		"recorded, and a longer one": {&part.Record{Content: &content}, disk(4), false, true},
	} {
		line := &part.Name{Name: "a", Own: row.own, Disk: row.disk}
		reading := readingOf(seenOverWire(head, line), night(1))
		if (reading != nil) != row.isRead || isUnclearOverWire(head, line) != row.unclear || isUnclearOverWire(&part.Head{}, line) {
			t.Errorf("%s: %+v, unclear %v", why, reading, isUnclearOverWire(head, line))
		}
	}
}
