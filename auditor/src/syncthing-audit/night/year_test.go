package night

import (
	"bytes"
	"fmt"
	"io"
	"math/rand"
	"os"
	"path/filepath"
	"strconv"
	"strings"
	"testing"
	"time"

	"github.com/syncthing/syncthing/lib/protocol"
	"syncthing-audit/commandline"
	"syncthing-audit/exit"
	"syncthing-audit/fixture"
	"syncthing-audit/page"
	"syncthing-audit/part"
	"syncthing-audit/watch"
)

// nightsOfTest is how many nights go by, unless $YEAR says it: YEAR=365 takes about a minute.
const nightsOfTest = 70

// held is what a device has of a file: its record, and the bytes on its disk.
type held struct {
	version           uint64
	sequence, seconds int64
	recorded, found   byte
}

// year is a cluster of three devices that send their parts to a watch, night after night.
type year struct {
	t      *testing.T
	random *rand.Rand
	room   string
	files  map[string]*[3]held
	off    [3]int          // for how many nights a device is off yet
	gone   [3]bool         // whether its part is gone meanwhile, so that it is left out
	seen   map[string]bool // of which name and device a night has seen that it is rotten
	last   int64           // the greatest sequence, of each device

	spread    string          // the file whose rot came to all today, for the first time under its time
	hasSpread map[string]bool // the files of which that is so
	sent      [3]time.Time
	month     string
}

// rotten gives the names and devices whose bytes aren't as recorded, in parts that were sent.
func (y *year) rotten() map[string]bool {
	found := map[string]bool{}
	for name, all := range y.files {
		for at, copy := range all {
			if copy.found != copy.recorded {
				found[fmt.Sprint(name, at)] = true
			}
		}
	}
	return found
}

// write sends the part of a device.
func (y *year) write(at int, when time.Time) {
	id := func(device int) string { return protocol.DeviceID{7: byte(device + 1)}.String() }
	folder := part.Folder{ID: "docs", Kind: "send-receive", IndexID: uint64(at + 1), Max: y.last, Directory: fmt.Sprint("docs", at)}
	for other := 0; other < 3; other++ {
		if other != at {
			folder.Views = append(folder.Views, part.View{Device: id(other), IndexID: uint64(other + 1), Max: y.last})
			folder.Sharing = append(folder.Sharing, part.Sharing{Device: id(other), Name: fmt.Sprint("device", other)})
		}
	}
	lines, head := []part.Line{{Begin: &part.Begin{Folder: "docs"}}}, &part.Head{Version: part.FirstVersion, Device: id(at), Name: fmt.Sprint("device", at), Made: when, Folders: []part.Folder{folder}, Others: []part.Other{}}
	for place := 0; place < len(y.files); place++ {
		name := fmt.Sprintf("file%02d", place)
		all := y.files[name]
		line := &part.Name{Name: part.Bytes(name), Own: all[at].record()}
		for view, other := range folder.Views {
			for number := 0; number < 3; number++ {
				if id(number) == other.Device {
					line.Views = append(line.Views, part.Seen{View: view, Record: all[number].record()})
				}
			}
		}
		content := *line.Own.Content
		content.Hash = part.Hash{all[at].found}
		line.Disk = &part.Node{Size: 5, ModifiedS: all[at].seconds, Permissions: 0o644, Contents: []part.Content{content}}
		if all[at].found != all[at].recorded {
			line.Disk.Differ = &part.Differ{Count: 1, Ranges: [][2]int64{{0, 0}}, First: part.Pair{Recorded: &part.Hash{all[at].recorded}, Found: &part.Hash{all[at].found}}}
		}
		lines = append(lines, part.Line{Name: line})
	}
	lines = append(lines, part.Line{End: &part.End{Folder: "docs", Names: int64(len(y.files)), Max: y.last, Last: true}})
	writePart(y.t, filepath.Join(y.room, "parts", fmt.Sprintf("%d.part", at)), head, lines)
	y.sent[at], y.gone[at] = when, false
}

// leave takes the part of a device away that is off, so that it is left out.
func (y *year) leave(at int) {
	if err := os.Remove(filepath.Join(y.room, "parts", fmt.Sprintf("%d.part", at))); err == nil {
		y.gone[at] = true
	}
}

// rottenOr gives a device on which something is rotten, or this one.
func (y *year) rottenOr(at int) int {
	for place := 0; place < len(y.files); place++ {
		for rotten, copy := range y.files[fmt.Sprintf("file%02d", place)] {
			if copy.found != copy.recorded {
				return rotten
			}
		}
	}
	return at
}

// see notes what a night will see, told or not.
func (y *year) see() {
	for name := range y.files {
		for at, copy := range y.files[name] {
			if y.off[at] == 0 {
				y.seen[fmt.Sprint(name, at)] = y.seen[fmt.Sprint(name, at)] || copy.found != copy.recorded
			}
		}
	}
}

// record gives the record of a file.
func (h held) record() *part.Record {
	permissions := uint32(0o644)
	return &part.Record{ModifiedBy: 1, ModifiedS: h.seconds, Version: [][2]uint64{{1, h.version}}, Sequence: h.sequence, Permissions: &permissions,
		Content: &part.Content{Size: 5, BlockSize: protocol.MinBlockSize, Hash: part.Hash{h.recorded}}}
}

// other gives bytes that a file hasn't.
func (y *year) other(than byte) byte { return than + 1 + byte(y.random.Intn(200)) }

// next gives the sequence of the next change, on each device.
func (y *year) next() int64 {
	y.last++
	return y.last
}

// day has something happen: an edit, rot on one device, rot that spread, rot that is mended, a device that is off for weeks.
func (y *year) day(now time.Time) {
	name := fmt.Sprintf("file%02d", y.random.Intn(len(y.files)))
	all, at := y.files[name], y.random.Intn(3)
	isAllOn := y.off == [3]int{}
	y.spread = ""
	switch y.random.Intn(10) {
	case 0, 1: // edited, and sent to all
		if isAllOn {
			next := held{all[0].version + 1, y.next(), now.Unix(), y.other(all[0].recorded), 0}
			next.found = next.recorded
			*all = [3]held{next, next, next}
			y.hasSpread[name] = false
		}
	case 2: // rots on one device, unseen
		if y.off[at] == 0 && all[at].found == all[at].recorded {
			all[at].found = y.other(all[at].recorded)
		}
	case 3, 4: // what is rotten is put back
		for _, all := range y.files {
			for at := range all {
				if y.off[at] == 0 {
					all[at].found = all[at].recorded
				}
			}
		}
	case 5: // rot that a scan took for a change, and that came to all under the same time
		if isAllOn && all[0].found == all[0].recorded && all[1].found == all[1].recorded && all[2].found == all[2].recorded {
			next := all[0]
			next.version, next.sequence = next.version+1, y.next()
			next.recorded = y.other(next.recorded)
			next.found = next.recorded
			*all = [3]held{next, next, next}
			if !y.hasSpread[name] {
				y.spread, y.hasSpread[name] = name, true
			}
		}
	case 6:
		if isAllOn && y.random.Intn(3) == 0 {
			nights, isLeft := 1+y.random.Intn(25), y.random.Intn(2) == 0
			if isLeft {
				at = y.rottenOr(at)
				y.leave(at)
			}
			y.off[at] = nights
		}
	}
}

// Over a year, with edits, rot that is mended or spreads, devices that are off for weeks, nights that are killed before they tell, and telling that fails: what is
// new is told by the first night that comes to tell, and not again; each month has a word; a part that is late is told each night; and each night that had an
// answer is on the page.
func TestAYearOfNights(t *testing.T) {
	fixture.UseAuditor(t)
	nights := nightsOfTest
	if said, err := strconv.Atoi(os.Getenv("YEAR")); err == nil {
		nights = said
	}
	y := &year{t: t, random: rand.New(rand.NewSource(82)), room: t.TempDir(), files: map[string]*[3]held{}, hasSpread: map[string]bool{}, seen: map[string]bool{}}
	begin := time.Now().AddDate(0, 0, -nights-1)
	for place := 0; place < 8; place++ {
		copy := held{1, y.next(), begin.Unix() - 1000, byte(place + 1), byte(place + 1)}
		y.files[fmt.Sprintf("file%02d", place)] = &[3]held{copy, copy, copy}
	}
	if err := os.Mkdir(filepath.Join(y.room, "parts"), 0o700); err != nil {
		t.Fatal(err)
	}
	told := filepath.Join(y.room, "told")
	isTold, isLate, isUntold, months, loud, kept := map[string]bool{}, false, false, map[string]bool{}, 0, 0
	for number := 0; number < nights; number++ {
		now := begin.AddDate(0, 0, number)
		y.day(now)
		for at := range y.off {
			if y.off[at] > 0 {
				y.off[at]--
			}
			if y.off[at] == 0 {
				y.write(at, now.Add(-time.Hour))
			}
		}
		isLate = false
		for at := range y.sent {
			isLate = isLate || !y.gone[at] && now.Sub(y.sent[at]) > 30*time.Hour
		}
		y.see()
		notify := "cat >> " + told
		isFailing := y.random.Intn(15) == 0
		if isFailing {
			notify = "false"
		}
		config := &watch.Config{Parts: []watch.Parts{{Directory: filepath.Join(y.room, "parts"), Hours: 30}}, State: []watch.Place{{Path: filepath.Join(y.room, "state")}},
			Notify: []watch.Command{{Command: notify}}}
		tonight := &night0{night{config: config, asked: commandline.Options{Program: os.Getenv("SYNCAUDIT"), Jobs: 2, LeaveOut: map[string]bool{}}, home: y.room, began: now, output: io.Discard, log: io.Discard}}
		os.Remove(told)
		if y.random.Intn(12) == 0 {
			tonight.killed(t)
			isUntold = true
			continue
		}
		status := tonight.run()
		kept++
		text, _ := os.ReadFile(told)
		checkNight(t, number, y, status, string(text), isTold, isLate, isUntold, isFailing)
		if len(text) > 0 {
			loud++
			months[now.Format("2006-01")] = true
		}
		isUntold = isFailing && (isUntold || len(tonight.news)+len(tonight.faults) > 0 || tonight.lacksAnswer()) || isFailing && !months[now.Format("2006-01")]
		if !isFailing && !months[now.Format("2006-01")] {
			t.Fatalf("night %d: nothing was told in %s", number, now.Format("2006-01"))
		}
	}
	left, err := page.Read(filepath.Join(y.room, "state"))
	if err != nil || len(left.Nights) != kept {
		t.Errorf("%d nights of %d are kept: %v", len(left.Nights), kept, err)
	}
	t.Logf("%d nights, %d of them told something", nights, loud)
	if loud == 0 || loud == kept {
		t.Error("all nights were alike")
	}
}

// night0 is a night that may be killed.
type night0 struct{ night }

// killed makes the night up to where it would tell.
func (n *night0) killed(t *testing.T) {
	state, err := watch.OpenState(n.directory())
	if err != nil {
		t.Fatal(err)
	}
	defer state.Close()
	n.state, state.Untold = state, true
	if err := state.Save(); err != nil {
		t.Fatal(err)
	}
	n.auditAll()
}

// checkMended says whether a night told the end of rot that is there still: on a device that is off, say.
func checkMended(t *testing.T, night int, y *year, name, text string) {
	isMended := false
	for at, copy := range y.files[name] {
		if key := fmt.Sprint(name, at); y.seen[key] && copy.found == copy.recorded && y.off[at] == 0 {
			isMended, y.seen[key] = true, false
		}
	}
	if strings.Contains(text, "mended: "+name+" in docs: StoreDiffers") && !isMended {
		t.Fatalf("night %d: %s is told as mended: %s", night, name, text)
	}
}

// checkNight says what a night told, and shouldn't have, or the other way round. It keeps which rot was told.
func checkNight(t *testing.T, night int, y *year, status int, text string, isTold map[string]bool, isLate, isUntold, isFailing bool) {
	rotten := y.rotten()
	news := map[string]int{}
	for _, line := range strings.Split(text, "\n") {
		if strings.HasPrefix(line, "new: ") && strings.HasSuffix(line, ": StoreDiffers") {
			news[strings.Fields(line)[1]]++
		}
	}
	if y.spread != "" && night > 0 && !isFailing && !isUntold && !strings.Contains(text, "new: "+y.spread+" in docs: BytesChangedEverywhere") {
		t.Fatalf("night %d: the rot of %s came to all, and that isn't told: %s", night, y.spread, text)
	}
	if isLate && !isFailing && !strings.Contains(text, " hours old: ") {
		t.Fatalf("night %d: a part is late, and that isn't told: %s", night, text)
	}
	if isUntold && !isFailing && !strings.Contains(text, "the night before ended before it told") {
		t.Fatalf("night %d: nobody is told that the night before told nothing: %s", night, text)
	}
	for name := range y.files {
		checkMended(t, night, y, name, text)
		now := 0
		for at := 0; at < 3; at++ {
			key := fmt.Sprint(name, at)
			isFresh := rotten[key] && y.off[at] == 0
			if isFresh && !isTold[key] {
				now++
				if !isFailing {
					if news[name] == 0 && !(isUntold && strings.Contains(text, name)) {
						t.Fatalf("night %d: %s rots on device%d, and that isn't told: %s", night, name, at, text)
					}
				}
				isTold[key] = !isFailing || isTold[key]
			}
			if isFresh && status != exit.NotSettled {
				t.Fatalf("night %d: %s rots on device%d, and the status is %d: %s", night, name, at, status, text)
			}
			if !rotten[key] {
				isTold[key] = false
			}
		}
		if news[name] > 0 && now == 0 {
			t.Fatalf("night %d: %s is told as new again: %s", night, name, text)
		}
	}
}

// writePart writes a part with these lines.
func writePart(t *testing.T, path string, head *part.Head, lines []part.Line) {
	var text bytes.Buffer
	to, err := part.NewWriter(&text, head)
	for at := 0; at < len(lines) && err == nil; at++ {
		err = to.Take(lines[at])
	}
	if err == nil {
		err = to.Close()
	}
	if err == nil {
		err = os.WriteFile(path, text.Bytes(), 0o600)
	}
	if err != nil {
		t.Fatal(err)
	}
}
