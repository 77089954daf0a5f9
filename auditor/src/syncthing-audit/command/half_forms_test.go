package command

import (
	"bytes"
	"encoding/json"
	"fmt"
	"io"
	"math/rand"
	"os"
	"path/filepath"
	"reflect"
	"sort"
	"strings"
	"testing"
	"time"

	"github.com/syncthing/syncthing/lib/ignore"
	"github.com/syncthing/syncthing/lib/protocol"
	"syncthing-audit/bep"
	"syncthing-audit/device"
	"syncthing-audit/disk"
	"syncthing-audit/diskhalf"
	"syncthing-audit/gather"
	"syncthing-audit/halves"
	"syncthing-audit/join"
	"syncthing-audit/looks"
	"syncthing-audit/part"
	"syncthing-audit/shell"
)

// ignoring is a folder whose .stignore is heeded.
type ignoring struct{ *drawn }

func (i ignoring) Patterns() (*ignore.Matcher, error) {
	matcher := ignore.New(i.Disk())
	return matcher, matcher.Load(".stignore")
}

const lookOfTest = "00112233445566778899aabbccddeeff"

// drawHeard draws a folder at all devices that have heard of each other's indexes without gaps, as far as some sequence; each name has a sequence of its
// own. A few names lie below directories, and some are ignored.
func drawHeard(t *testing.T, random *rand.Rand) []*drawn {
	devices := draw(t, random)
	for _, device := range devices {
		for _, entry := range device.own {
			entry.Record.Invalid = false // over the wire it isn't told why a record is invalid
		}
	}
	for _, drawn := range devices {
		drawn.views = map[string][]device.Entry{}
		for place := range drawn.about.Views {
			view := &drawn.about.Views[place]
			for _, other := range devices {
				if other.id == view.Device {
					view.Max = random.Int63n(lastOf(other.own) + 1)
					drawn.views[view.Device] = upTo(other.own, view.Max)
				}
			}
		}
		putIgnored(t, random, drawn)
	}
	return devices
}

// lastOf gives the highest sequence of an index. Over the wire nothing beyond it is seen, so nobody has heard of more.
func lastOf(entries []device.Entry) int64 {
	last := int64(0)
	for _, entry := range entries {
		if entry.Record.Sequence > last {
			last = entry.Record.Sequence
		}
	}
	return last
}

// upTo gives an index up to a sequence, as it is sent.
func upTo(entries []device.Entry, most int64) []device.Entry {
	kept := []device.Entry{}
	for _, entry := range entries {
		if entry.Record.Sequence <= most {
			record := *entry.Record
			kept = append(kept, device.Entry{Name: entry.Name, Record: &record, Blocks: entry.Blocks})
		}
	}
	return kept
}

// putIgnored puts a .stignore and names that it ignores onto a disk, with the marker of a folder.
func putIgnored(t *testing.T, random *rand.Rand, device *drawn) {
	files := map[string]string{".stignore": []string{"/new*\n01?", "!/new/kept\nnew\n/02?", "(?i)NEW\n//none", ""}[random.Intn(4)],
		".stfolder/none": "", "new/kept": "kept", "new/lost": "lost", "newer": "newer", ".syncthing.a.tmp": "temporary", "new/é": "é"}
	for name, text := range files {
		path := filepath.Join(device.path, name)
		if err := os.MkdirAll(filepath.Dir(path), 0o755); err != nil {
			t.Fatal(err)
		}
		if err := os.WriteFile(path, []byte(text), 0o644); err != nil {
			t.Fatal(err)
		}
	}
	if err := os.Symlink("none", filepath.Join(device.path, "new/link")); err != nil {
		t.Fatal(err)
	}
	for _, entry := range device.own { // the walk doesn't tell of a file that is ignored where the index has a directory
		if path := filepath.Join(device.path, entry.Name); strings.HasPrefix(entry.Name, "02") && entry.Record.Type == bep.Directory && !entry.Record.Deleted {
			if err := os.RemoveAll(path); err != nil {
				t.Fatal(err)
			}
			if err := os.Mkdir(path, 0o755); err != nil {
				t.Fatal(err)
			}
		}
	}
}

// lookedAt gives a device as two looks at its home have it.
func lookedAt(t *testing.T, pool *disk.Pool, device *drawn) *join.Device {
	first := &gather.Device{ID: device.id, Folders: []gather.Folder{ignoring{device}}, Pool: pool, Look: &part.Look{Home: "home", ID: lookOfTest, At: time.Unix(1, 0)}}
	second := *first
	second.Look = &part.Look{Home: "home", After: firstLooks(device), At: time.Unix(2, 0)}
	joined, err := looks.Join(first.Stream(), second.Stream())
	if err != nil {
		t.Fatal(err)
	}
	return join.NewDevice(joined, "home of "+device.id)
}

// firstLooks are the first looks at a device and at those that share its folder.
func firstLooks(device *drawn) map[string]string {
	all := map[string]string{device.id: lookOfTest}
	for _, other := range device.about.Sharing {
		all[other.Device] = lookOfTest
	}
	return all
}

// wireOf writes the half of a device's part that an observer makes.
func wireOf(t *testing.T, device *drawn, walk string) part.Stream {
	look := &part.Look{Home: "over the wire", ID: lookOfTest, After: firstLooks(device), At: time.Unix(1, 0), Ended: time.Unix(2, 0)}
	head := &part.Head{Device: device.id, Look: look, Wire: part.NewWire(protocol.DeviceID{7: 99}.String(), true), Folders: []part.Folder{device.about}}
	head.Wire.Half = walk
	head.Version = head.DueVersion()
	lines := []part.Line{{Begin: &part.Begin{Folder: "docs"}}}
	for _, entry := range device.own {
		line := &part.Name{Name: part.Bytes(entry.Name), Own: entry.Record}
		lines = append(lines, part.Line{Name: line})
	}
	lines = append(lines, part.Line{End: &part.End{Folder: "docs", Names: int64(len(device.own)), Max: device.about.Max, Last: true}})
	return readBack(t, func(to io.Writer) error {
		writer, err := part.NewWriter(to, head)
		for place := 0; err == nil && place < len(lines); place++ {
			err = writer.Take(lines[place])
		}
		if err == nil {
			err = writer.Close()
		}
		return err
	})
}

// readBack gives what is written as a part that is read.
func readBack(t *testing.T, write func(io.Writer) error) part.Stream {
	var text bytes.Buffer
	if err := write(&text); err != nil {
		t.Fatal(err)
	}
	reader, err := part.NewReader(&text)
	if err != nil {
		t.Fatal(err)
	}
	return reader
}

// walked gives the half of a device's part that is of its disks.
func walked(t *testing.T, pool *disk.Pool, device *drawn) part.Stream {
	return readBack(t, func(to io.Writer) error {
		_, err := diskhalf.Write(to, diskhalf.Asked{Device: device.id, Folders: []diskhalf.Folder{{ID: "docs", Directory: device.path}}, After: lookOfTest,
			BlockSizes: []int64{block, 2 * block}, Marker: ".stfolder"}, pool)
		return err
	})
}

// inHalves gives a device as its two halves have it.
func inHalves(t *testing.T, pool *disk.Pool, device *drawn) *join.Device {
	disks := walked(t, pool, device)
	joined, err := halves.Join(wireOf(t, device, disks.Head().Half.ID), disks)
	if err != nil {
		t.Fatal(err)
	}
	return join.NewDevice(joined, "halves of "+device.id)
}

// rowsOf gives all rows of a folder at devices, each name and member in a line, but for what is said not to be seen of halves: which blocks differ, and more
// of an ignored name than that it is.
func rowsOf(t *testing.T, devices []*join.Device) ([]string, *join.Folder) {
	plan, err := join.NewPlan(devices, nil)
	if err != nil || len(plan.Folders) != 1 {
		t.Fatal(err, plan.Refusals)
	}
	told := []string{}
	folder := plan.Folders[0]
	if _, err := folder.Rows(func(row *join.Row) error {
		for member, at := range row.At {
			if line := lineOf(row.Name, at, row.IsMoving()); line != "" {
				told = append(told, fmt.Sprintf("%d %s", member, line))
			}
		}
		return nil
	}); err != nil {
		t.Fatal(err)
	}
	sort.Strings(told)
	return told, folder
}

// lineOf tells what a member has of a name. Where it moved somewhere, nothing is compared of it.
func lineOf(name string, at *part.Name, isMoving bool) string {
	if at == nil || isMoving && len(at.Moved) == 0 {
		return ""
	}
	if at.IsIgnored() {
		if !shell.IsBehindNames(name) {
			name = string(part.HiddenName("docs", name).Bytes())
		}
		return fmt.Sprintf("%q is ignored", name[len(shell.BehindNames):]) // under a hash, or under its name
	}
	text := name
	for _, name := range []*part.Name{at, at.Waits} {
		if name == nil {
			continue
		}
		text += fmt.Sprintf(" %s %v %v %s %v", toText(name.Own), name.Out, name.Moved, nodeText(name.Disk), len(name.Views))
		for _, seen := range name.Views {
			text += fmt.Sprintf(" %d: %s", seen.View, toText(seen.Record))
		}
	}
	return text
}

func toText(own *part.Record) string {
	if own == nil {
		return "none"
	}
	record := *own
	record.Blocks = nil
	text, err := json.Marshal(record)
	return fmt.Sprint(string(text), err)
}

// nodeText gives what stands on a disk, with the content by which it is compared.
func nodeText(found *part.Node) string {
	if found == nil {
		return "nothing"
	}
	node := *found
	node.Differ, node.Contents, node.Stamp = nil, nil, ""
	text, err := json.Marshal(node)
	if len(found.Contents) == 0 {
		return fmt.Sprint(string(text), err)
	}
	content := found.Contents[0]
	if part.CountOfBlocks(content.Size, content.BlockSize) == 1 {
		content.BlockSize = 0 // it isn't part of the content
	}
	return fmt.Sprint(string(text), err, content)
}

// A device by two looks at its home, and the same device by its disk half and the observer's: all rows are the same, but for what is said not to be seen.
func TestHalvesAreADevice(t *testing.T) {
	pool := disk.NewPool(2)
	defer pool.Close()
	random, compared, waiting, ignored := rand.New(rand.NewSource(3)), 0, 0, 0
	for round := 0; round < 4; round++ {
		devices := drawHeard(t, random)
		var homes, parts []*join.Device
		for _, device := range devices {
			homes, parts = append(homes, lookedAt(t, pool, device)), append(parts, inHalves(t, pool, device))
		}
		due, from := rowsOf(t, homes)
		found, folder := rowsOf(t, parts)
		if !reflect.DeepEqual(due, found) {
			t.Fatalf("round %d:\n%s", round, differences(due, found))
		}
		for member := range folder.Members {
			had, other := from.Members[member], folder.Members[member]
			if !reflect.DeepEqual(had.Temporary, other.Temporary) || !reflect.DeepEqual(had.Linked, other.Linked) || had.ToIgnore != other.ToIgnore {
				t.Errorf("round %d, member %d: %v %v %d, and by halves %v %v %d", round, member, had.Temporary, had.Linked, had.ToIgnore,
					other.Temporary, other.Linked, other.ToIgnore)
			}
		}
		compared += len(found)
		waiting += strings.Count(strings.Join(found, "\n"), part.MovedUnscanned)
		ignored += strings.Count(strings.Join(found, "\n"), "is ignored")
	}
	if compared < 600 || waiting < 60 || ignored < 10 {
		t.Errorf("%d lines were compared, %d wait, %d are ignored", compared, waiting, ignored)
	}
}

// differences gives the lines that only one of two lists has.
func differences(words, other []string) string {
	has := map[string]int{}
	for _, line := range words {
		has[line]++
	}
	for _, line := range other {
		has[line]--
	}
	told := []string{}
	for line, count := range has {
		if count != 0 {
			told = append(told, fmt.Sprintf("%+d %s", count, line))
		}
	}
	sort.Slice(told, func(a, b int) bool { return told[a][2:] < told[b][2:] })
	if len(told) > 12 {
		told = told[:12]
	}
	return strings.Join(told, "\n")
}
