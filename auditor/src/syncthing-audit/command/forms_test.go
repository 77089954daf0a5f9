package command

import (
	"bytes"
	"crypto/sha256"
	"fmt"
	"math/rand"
	"os"
	"path/filepath"
	"reflect"
	"sort"
	"testing"
	"time"

	"github.com/syncthing/syncthing/lib/fs"
	"github.com/syncthing/syncthing/lib/ignore"
	"github.com/syncthing/syncthing/lib/protocol"
	"syncthing-audit/answering"
	"syncthing-audit/ask"
	"syncthing-audit/choice"
	"syncthing-audit/commandline"
	"syncthing-audit/device"
	"syncthing-audit/disk"
	"syncthing-audit/finding"
	"syncthing-audit/fixture"
	"syncthing-audit/gather"
	"syncthing-audit/inputs"
	"syncthing-audit/join"
	"syncthing-audit/part"
)

const (
	namesOfARound   = 120
	devicesOfARound = 3
	block           = protocol.MinBlockSize
)

// contents are what files have here: of one block and of two, some of one size, some of one first block.
var contents = [][]byte{{}, []byte("a"), []byte("b"), []byte("longer"), bytes.Repeat([]byte("x"), block), bytes.Repeat([]byte("x"), block+5),
	append(bytes.Repeat([]byte("x"), block), "other"...)}

// drawn is a folder at one device, drawn at random: what its index and its views say, and a directory.
type drawn struct {
	id    string
	runs  string // its version of Syncthing, where that matters
	about part.Folder
	own   []device.Entry
	views map[string][]device.Entry
	path  string
}

func (d *drawn) Folder() part.Folder                { return d.about }
func (d *drawn) Disk() fs.Filesystem                { return fs.NewFilesystem(fs.FilesystemTypeBasic, d.path) }
func (d *drawn) Patterns() (*ignore.Matcher, error) { return ignore.New(d.Disk()), nil }
func (d *drawn) Check() error                       { return nil }
func (d *drawn) Max() int64                         { return d.about.Max }

func (d *drawn) Own(_ choice.Names, take func(device.Entry) bool) error {
	return give(d.own, take)
}

func (d *drawn) View(of part.View, _ choice.Names, take func(device.Entry) bool) error {
	return give(d.views[of.Device], take)
}

func give(entries []device.Entry, take func(device.Entry) bool) error {
	for _, entry := range entries {
		if !take(entry) {
			break
		}
	}
	return nil
}

// draw draws a folder at all devices.
func draw(t *testing.T, random *rand.Rand) []*drawn {
	devices := drawDevices(t, random)
	for number := int64(1); number <= namesOfARound; number++ {
		drawName(t, random, devices, fmt.Sprintf("%03d", number), number)
	}
	return devices
}

// drawDevices draws a folder without names at all devices.
func drawDevices(t *testing.T, random *rand.Rand) []*drawn {
	devices := make([]*drawn, devicesOfARound)
	for place := range devices {
		id := protocol.DeviceID{7: byte(place + 1)}.String()
		devices[place] = &drawn{id: id, path: t.TempDir(), views: map[string][]device.Entry{},
			about: part.Folder{ID: "docs", Kind: []string{"send-receive", "receive-only"}[random.Intn(2)], IndexID: 1, Max: namesOfARound, Directory: id}}
	}
	for place, device := range devices {
		for other, two := range devices {
			if other != place {
				device.about.Sharing = append(device.about.Sharing, part.Sharing{Device: two.id})
				device.about.Views = append(device.about.Views, part.View{Device: two.id, IndexID: 1, Max: namesOfARound})
			}
		}
	}
	return devices
}

// drawName draws what the devices have of one name: mostly what one of them has, else something else.
func drawName(t *testing.T, random *rand.Rand, devices []*drawn, name string, sequence int64) {
	usual := drawRecord(random, sequence)
	pick := func() device.Entry {
		entry := usual
		if random.Intn(4) == 0 {
			entry = drawRecord(random, sequence)
		}
		record := *entry.Record
		entry.Name, entry.Record = name, &record
		return entry
	}
	for _, device := range devices {
		own := pick()
		if random.Intn(8) > 0 {
			device.own = append(device.own, own)
		}
		if random.Intn(6) == 0 {
			own = drawRecord(random, sequence)
		}
		putNode(t, filepath.Join(device.path, name), own, random.Intn(12) == 0)
		for _, view := range device.about.Views {
			if random.Intn(3) > 0 {
				device.views[view.Device] = append(device.views[view.Device], pick())
			}
		}
	}
}

// drawRecord draws a record.
func drawRecord(random *rand.Rand, sequence int64) device.Entry {
	record := &part.Record{ModifiedS: int64(random.Intn(2) + 1000), ModifiedBy: uint64(random.Intn(2) + 1), Sequence: sequence,
		Version: [][2]uint64{{1, uint64(random.Intn(2) + 1)}, {2, uint64(random.Intn(2) + 1)}}, Invalid: random.Intn(10) == 0}
	entry := device.Entry{Record: record}
	switch random.Intn(10) {
	case 0:
		record.Deleted = true
	case 1:
		record.Type = int(protocol.FileInfoTypeDirectory)
	case 2:
		record.Type, record.Target = int(protocol.FileInfoTypeSymlink), []string{"here", "there"}[random.Intn(2)]
	default:
		data := contents[random.Intn(len(contents))]
		size := int64(block)
		if len(data) <= block {
			size <<= random.Intn(2)
		}
		for offset := 0; offset == 0 || offset < len(data); offset += block {
			end := offset + block
			if end > len(data) {
				end = len(data)
			}
			entry.Blocks = append(entry.Blocks, sha256.Sum256(data[offset:end]))
		}
		record.Content = &part.Content{Size: int64(len(data)), BlockSize: size, Hash: disk.HashOf(entry.Blocks)}
	}
	return entry
}

// putNode puts what a record says onto a disk, with another time where that is asked for.
func putNode(t *testing.T, path string, entry device.Entry, isLate bool) {
	record := entry.Record
	var err error
	switch {
	case record.Deleted:
		return
	case record.Content == nil && record.Target != "":
		err = os.Symlink(record.Target, path)
	case record.Content == nil:
		err = os.Mkdir(path, 0o755)
	default:
		err = os.WriteFile(path, dataOf(record.Content), 0o644)
	}
	if err == nil && record.Target == "" {
		when := time.Unix(record.ModifiedS, int64(record.ModifiedNs))
		if isLate {
			when = when.Add(time.Nanosecond)
		}
		err = os.Chtimes(path, when, when)
	}
	if err != nil {
		t.Fatal(err)
	}
}

// dataOf gives the bytes of a content.
func dataOf(content *part.Content) []byte {
	for _, data := range contents {
		hashes := [][32]byte{}
		for offset := 0; offset == 0 || offset < len(data); offset += block {
			end := offset + block
			if end > len(data) {
				end = len(data)
			}
			hashes = append(hashes, sha256.Sum256(data[offset:end]))
		}
		if int64(len(data)) == content.Size && disk.HashOf(hashes) == content.Hash {
			return data
		}
	}
	panic("no such content")
}

// auditor gives the program that answers, or what stands for it.
func auditor() ask.Program {
	for _, path := range []string{fixture.Auditor, "../../../../crates/syncaudit/out/syncaudit"} {
		if _, err := os.Stat(path); err == nil {
			return ask.Program{Path: path}
		}
	}
	return ask.Program{Path: "../../../test/" + standIn}
}

// standIn is what stands for the program.
const standIn = "stand_in.py"

// answerOfDrawn audits the devices, in one form of documents.
func answerOfDrawn(t *testing.T, devices []*drawn, withBytes bool) *finding.Answer {
	return answerOfSome(t, devices, commandline.Options{Bytes: withBytes, Jobs: 1})
}

// answerOfSome audits these devices as it is asked.
func answerOfSome(t *testing.T, devices []*drawn, asked commandline.Options) *finding.Answer {
	answer, err := answerBy(auditor(), devices, asked)
	if err != nil || len(answer.Refusals) > 0 {
		t.Fatal(err, answer)
	}
	return answer
}

// answerBy has a program answer.
func answerBy(program ask.Program, devices []*drawn, asked commandline.Options) (*finding.Answer, error) {
	pool := disk.NewPool(2)
	defer pool.Close()
	opened := &inputs.Inputs{}
	for _, device := range devices {
		stream := (&gather.Device{ID: device.id, Runs: device.runs, Folders: []gather.Folder{device}, Bytes: asked.Bytes, Pool: pool}).Stream()
		defer stream.Close()
		opened.Devices = append(opened.Devices, join.NewDevice(stream, device.id))
	}
	return answering.Of(opened, asked, program)
}

// failures gives what an audit of the devices finds, in one form of documents.
func failures(t *testing.T, devices []*drawn, withBytes bool) []finding.Failure {
	var failures []finding.Failure
	answerOfDrawn(t, devices, withBytes).Folders[0].EachFailure(func(failure *finding.Failure) { failures = append(failures, *failure) })
	return failures
}

// firsts gives the first failure of each name: the verdict on the folder that has this name alone.
func firsts(failures []finding.Failure) map[string]finding.Failure {
	found := map[string]finding.Failure{}
	for _, failure := range failures {
		if _, there := found[failure.Name]; !there {
			found[failure.Name] = failure
		}
	}
	return found
}

// Stand-ins and bytes give the same verdict, on each name by itself and on all together. All that fails is the same, but
// for a StoreUnclean where an earlier reason fails, too.
func TestBothFormsSayTheSame(t *testing.T) {
	seen := map[string]bool{}
	for seed := int64(1); seed <= 2; seed++ {
		devices := draw(t, rand.New(rand.NewSource(seed)))
		standIns, withBytes := failures(t, devices, false), failures(t, devices, true)
		if !reflect.DeepEqual(firsts(standIns), firsts(withBytes)) || standIns[0] != withBytes[0] {
			t.Errorf("seed %d: %v, %v", seed, firsts(standIns), firsts(withBytes))
		}
		if failures, other := withoutUnclean(standIns), withoutUnclean(withBytes); !reflect.DeepEqual(failures, other) {
			t.Errorf("seed %d: %v, %v", seed, failures, other)
		}
		for _, failure := range standIns {
			seen[failure.Reason] = true
		}
	}
	for _, reason := range []string{"NotWinner", "RecordMissing", "RecordDiffers", "LocalOnly", "StoreDiffers", "StoreUnclean", "ViewAhead"} {
		if !seen[reason] {
			t.Errorf("no %s was drawn", reason)
		}
	}
}

// withoutUnclean gives the failures without each StoreUnclean at a place where the record or the disk isn't the winner's.
func withoutUnclean(failures []finding.Failure) []finding.Failure {
	differs := map[finding.Failure]bool{}
	for _, failure := range failures {
		switch failure.Reason {
		case "RecordDiffers", "LocalOnly", "StoreDiffers":
			differs[finding.Failure{Reason: "StoreUnclean", Name: failure.Name, Device: failure.Device}] = true
		}
	}
	var left []finding.Failure
	for _, failure := range failures {
		if !differs[failure] {
			left = append(left, failure)
		}
	}
	sort.SliceStable(left, func(a, b int) bool { return left[a].Name < left[b].Name })
	return left
}
