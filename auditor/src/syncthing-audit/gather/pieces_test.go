package gather

import (
	"fmt"
	"io"
	"os"
	"path/filepath"
	"reflect"
	"runtime"
	"sort"
	"strings"
	"testing"
	"time"

	"github.com/syncthing/syncthing/lib/fs"
	"github.com/syncthing/syncthing/lib/ignore"
	"github.com/syncthing/syncthing/lib/protocol"
	"syncthing-audit/adapt"
	"syncthing-audit/disk"
	"syncthing-audit/fixture"
	"syncthing-audit/limits"
	"syncthing-audit/part"
	"syncthing-audit/shell"
)

// A reading that is pulled gives all in order, whatever their number is, and its error behind them; one that is closed ends.
func TestPulledReadings(t *testing.T) {
	for _, count := range []int{0, 1, batchLength - 1, batchLength, batchLength + 1, 5 * batchLength} {
		for _, failed := range []error{nil, io.ErrUnexpectedEOF} {
			pulled := pull(func(take func(int) bool) error {
				for number := 0; number < count; number++ {
					take(number)
				}
				return failed
			})
			met := 0
			for next := pulled.peek(); next != nil; next = pulled.peek() {
				if *next != met || pulled.failure() != nil {
					t.Fatalf("%d, not %d: %v", *next, met, pulled.failure())
				}
				met++
				pulled.take()
			}
			if failed == nil && met != count || failed != nil && met != count/batchLength*batchLength || pulled.failure() != failed {
				t.Errorf("%d of %d: %v", met, count, pulled.failure())
			}
		}
	}
	ended := make(chan bool, 1)
	endless := pull(func(take func(int) bool) error {
		for take(1) {
		}
		ended <- true
		return nil
	})
	endless.peek()
	endless.close()
	select {
	case <-ended:
	case <-time.After(10 * time.Second):
		t.Error("a reading that is closed goes on")
	}
}

// Names that are told by hashes come in the order of these, each with its size: that on the disk, of the record or of what is left out, whichever is the
// greatest of the last ones.
func TestHiddenNamesInTheirOrder(t *testing.T) {
	m := &merge{folder: "docs", to: disk.NewQueue()}
	long := strings.Repeat("x", part.MostNameBytes+1)
	behind := part.Bytes(shell.BehindNames + "x")
	for number := 0; number < 20; number++ {
		m.hide(&part.Name{Name: part.Bytes(fmt.Sprint("a", number)), Disk: &part.Node{Size: int64(number)}}, false)
	}
	m.hideLong(&part.Name{Name: part.Bytes(long), Disk: &part.Node{Size: 5}, Out: []part.LeftOut{{Bytes: 3}, {Bytes: 7}, {Bytes: 6}}})
	m.hideLong(&part.Name{Name: part.Bytes(long + "y"), Own: &part.Record{Content: &part.Content{Size: 4}}, Out: []part.LeftOut{{Bytes: 3}}})
	m.hideLong(&part.Name{Name: behind})
	if !m.sendHidden() {
		t.Fatal("they aren't wanted")
	}
	var names []string
	told := map[part.Bytes]*part.Name{}
	for count, _ := m.to.Waiting(); count > 0; count-- {
		next, _ := m.to.Next()
		names = append(names, string(next.Line.Name))
		told[next.Line.Name] = next.Line
	}
	if _, weight := m.to.Waiting(); len(names) != 23 || !sort.StringsAreSorted(names) || weight != 0 {
		t.Errorf("%d names, %d", len(names), weight)
	}
	for name, out := range map[part.Bytes]part.LeftOut{
		part.HiddenLongName("docs", long).Bytes():           {Kind: part.OddName, Why: "its name has 4097 bytes: a part tells at most 4096", Bytes: 7},
		part.HiddenLongName("docs", long+"y").Bytes():       {Kind: part.OddName, Why: "its name has 4098 bytes: a part tells at most 4096", Bytes: 4},
		part.HiddenLongName("docs", string(behind)).Bytes(): {Kind: part.OddName, Why: "its name begins with bytes that stand before hashes in a part"},
		part.HiddenName("docs", "a7").Bytes():               {Kind: part.Ignored, Why: "it is ignored there by .stignore", Bytes: 7},
	} {
		if line := told[name]; line == nil || !reflect.DeepEqual(line.Out, []part.LeftOut{out}) || (out.Kind == part.Ignored) != (line.Disk != nil) {
			t.Errorf("%+v, not %+v", line, out)
		}
	}
	m.hide(&part.Name{Name: "b", Disk: &part.Node{}}, false)
	m.to.End(nil)
	m.to.Stop()
	if m.sendHidden() {
		t.Error("they are wanted of a queue that was stopped")
	}
}

// unlistable is a folder of which the directory, or the patterns, can't be had.
type unlistable struct {
	directory
	isOfPatterns bool
}

func (u unlistable) Patterns() (*ignore.Matcher, error) {
	if u.isOfPatterns {
		return nil, errMadeUp
	}
	return u.directory.Patterns()
}

// A glance leaves no file open, neither once it is closed nor where a folder fails.
func TestNothingIsOpenAfterAGlance(t *testing.T) {
	room := t.TempDir()
	t.Setenv("TMPDIR", room)
	good := directory{aDirectory(t)}
	open := func() int {
		return fixture.CountOpened(t, func(path string) bool { return strings.HasPrefix(path, room) })
	}
	before := open()
	glanced, err := (&Device{Look: &part.Look{}, Folders: []Folder{good, good}}).Glance()
	if err != nil || open() != before+2 {
		t.Fatalf("%v, %d files, not %d", err, open(), before+2)
	}
	glanced.Close()
	for _, folder := range []Folder{unlistable{directory{"/nowhere"}, false}, unlistable{good, true}} {
		if _, err := (&Device{Look: &part.Look{}, Folders: []Folder{good, folder}}).Glance(); err == nil {
			t.Errorf("%+v fails, and nothing is told", folder)
		}
	}
	runtime.KeepAlive(glanced)
	if after := open(); after != before {
		t.Errorf("%d files are open, and %d were", after, before)
	}
}

// Of what is being received a look tells by which temporary file, and of nothing else.
func TestWhatIsBeingReceived(t *testing.T) {
	room := aDirectory(t)
	if err := os.WriteFile(filepath.Join(room, fs.TempName("b")), []byte("x"), 0o600); err != nil {
		t.Fatal(err)
	}
	pool := disk.NewPool(1)
	defer pool.Close()
	for _, look := range []*part.Look{nil, {ID: "x"}} {
		told := map[part.Bytes]string{}
		device := &Device{Look: look, Folders: []Folder{directory{room}}, Pool: pool}
		if err := device.Run(device.Head(), func(line part.Line) error {
			if line.Name != nil {
				told[line.Name.Name] = line.Name.Receiving
			}
			return nil
		}); err != nil {
			t.Fatal(err)
		}
		if (told["b"] != "") != (look != nil) || told["d"] != "" {
			t.Errorf("%q", told)
		}
	}
}

// A name takes room of the queue by its hashes: those of its record, those of each cut of its file, and its bytes where they are kept. In a document
// with bytes there is no file that is too long for one.
func TestWhatANameTakesOfTheQueue(t *testing.T) {
	pool := disk.NewPool(1)
	defer pool.Close()
	room := t.TempDir()
	for _, keep := range []bool{false, true} {
		for _, size := range []int64{0, 1, 3*protocol.MinBlockSize + 1, limits.MostFileBytes, limits.MostFileBytes + 1} {
			pool.Skip()
			m := &merge{device: &Device{Bytes: keep, Pool: pool}, walker: &disk.Walker{Disk: adapt.Directory(fs.NewFilesystem(fs.FilesystemTypeBasic, room))}, to: disk.NewQueue()}
			line := &part.Name{Name: "a", Disk: &part.Node{Size: size}, Own: &part.Record{Content: &part.Content{Size: size, BlockSize: 2 * protocol.MinBlockSize}},
				Views: []part.Seen{{Record: &part.Record{Content: &part.Content{Size: size, BlockSize: protocol.MinBlockSize}}}}}
			if !m.send(line, make([][32]byte, 3), disk.Stamp{}) {
				t.Fatal("it isn't wanted")
			}
			expected, isTooLarge := disk.WeightOfName, keep && size > limits.MostFileBytes
			if !isTooLarge {
				expected += 3 + int(part.CountOfBlocks(size, 2*protocol.MinBlockSize))
				if size > 2*protocol.MinBlockSize {
					expected += int(part.CountOfBlocks(size, protocol.MinBlockSize))
				}
				if keep {
					expected += int(size / 32)
				}
			}
			count, weight := m.to.Waiting()
			next, _ := m.to.Next()
			if weight != expected || count != 1 || next.Weight != expected || (len(line.Out) > 0) != isTooLarge || (next.Job == nil) != isTooLarge {
				t.Errorf("%d bytes, kept %v: %d, not %d, %v", size, keep, weight, expected, line.Out)
			}
		}
	}
	sized := func(size int64) *part.Record { return &part.Record{Content: &part.Content{Size: size}} }
	for most, line := range map[int64]*part.Name{0: {}, 3: {Own: sized(3), Views: []part.Seen{{Record: sized(2)}}}, 4: {Own: sized(3), Views: []part.Seen{{Record: sized(2)}, {Record: sized(4)}}},
		5: {Own: &part.Record{}, Views: []part.Seen{{Record: sized(5)}, {Record: &part.Record{}}}}} {
		if is := longest(line); is != most {
			t.Errorf("%d, not %d", is, most)
		}
	}
}
