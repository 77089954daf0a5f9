package gather

import (
	"errors"
	"fmt"
	"io"
	"os"
	"path/filepath"
	"runtime"
	"strings"
	"testing"
	"time"

	"github.com/syncthing/syncthing/lib/ignore"
	"github.com/syncthing/syncthing/lib/protocol"
	"syncthing-audit/choice"
	"syncthing-audit/device"
	"syncthing-audit/disk"
	"syncthing-audit/fixture"
	"syncthing-audit/part"
	"syncthing-audit/shell"
)

// whitelistedWith is a folder with a whitelist, whose index has the directory e and these names below it.
type whitelistedWith struct {
	whitelisted
	below []device.Entry
}

func (w whitelistedWith) Own(names choice.Names, take func(device.Entry) bool) error {
	err := w.whitelisted.Own(names, take)
	for _, entry := range w.below {
		take(entry)
	}
	return err
}

// readEnd reads a folder, and gives its names and its end.
func readEnd(t *testing.T, folder Folder) (names map[part.Bytes]*part.Name, end *part.End) {
	pool := disk.NewPool(1)
	defer pool.Close()
	names = map[part.Bytes]*part.Name{}
	reading := &Device{Folders: []Folder{folder}, Pool: pool}
	err := reading.Run(reading.Head(), func(line part.Line) error {
		if line.Name != nil {
			names[line.Name.Name] = line.Name
		}
		if line.End != nil {
			end = line.End
		}
		return nil
	})
	if err != nil || end == nil {
		t.Fatalf("%v, %+v", err, end)
	}
	return names, end
}

// Syncthing will ignore a directory that a whitelist ignores, and that its index has, but where a name below it is recorded and there.
func TestWhatKeepsADirectoryOfAWhitelist(t *testing.T) {
	for _, isRecorded := range []bool{false, true} {
		for _, isDeleted := range []bool{false, true} {
			for _, isThere := range []bool{false, true} {
				room := aDirectory(t)
				folder := whitelistedWith{whitelisted: whitelisted{directory{room}}}
				if isRecorded {
					record := &part.Record{Type: int(protocol.FileInfoTypeFile), Deleted: isDeleted}
					folder.below = []device.Entry{{Name: "e/1.bin", Record: record}}
				}
				if isThere {
					if err := os.WriteFile(filepath.Join(room, "e/1.bin"), nil, 0o600); err != nil {
						t.Fatal(err)
					}
				}
				_, end := readEnd(t, folder)
				if isKept := isRecorded && !isDeleted && isThere; (end.ToIgnore == 0) != isKept || end.ToIgnore > 1 {
					t.Errorf("recorded %v, deleted %v, there %v: %d directories", isRecorded, isDeleted, isThere, end.ToIgnore)
				}
			}
		}
	}
}

// A glance has no ignored name, but directories where a pattern takes in what is below one.
func TestWhatAGlanceHas(t *testing.T) {
	t.Setenv("TMPDIR", t.TempDir())
	room := aDirectory(t)
	if err := os.Mkdir(filepath.Join(room, "e.log"), 0o755); err != nil {
		t.Fatal(err)
	}
	for expected, folder := range map[string]Folder{`"b" "d" "e"`: directory{room}, `"e" "e.log"`: whitelisted{directory{room}}} {
		glanced, err := (&Device{Look: &part.Look{}, Folders: []Folder{folder}}).Glance()
		if err != nil {
			t.Fatal(err)
		}
		defer glanced.Close()
		text, err := io.ReadAll(glanced.Folders[0])
		var names []string
		for place, line := range strings.Split(strings.TrimSpace(string(text)), "\n") {
			if place%2 == 0 {
				names = append(names, line)
			}
		}
		if told := strings.Join(names, " "); err != nil || told != expected {
			t.Errorf("%s, not %s: %v", told, expected, err)
		}
	}
}

// labelled is a folder that has a label, and whose patterns can't be had.
type labelled struct{ directory }

func (l labelled) Folder() part.Folder { return part.Folder{ID: "docs", Label: "My papers"} }
func (l labelled) Patterns() (*ignore.Matcher, error) {
	return nil, errors.New("folder docs: its patterns can't be read")
}

// A glance that fails tells of which folder, and one for which there is no room fails.
func TestAGlanceThatFails(t *testing.T) {
	t.Setenv("TMPDIR", t.TempDir())
	_, err := (&Device{Look: &part.Look{}, Folders: []Folder{labelled{directory{"/"}}}}).Glance()
	if err == nil || !strings.Contains(err.Error(), "folder "+shell.Folder("docs", "My papers")+": ") {
		t.Error(err)
	}
	reading := &Device{Folders: []Folder{labelled{directory{"/"}}}}
	if err := reading.Run(reading.Head(), func(part.Line) error { return nil }); err == nil || !strings.Contains(err.Error(), "folder "+shell.Folder("docs", "My papers")+": ") {
		t.Error(err)
	}
	t.Setenv("TMPDIR", "/nowhere")
	if _, err := (&Device{Look: &part.Look{}, Folders: []Folder{directory{aDirectory(t)}}}).Glance(); err == nil {
		t.Error("there is no room for a glance, and nothing is told")
	}
}

// fillsRoom is a folder after which there is no room for more.
type fillsRoom struct {
	directory
	t *testing.T
}

func (f fillsRoom) Patterns() (*ignore.Matcher, error) {
	f.t.Setenv("TMPDIR", "/nowhere")
	return f.directory.Patterns()
}

// Where there is no room for a later folder's glance, those of the folders before it are closed.
func TestAGlanceWithoutRoomLeavesNothingOpen(t *testing.T) {
	t.Setenv("TMPDIR", t.TempDir())
	open := func() int { return fixture.CountOpened(t, fixture.Any) }
	device := &Device{Look: &part.Look{}, Folders: []Folder{fillsRoom{directory{aDirectory(t)}, t}, directory{aDirectory(t)}}}
	before := open()
	glanced, err := device.Glance()
	if after := open(); err == nil || glanced != nil || after > before {
		t.Errorf("%v, %v: %d files are open, and %d were", glanced, err, after, before)
	}
	runtime.KeepAlive(device)
}

// A name that is too long stands in no part: a hash is told in its place.
func TestANameThatIsTooLong(t *testing.T) {
	long := strings.Repeat("x", part.MostNameBytes+1)
	names, end := readEnd(t, indexed{directory{aDirectory(t)}, long})
	one := names[part.HiddenLongName("docs", long).Bytes()]
	if one == nil || len(one.Out) != 1 || one.Out[0].Kind != part.OddName || names[part.Bytes(long)] != nil || end.Names != int64(len(names)) {
		t.Errorf("%+v of %d names, %+v", one, len(names), end)
	}
	if why := (hidden{length: part.MostNameBytes}).line().Out[0].Why; !strings.Contains(why, "begins with bytes") {
		t.Error(why)
	}
}

// endless is a folder whose index and view have no end.
type endless struct {
	directory
	ended chan bool
}

func (e endless) Folder() part.Folder {
	return part.Folder{ID: "docs", Kind: "send-receive", Views: []part.View{{Device: "0"}}}
}

func (e endless) Own(_ choice.Names, take func(device.Entry) bool) error {
	for number := 0; take(device.Entry{Name: fmt.Sprintf("%09d", number), Record: &part.Record{Deleted: true}}); number++ {
	}
	e.ended <- true
	return nil
}

func (e endless) View(_ part.View, names choice.Names, take func(device.Entry) bool) error {
	return e.Own(names, take)
}

// Once nobody takes the names any more, no reading of the index goes on.
func TestNoReadingGoesOnBehindARefusal(t *testing.T) {
	folder := endless{directory{aDirectory(t)}, make(chan bool, 2)}
	pool := disk.NewPool(1)
	defer pool.Close()
	reading, given := &Device{Folders: []Folder{folder}, Pool: pool}, 0
	err := reading.Run(reading.Head(), func(part.Line) error {
		if given++; given == 3 {
			return errMadeUp
		}
		return nil
	})
	if err == nil {
		t.Fatal("it ended")
	}
	for ended := 0; ended < 2; ended++ {
		select {
		case <-folder.ended:
		case <-time.After(10 * time.Second):
			t.Fatal("a reading goes on")
		}
	}
}

// A stream that is closed ends the reading, also one that would never end.
func TestAStreamThatIsClosedReadsNoMore(t *testing.T) {
	folder := endless{directory{aDirectory(t)}, make(chan bool, 2)}
	pool := disk.NewPool(1)
	defer pool.Close()
	stream := (&Device{Folders: []Folder{folder}, Pool: pool}).Stream()
	if _, err := stream.Next(); err != nil {
		t.Fatal(err)
	}
	closed := make(chan bool)
	go func() { stream.Close(); close(closed) }()
	for count := 0; count < 3; count++ {
		select {
		case <-closed:
			closed = nil
		case <-folder.ended:
		case <-time.After(10 * time.Second):
			t.Fatal("a reading goes on")
		}
	}
}
