package adapt

import (
	"errors"
	"os"
	"path/filepath"
	"syscall"
	"testing"
	"time"

	"github.com/syncthing/syncthing/lib/db"
	"github.com/syncthing/syncthing/lib/db/backend"
	"github.com/syncthing/syncthing/lib/events"
	"github.com/syncthing/syncthing/lib/fs"
	"github.com/syncthing/syncthing/lib/protocol"
)

// silent are files of which the look says nothing that the system said.
type silent struct{ fs.Filesystem }

func (s silent) Lstat(name string) (fs.FileInfo, error) {
	if name == "gone" {
		name = "a"
	}
	info, err := s.Filesystem.Lstat(name)
	if err != nil {
		return nil, err
	}
	return struct{ fs.FileInfo }{info}, nil
}

// mute are files of which the look says something else than the system said.
type mute struct{ fs.Filesystem }

func (m mute) Lstat(name string) (fs.FileInfo, error) {
	info, err := m.Filesystem.Lstat(name)
	return said{info}, err
}

type said struct{ fs.FileInfo }

func (said) Sys() interface{} { return "nothing" }

// earlier are files that were looked at an hour earlier: each looks to have changed by then.
type earlier struct{ *Beneath }

func (e earlier) Lstat(name string) (fs.FileInfo, error) {
	info, err := e.Beneath.Lstat(name)
	return &timedInfo{info, time.Unix(5, 0)}, err
}

// However Syncthing's files are laid over one another, a look gives what the system says of a name, and the time as Syncthing sees it.
func TestWhatTheSystemSays(t *testing.T) {
	room := t.TempDir()
	path := filepath.Join(room, "a")
	if err := os.WriteFile(path, []byte("text"), 0o640); err != nil {
		t.Fatal(err)
	}
	due, err := os.Lstat(path)
	if err != nil {
		t.Fatal(err)
	}
	basic := fs.NewFilesystem(fs.FilesystemTypeBasic, room)
	for why, files := range map[string]fs.Filesystem{"basic": basic, "beneath": NewBeneath(basic), "silent": silent{basic}, "silent beneath": silent{NewBeneath(basic)}, "mute": mute{basic},
		"at another time": earlier{NewBeneath(basic)}} {
		of := Directory(files)
		info, err := of.Lstat("a")
		if err != nil {
			t.Errorf("%s: %v", why, err)
			continue
		}
		about := info.About()
		system, is := about.Sys().(*syscall.Stat_t)
		if !is || system.Ino != due.Sys().(*syscall.Stat_t).Ino || about.Name() != "a" || about.Size() != 4 || about.Mode() != due.Mode() || about.IsDir() || !about.ModTime().Equal(due.ModTime()) {
			t.Errorf("%s: %+v", why, about)
		}
		if isOther := !info.ModTime().Equal(due.ModTime()); isOther != (why == "at another time") || info.Permissions() != 0o640 || !info.IsRegular() {
			t.Errorf("%s: %v, %o", why, info.ModTime(), info.Permissions())
		}
		if _, err := of.Lstat("none"); !errors.Is(err, os.ErrNotExist) {
			t.Errorf("%s: %v", why, err)
		}
		text := make([]byte, 4)
		if file, err := of.OpenToRead("a"); err != nil {
			t.Errorf("%s: %v", why, err)
		} else if _, err := file.ReadAt(text, 0); err != nil || string(text) != "text" || file.Close() != nil {
			t.Errorf("%s: it reads %q, %v", why, text, err)
		}
		if _, err := of.OpenToRead("none"); !errors.Is(err, os.ErrNotExist) || err.Error() != "open "+filepath.Join(room, "none")+": no such file or directory" {
			t.Errorf("%s: %v", why, err)
		}
	}
	for _, files := range []fs.Filesystem{silent{basic}, silent{NewBeneath(basic)}} {
		if info, err := Directory(files).Lstat("gone"); info != nil || !errors.Is(err, os.ErrNotExist) {
			t.Errorf("what is gone meanwhile: %v, %v", info, err)
		}
	}
	out := Directory(NewBeneath(basic))
	if err := os.Symlink(t.TempDir(), filepath.Join(room, "out")); err != nil {
		t.Fatal(err)
	}
	if _, err := out.About("out/a"); err == nil || errors.Is(err, os.ErrNotExist) {
		t.Errorf("what is behind a symlink: %v", err)
	}
}

// growing are files of which each grows once it was looked at.
type growing struct{ fs.Filesystem }

func (g growing) Lstat(name string) (fs.FileInfo, error) {
	info, err := g.Filesystem.Lstat(name)
	if err == nil {
		err = os.Truncate(filepath.Join(g.URI(), name), info.Size()+1)
	}
	return info, err
}

// What the system said is of the same look as the rest, also where the index has another time: the system isn't asked again.
func TestTheSystemIsAskedOnce(t *testing.T) {
	room := t.TempDir()
	if err := os.WriteFile(filepath.Join(room, "a"), []byte("text"), 0o600); err != nil {
		t.Fatal(err)
	}
	basic := NewBeneath(fs.NewFilesystem(fs.FilesystemTypeBasic, room))
	for _, files := range []fs.Filesystem{growing{basic}, growing{earlier{basic}}} {
		info, err := Directory(files).Lstat("a")
		if err != nil || info.Size() != info.About().Size() {
			t.Errorf("%v, %v", info, err)
		}
	}
}

// A folder's directory that is taken away is told, also where it was open before.
func TestADirectoryThatIsTakenAway(t *testing.T) {
	room := filepath.Join(t.TempDir(), "room")
	if err := os.Mkdir(room, 0o700); err != nil {
		t.Fatal(err)
	}
	files := NewBeneath(fs.NewFilesystem(fs.FilesystemTypeBasic, room))
	if _, err := files.Lstat("."); err != nil {
		t.Fatal(err)
	}
	if err := os.Remove(room); err != nil {
		t.Fatal(err)
	}
	if _, err := files.Lstat("."); !errors.Is(err, os.ErrNotExist) {
		t.Error(err)
	}
}

// Times are kept by an index alone: without one there are none, whichever method opens the files. Where they should be, and can't be read, that is told.
func TestFilesWithoutAnIndex(t *testing.T) {
	room := t.TempDir()
	if err := os.WriteFile(filepath.Join(room, "a"), nil, 0o600); err != nil {
		t.Fatal(err)
	}
	index, err := db.NewLowlevel(backend.OpenMemory(), events.NoopLogger)
	if err != nil {
		t.Fatal(err)
	}
	set, err := db.NewFileSet("docs", index)
	if err != nil {
		t.Fatal(err)
	}
	basic := fs.NewFilesystem(fs.FilesystemTypeBasic, room)
	older := func() fs.Filesystem { return basic }
	newer := func(index *db.FileSet) fs.Filesystem { return silent{basic} }
	if files := Filesystem(older, nil); files != basic {
		t.Errorf("%T", files)
	}
	if files := Filesystem(newer, nil); files != fs.Filesystem(silent{basic}) {
		t.Errorf("%T", files)
	}
	if files, is := Filesystem(newer, set).(*timed); !is || files.Filesystem != fs.Filesystem(silent{basic}) || files.plain.Filesystem != fs.Filesystem(silent{basic}) {
		t.Errorf("%+v", files)
	}
	for why, files := range map[string]fs.Filesystem{"overlaid": Filesystem(newer, set), "not overlaid": &timed{basic, NewBeneath(basic)}} {
		if info, err := files.Lstat("a"); info != nil || err == nil {
			t.Errorf("%s: %v, %v", why, info, err)
		}
	}
}

// What an index has is given entry by entry, until one is enough, as entries or as interfaces.
func TestWhatAnIndexHas(t *testing.T) {
	entries := []protocol.FileInfo{{Name: "a"}, {Name: "b"}, {Name: "c"}}
	plain := func(of protocol.DeviceID, take func(protocol.FileInfo) bool) {
		for _, entry := range entries {
			if of != protocol.LocalDeviceID || !take(entry) {
				return
			}
		}
	}
	wrapped := func(of protocol.DeviceID, take func(interface{}) bool) {
		plain(of, func(entry protocol.FileInfo) bool { return take(entry) })
	}
	for most, due := range []string{"a", "a", "ab", "abc", "abc"} {
		names := [2]string{}
		add := func(to *string) func(protocol.FileInfo) bool {
			return func(entry protocol.FileInfo) bool {
				*to += entry.Name
				return len(*to) < most
			}
		}
		Have(plain, protocol.LocalDeviceID, add(&names[0]))
		Have(wrapped, protocol.LocalDeviceID, add(&names[1]))
		if names != [2]string{due, due} {
			t.Errorf("at most %d: %q", most, names)
		}
	}
}

// Numbers and texts are set, however long they are.
func TestNumbersAndTextsAreSet(t *testing.T) {
	number, short, text, bytes := 1, int32(1), "a", []byte("a")
	SetNumber(&number, 7)
	SetNumber(&short, 8)
	SetText(&text, "b")
	SetText(&bytes, "c")
	if number != 7 || short != 8 || text != "b" || string(bytes) != "c" {
		t.Error(number, short, text, string(bytes))
	}
}
