package adapt

import (
	"os"
	"path/filepath"
	"testing"
	"time"

	"github.com/syncthing/syncthing/lib/config"
	"github.com/syncthing/syncthing/lib/db"
	"github.com/syncthing/syncthing/lib/db/backend"
	"github.com/syncthing/syncthing/lib/events"
	"github.com/syncthing/syncthing/lib/fs"
)

// Where a disk can't keep a file's time, Syncthing keeps it in its index. It is found there also by a program that runs in another time
// zone, and not once the file has another time.
func TestTimesOfTheIndexInAnotherTimeZone(t *testing.T) {
	defer func(zone *time.Location) { time.Local = zone }(time.Local)
	directory := t.TempDir()
	path := filepath.Join(directory, "a")
	if err := os.WriteFile(path, nil, 0o600); err != nil {
		t.Fatal(err)
	}
	index, err := db.NewLowlevel(backend.OpenMemory(), events.NoopLogger)
	if err != nil {
		t.Fatal(err)
	}
	set, err := db.NewFileSet("docs", index)
	if err != nil {
		t.Fatal(err)
	}
	onDisk, due := time.Unix(1600000000, 0), time.Unix(1600000001, 5)
	folder := config.FolderConfiguration{ID: "docs", Path: directory}
	for _, zone := range []int{3600, 7200} {
		time.Local = time.FixedZone("", zone)
		files := Filesystem(folder.Filesystem, set)
		if zone == 3600 {
			keep(t, index, "a", fs.MtimeMapping{Real: onDisk.In(time.Local), Virtual: due.In(time.Local)})
		}
		for at, seen := range map[time.Time]time.Time{onDisk: due, onDisk.Add(time.Second): onDisk.Add(time.Second)} {
			if err := os.Chtimes(path, at, at); err != nil {
				t.Fatal(err)
			}
			if info, err := files.Lstat("a"); err != nil || !info.ModTime().Equal(seen) {
				t.Errorf("zone %d, %v on the disk: %v, %v", zone, at, info, err)
			}
		}
	}
	if _, err := Filesystem(folder.Filesystem, set).Lstat("b"); !fs.IsNotExist(err) {
		t.Errorf("%v", err)
	}
}

// bytesOfFolder is how long the number of a folder is in keys; the key that has its id has room for more.
const bytesOfFolder = 4

// keep has the index of one folder keep a file's times, as Syncthing does where the disk has another one than is due.
func keep(t *testing.T, index *db.Lowlevel, name string, times fs.MtimeMapping) {
	text, err := times.Marshal()
	if err != nil {
		t.Fatal(err)
	}
	folders, err := index.NewPrefixIterator([]byte{db.KeyTypeFolderIdx})
	if err != nil {
		t.Fatal(err)
	}
	defer folders.Release()
	for folders.Next() {
		key := append([]byte{db.KeyTypeVirtualMtime}, folders.Key()[1:1+bytesOfFolder]...)
		if err := index.Put(append(key, name...), text); err != nil {
			t.Fatal(err)
		}
	}
}
