package disk

import (
	"os"
	"path/filepath"
	"strings"
	"testing"
	"time"

	"github.com/syncthing/syncthing/lib/config"
	"github.com/syncthing/syncthing/lib/db"
	"github.com/syncthing/syncthing/lib/db/backend"
	"github.com/syncthing/syncthing/lib/events"
	"github.com/syncthing/syncthing/lib/fs"
	"syncthing-audit/adapt"
	"syncthing-audit/directory"
)

// swapping makes a folder with the directory d, and swaps that for a symlink to a directory outside, over and over.
func swapping(t *testing.T) (room string, stop func()) {
	room, outside := t.TempDir(), t.TempDir()
	for path, text := range map[string]string{filepath.Join(room, "d", "below", "inside"): "inside", filepath.Join(outside, "secret"): "secret",
		filepath.Join(outside, "below", "secret"): "secret", filepath.Join(outside, "below", "inside"): "longer than inside"} {
		if err := os.MkdirAll(filepath.Dir(path), 0o755); err != nil {
			t.Fatal(err)
		}
		if err := os.WriteFile(path, []byte(text), 0o600); err != nil {
			t.Fatal(err)
		}
	}
	if err := os.Symlink(outside, filepath.Join(room, "link")); err != nil {
		t.Fatal(err)
	}
	at, aside, link := filepath.Join(room, "d"), filepath.Join(room, "aside"), filepath.Join(room, "link")
	ended, done := make(chan struct{}), make(chan struct{})
	go func() {
		defer close(done)
		for {
			select {
			case <-ended:
				return
			default:
			}
			os.Rename(at, aside)
			os.Rename(link, at)
			os.Rename(at, link)
			os.Rename(aside, at)
		}
	}()
	return room, func() { close(ended); <-done }
}

// filesOf gives a folder's files as a home's index does.
func filesOf(t *testing.T, room string) fs.Filesystem {
	index, err := db.NewLowlevel(backend.OpenMemory(), events.NoopLogger)
	if err != nil {
		t.Fatal(err)
	}
	set, err := db.NewFileSet("docs", index)
	if err != nil {
		t.Fatal(err)
	}
	folder := config.FolderConfiguration{ID: "docs", Path: room}
	return adapt.Filesystem(folder.Filesystem, set)
}

// A directory that is swapped for a symlink while it is walked leads nowhere else: no name, size or stamp of another directory is told. So it is where a
// home is read, and where disks alone are walked.
func TestADirectoryThatIsSwappedForASymlink(t *testing.T) {
	room, stop := swapping(t)
	defer stop()
	plain, err := directory.Open(room)
	if err != nil {
		t.Fatal(err)
	}
	for _, files := range []directory.Directory{adapt.Directory(filesOf(t, room)), plain} {
		walkSwapped(t, files)
	}
}

// walkSwapped walks such a folder over and over.
func walkSwapped(t *testing.T, files directory.Directory) {
	seen := 0
	for end := time.Now().Add(2 * time.Second); time.Now().Before(end); {
		walker := &Walker{Disk: files, Folder: "docs", Stamps: true, Take: func(one Found) error {
			if strings.HasSuffix(one.Name, "below/inside") && one.Node != nil {
				seen++
			}
			isOutside := one.Node != nil && one.Node.Size > int64(len("inside")) || strings.Contains(one.Stamp.String(), " 18")
			if strings.Contains(one.Name, "secret") || isOutside && strings.HasSuffix(one.Name, "inside") {
				t.Fatalf("what is outside is told: %+v", one)
			}
			return nil
		}}
		if err := walker.Walk(); err != nil {
			t.Fatal(err)
		}
	}
	if seen == 0 {
		t.Error("the directory was never walked")
	}
}
