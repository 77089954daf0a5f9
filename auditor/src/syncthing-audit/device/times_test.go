package device

import (
	"os"
	"path/filepath"
	"testing"
	"time"

	"github.com/syncthing/syncthing/lib/config"
	"github.com/syncthing/syncthing/lib/db"
	"github.com/syncthing/syncthing/lib/db/backend"
	"github.com/syncthing/syncthing/lib/events"
	"github.com/syncthing/syncthing/lib/fs"
	"github.com/syndtr/goleveldb/leveldb"
	"github.com/syndtr/goleveldb/leveldb/opt"
	"github.com/syndtr/goleveldb/leveldb/util"
)

// Whether an index has times that disks can't keep is found as it is opened, and files are told with them then.
func TestTimesThatADiskCannotKeep(t *testing.T) {
	room, index := t.TempDir(), backend.OpenMemory()
	path, onDisk, due := filepath.Join(room, "a"), time.Unix(1600000000, 0), time.Unix(1600000001, 5)
	if err := os.WriteFile(path, nil, 0o600); err != nil {
		t.Fatal(err)
	}
	if err := os.Chtimes(path, onDisk, onDisk); err != nil {
		t.Fatal(err)
	}
	opened, err := db.NewLowlevel(index, events.NoopLogger)
	if err != nil {
		t.Fatal(err)
	}
	files, err := db.NewFileSet("docs", opened)
	if err != nil {
		t.Fatal(err)
	}
	seen := func() time.Time {
		has, err := hasTimes(index)
		if err != nil {
			t.Fatal(err)
		}
		of := &Index{Config: config.FolderConfiguration{ID: "docs", Path: room}, home: &Home{times: has}, files: files}
		info, err := of.Disk().Lstat("a")
		if err != nil {
			t.Fatal(err)
		}
		return info.ModTime()
	}
	for _, kind := range []byte{db.KeyTypeVirtualMtime - 1, db.KeyTypeVirtualMtime + 1} {
		if err := index.Put([]byte{kind, 0}, nil); err != nil {
			t.Fatal(err)
		}
	}
	if at := seen(); !at.Equal(onDisk) {
		t.Errorf("without times in the index: %v", at)
	}
	times := fs.MtimeMapping{Real: onDisk, Virtual: due}
	text, err := times.Marshal()
	if err != nil {
		t.Fatal(err)
	}
	for folder := byte(0); folder < 3; folder++ { // one of them is this folder's number
		if err := index.Put([]byte{db.KeyTypeVirtualMtime, 0, 0, 0, folder, 'a'}, text); err != nil {
			t.Fatal(err)
		}
	}
	if at := seen(); !at.Equal(due) {
		t.Errorf("with times in the index: %v", at)
	}
}

// Wherever a byte of an index's table is another one, the index isn't taken for one without times that disks can't keep.
func TestTimesOfADamagedIndex(t *testing.T) {
	whole := indexWith(t, func(*db.Lowlevel) {})
	written, err := leveldb.OpenFile(whole, &opt.Options{Compression: opt.NoCompression})
	for number := byte(0); err == nil && number < 100; number++ {
		err = written.Put([]byte{db.KeyTypeVirtualMtime, 0, 0, 0, 1, number}, make([]byte, 100), nil)
	}
	if err == nil {
		err = written.CompactRange(util.Range{})
	}
	if err == nil {
		err = written.Close()
	}
	if err != nil {
		t.Fatal(err)
	}
	refused := 0
	for _, table := range tablesIn(whole) {
		text, err := os.ReadFile(table)
		if err != nil {
			t.Fatal(err)
		}
		for at := 0; at < len(text); at += len(text)/30 + 1 {
			damaged := t.TempDir()
			if err := copyFiles(whole, damaged); err != nil {
				t.Fatal(err)
			}
			changed := append([]byte(nil), text...)
			changed[at] ^= 4
			if err := os.WriteFile(filepath.Join(damaged, filepath.Base(table)), changed, 0o600); err != nil {
				t.Fatal(err)
			}
			home := &Home{Dir: "laptop", copied: damaged}
			err := home.openCopy()
			if home.backend != nil {
				home.backend.Close()
			}
			if err == nil && !home.times {
				t.Errorf("with another byte at %d of %d it has no times", at, len(text))
			}
			if err != nil {
				refused++
			}
		}
	}
	if refused == 0 {
		t.Error("no damage is seen")
	}
}
