package device

import (
	"bytes"
	"errors"
	"fmt"
	"math"
	"os"
	"path/filepath"
	"strings"

	"github.com/syncthing/syncthing/lib/db/backend"
	"github.com/syndtr/goleveldb/leveldb"
	"github.com/syndtr/goleveldb/leveldb/opt"
	"syncthing-audit/regular"
)

// settle puts what stands in the log of an index's copy into tables, so that whoever opens the copy then reads no log. It says why the files don't
// belong together, as those of a home that was copied while Syncthing ran mostly don't. Syncthing's own package would mend such an index on opening it,
// or make an empty one in its place.
func settle(copied string) error {
	read, err := readManifest(copied)
	if err == nil {
		err = read.check(copied)
	}
	if err == nil {
		err = putLogIntoTables(copied)
	}
	if err != nil {
		return fmt.Errorf("its index isn't whole: %w. A home that was copied while Syncthing ran looks so, and one on which it "+
			"was killed: start Syncthing on the device itself, stop it, and copy the home again", err)
	}
	return nil
}

// check says which of the files that a manifest speaks of isn't there as it should be, and which table it doesn't know.
func (m *manifest) check(database string) error {
	names, err := os.ReadDir(database)
	if err != nil {
		return err
	}
	hasLog := false
	for _, entry := range names {
		number, kind := fileNumber(entry.Name())
		hasLog = hasLog || kind == ".log" && number == m.log
		if kind == ".ldb" && number >= m.nextFile {
			return fmt.Errorf("the table %s is newer than the manifest", entry.Name())
		}
	}
	if !hasLog {
		return fmt.Errorf("the log %06d.log is missing", m.log)
	}
	for number, size := range m.tables {
		info, err := tableInfo(database, number)
		if err != nil {
			return err
		}
		if info.Size() != size {
			return fmt.Errorf("the table %s has %d bytes in place of %d", info.Name(), info.Size(), size)
		}
	}
	return nil
}

// tableInfo looks at a table, which an old index has under another ending.
func tableInfo(database string, number int64) (os.FileInfo, error) {
	path := filepath.Join(database, fmt.Sprintf("%06d", number))
	info, err := os.Stat(path + ".ldb")
	if errors.Is(err, os.ErrNotExist) {
		if old, oldErr := os.Stat(path + ".sst"); oldErr == nil {
			return old, nil
		}
	}
	return info, err
}

// fileNumber gives a file's number and what is behind it; nothing where it has none.
func fileNumber(name string) (int64, string) {
	var number int64
	kind := filepath.Ext(name)
	if _, err := fmt.Sscanf(strings.TrimSuffix(name, kind), "%d", &number); err != nil {
		return 0, ""
	}
	return number, kind
}

// putLogIntoTables opens a copy and mends nothing, and so finds logs that end in the middle: LevelDB puts a whole one into as few tables as Syncthing would.
// It joins no tables, which would take long, and waits for no disk, since nobody needs the copy after a crash.
func putLogIntoTables(copied string) error {
	buffer := 16 << 20
	if tuningFor(copied) == backend.TuningLarge {
		buffer = 64 << 20
	}
	opened, err := leveldb.OpenFile(copied, &opt.Options{ErrorIfMissing: true, Strict: opt.StrictAll, NoSync: true, WriteBuffer: buffer,
		CompactionL0Trigger: math.MaxInt32, CompactionTotalSize: math.MaxInt32})
	if err != nil {
		return err
	}
	return opened.Close()
}

// openStrictly opens an index to be read, and mends nothing.
func openStrictly(database string) (*leveldb.DB, error) {
	return leveldb.OpenFile(database, &opt.Options{ErrorIfMissing: true, ReadOnly: true, Strict: opt.StrictAll})
}

// currentManifest gives the path of the manifest that counts.
func currentManifest(database string) (string, error) {
	text, _, err := regular.Read(filepath.Join(database, "CURRENT"), mostBytesOfCurrent)
	if err != nil {
		return "", err
	}
	name := string(bytes.TrimSuffix(text, []byte("\n")))
	if !strings.HasPrefix(name, "MANIFEST-") || strings.ContainsRune(name, '/') {
		return "", errors.New("CURRENT names no manifest")
	}
	return filepath.Join(database, name), nil
}
