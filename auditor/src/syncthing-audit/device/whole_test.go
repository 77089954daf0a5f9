package device

import (
	"fmt"
	"os"
	"path/filepath"
	"testing"
	"time"

	"github.com/syndtr/goleveldb/leveldb"
	"github.com/syndtr/goleveldb/leveldb/util"
)

// fill makes an index with a table and a log.
func fill(t *testing.T, directory string) {
	opened, err := leveldb.OpenFile(directory, nil)
	if err != nil {
		t.Fatal(err)
	}
	defer opened.Close()
	put := func(from, to int) {
		for next := from; next < to; next++ {
			if err := opened.Put([]byte(fmt.Sprint(next)), make([]byte, 100), nil); err != nil {
				t.Fatal(err)
			}
		}
	}
	put(0, 100)
	if err := opened.CompactRange(util.Range{}); err != nil {
		t.Fatal(err)
	}
	for try := 0; try < 500 && len(tablesIn(directory)) > 1; try++ { // LevelDB removes tables that it has replaced some time later
		time.Sleep(20 * time.Millisecond)
	}
	put(100, 200)
}

func tablesIn(directory string) []string {
	paths, _ := filepath.Glob(filepath.Join(directory, "*.ldb"))
	return paths
}

// theOne gives the one file of a kind.
func theOne(t *testing.T, directory, kind string) string {
	paths, _ := filepath.Glob(filepath.Join(directory, kind))
	if len(paths) != 1 {
		t.Fatalf("%d files %s", len(paths), kind)
	}
	return paths[0]
}

// cut takes bytes off a file's end.
func cut(t *testing.T, path string, bytes int64) {
	info, err := os.Stat(path)
	if err == nil {
		err = os.Truncate(path, info.Size()-bytes)
	}
	if err != nil {
		t.Fatal(err)
	}
}

// What stands in a log is in a table once a copy is settled: who opens the copy then reads no log, and has all of it.
func TestASettledCopyHasNothingInItsLog(t *testing.T) {
	directory := t.TempDir()
	fill(t, directory)
	before := len(tablesIn(directory))
	if err := settle(directory); err != nil {
		t.Fatal(err)
	}
	about, err := os.Stat(theOne(t, directory, "*.log"))
	if err != nil || about.Size() != 0 || len(tablesIn(directory)) != before+1 || keysOf(t, directory) != 200 {
		t.Errorf("%v: the log has %d bytes, there are %d tables, and %d keys", err, about.Size(), len(tablesIn(directory)), keysOf(t, directory))
	}
}

func TestWholeIndexes(t *testing.T) {
	cases := []struct {
		why    string
		change func(directory string) error
		whole  bool
	}{
		{"as it was closed", func(string) error { return nil }, true},
		{"a log that ends in the middle", func(d string) error { cut(t, theOne(t, d, "*.log"), 30); return nil }, false},
		{"a manifest that ends in the middle", func(d string) error { cut(t, theOne(t, d, "MANIFEST-*"), 1); return nil }, false},
		{"a table that is missing", func(d string) error { return os.Remove(theOne(t, d, "*.ldb")) }, false},
		{"a table that ends in the middle", func(d string) error { cut(t, theOne(t, d, "*.ldb"), 30); return nil }, false},
		{"a log that is missing", func(d string) error { return os.Remove(theOne(t, d, "*.log")) }, false},
		{"an open table", func(d string) error { return os.WriteFile(filepath.Join(d, "000900.ldb"), nil, 0o600) }, false},
		{"no manifest", func(d string) error { return os.Remove(filepath.Join(d, "CURRENT")) }, false},
	}
	for _, one := range cases {
		directory := t.TempDir()
		fill(t, directory)
		if err := one.change(directory); err != nil {
			t.Fatal(err)
		}
		if err := settle(directory); (err == nil) != one.whole {
			t.Errorf("%s: %v", one.why, err)
		}
	}
}
