package device

import (
	"errors"
	"fmt"
	"os"
	"path/filepath"
	"testing"

	"github.com/syndtr/goleveldb/leveldb"
	"github.com/syndtr/goleveldb/leveldb/opt"
	"github.com/syndtr/goleveldb/leveldb/storage"
)

// withoutTables is a storage that makes no table before it may, so that logs lie behind each other.
type withoutTables struct {
	storage.Storage
	may chan struct{}
}

func (w *withoutTables) Create(one storage.FileDesc) (storage.Writer, error) {
	if one.Type == storage.TypeTable {
		<-w.may
	}
	return w.Storage.Create(one)
}

const (
	keysOfLog   = 50
	bytesOfKey  = 1000
	keysWritten = keysOfLog + keysOfLog/2
)

// openWithTwoLogs makes an index whose keys are in two logs, and gives what closes it.
func openWithTwoLogs(t *testing.T, database string) func() {
	files, err := storage.OpenFile(database, false)
	if err != nil {
		t.Fatal(err)
	}
	held := &withoutTables{files, make(chan struct{})}
	opened, err := leveldb.Open(held, &opt.Options{WriteBuffer: keysOfLog * bytesOfKey})
	if err != nil {
		t.Fatal(err)
	}
	for key := 0; key < keysWritten; key++ {
		if err := opened.Put([]byte(fmt.Sprint(key)), make([]byte, bytesOfKey), nil); err != nil {
			t.Fatal(err)
		}
	}
	if logs, _ := filepath.Glob(filepath.Join(database, "*.log")); len(logs) != 2 {
		t.Fatalf("the logs are %v", logs)
	}
	return func() {
		close(held.may)
		opened.Close()
		files.Close()
	}
}

// keysOf counts the keys of an index.
func keysOf(t *testing.T, database string) int {
	opened, err := openStrictly(database)
	if err != nil {
		t.Fatal(err)
	}
	defer opened.Close()
	all := opened.NewIterator(nil, nil)
	defer all.Release()
	count := 0
	for all.Next() {
		count++
	}
	return count
}

// Where a table is still being made of a log, a copy has that log and the one behind it.
func TestCopyOfTwoLogs(t *testing.T) {
	from, to := t.TempDir(), t.TempDir()
	defer openWithTwoLogs(t, from)()
	said, err := copyLive(from, to, checkLive)
	if err != nil || said.Rounds != 1 {
		t.Fatalf("%d rounds: %v", said.Rounds, err)
	}
	if keys := keysOf(t, to); keys != keysWritten {
		t.Errorf("%d keys", keys)
	}
}

// What is copied while LevelDB goes on is begun again where a file is gone or isn't whole, and refused where the bytes are
// others than those that LevelDB names.
func TestRoundsOfACopy(t *testing.T) {
	appended := func(path, text string) error {
		file, err := os.OpenFile(path, os.O_APPEND|os.O_WRONLY, 0)
		if err == nil {
			_, err = file.WriteString(text)
		}
		return err
	}
	cases := []struct {
		why    string
		change func(directory string) error
		again  bool
	}{
		{"a table that is gone", func(d string) error { return os.Remove(theOne(t, d, "*.ldb")) }, true},
		{"a log that is gone", func(d string) error { return os.Remove(theOne(t, d, "*.log")) }, true},
		{"a manifest that is gone", func(d string) error { return os.Remove(theOne(t, d, "MANIFEST-*")) }, true},
		{"a log that ends in the middle", func(d string) error { cut(t, theOne(t, d, "*.log"), 30); return nil }, true},
		{"a manifest that ends in the middle", func(d string) error { cut(t, theOne(t, d, "MANIFEST-*"), 1); return nil }, true},
		{"a log with something else at its end", func(d string) error { return appended(theOne(t, d, "*.log"), "something else") }, true},
		{"a table of another length", func(d string) error { cut(t, theOne(t, d, "*.ldb"), 30); return nil }, false},
		{"a manifest's name that is none", func(d string) error { return os.WriteFile(filepath.Join(d, "CURRENT"), []byte("../x"), 0o600) }, false},
	}
	for _, one := range cases {
		from := t.TempDir()
		fill(t, from)
		whole := &liveCopy{from: from, to: t.TempDir(), tables: map[int64]bool{}}
		if err := whole.round(); err != nil || keysOf(t, whole.to) != 200 {
			t.Fatalf("%s: %v", one.why, err)
		}
		if err := one.change(from); err != nil {
			t.Fatal(err)
		}
		next := &liveCopy{from: from, to: t.TempDir(), tables: map[int64]bool{}}
		if err := next.round(); err == nil || errors.Is(err, errAgain) != one.again {
			t.Errorf("%s: %v", one.why, err)
		}
	}
}

// A table that was copied isn't copied again, and one that isn't named any more is taken away.
func TestTablesOfLaterRounds(t *testing.T) {
	from := t.TempDir()
	fill(t, from)
	copying := &liveCopy{from: from, to: t.TempDir(), tables: map[int64]bool{}}
	if err := copying.round(); err != nil {
		t.Fatal(err)
	}
	stray := filepath.Join(copying.to, "000900.ldb")
	if err := os.WriteFile(stray, nil, 0o600); err != nil {
		t.Fatal(err)
	}
	first, table := copying.copied.Bytes, theOne(t, from, "*.ldb")
	about, err := os.Stat(table)
	if err == nil {
		err = os.Remove(table)
	}
	if err == nil {
		err = copying.round()
	}
	if err != nil || copying.copied.Bytes != 2*first-about.Size() || keysOf(t, copying.to) != 200 {
		t.Errorf("%d and then %d bytes: %v", first, copying.copied.Bytes, err)
	}
	if _, err := os.Stat(stray); !errors.Is(err, os.ErrNotExist) {
		t.Errorf("a table that isn't named stays: %v", err)
	}
}
