package device

import (
	"bytes"
	"errors"
	"os"
	"path/filepath"
	"testing"

	"github.com/syndtr/goleveldb/leveldb/journal"
)

// aRecord gives a record as it stands in a log: 32 bytes, so that each block of a log has as many as it has room for.
func aRecord(t *testing.T) []byte {
	var written bytes.Buffer
	to := journal.NewWriter(&written)
	next, err := to.Next()
	if err == nil {
		_, err = next.Write(make([]byte, 25))
	}
	if err == nil {
		err = to.Close()
	}
	if err != nil || written.Len() != 32 {
		t.Fatal(err, written.Len())
	}
	return written.Bytes()
}

// A log behind which another one stands, and that grows after it was read, isn't copied as it was: the index is copied anew. The last one may grow.
func TestALogThatGrowsAfterItWasRead(t *testing.T) {
	record := aRecord(t)
	t.Cleanup(func() { hasRead = func(string) {} })
	for grows, isRefused := range map[string]bool{"": false, "000001.log": true, "000002.log": false} {
		from := t.TempDir()
		for _, log := range []string{"000001.log", "000002.log"} {
			if err := os.WriteFile(filepath.Join(from, log), record, 0o600); err != nil {
				t.Fatal(err)
			}
		}
		hasRead = func(path string) {
			if filepath.Base(path) == grows {
				if err := os.WriteFile(path, append(record, record...), 0o600); err != nil {
					t.Fatal(err)
				}
			}
		}
		logs, err := (&liveCopy{from: from}).logs(1)
		if isRefused != errors.Is(err, errAgain) || !isRefused && (err != nil || len(logs) != 2 || !bytes.Equal(logs[1], record) || !bytes.Equal(logs[2], record)) {
			t.Errorf("%q grows: %v, %d logs", grows, err, len(logs))
		}
	}
}

// Where other logs are there once all were read, a record may be missing between two of them: the index is copied anew. One more behind the last is none of those.
func TestLogsThatComeAndGoMeanwhile(t *testing.T) {
	record := aRecord(t)
	t.Cleanup(func() { hasRead = func(string) {} })
	for why, row := range map[string]struct {
		change    func(from string) error
		isRefused bool
	}{
		"as they were":         {func(string) error { return nil }, false},
		"one more":             {func(from string) error { return os.WriteFile(filepath.Join(from, "000003.log"), record, 0o600) }, false},
		"the last one is gone": {func(from string) error { return os.Remove(filepath.Join(from, "000002.log")) }, true},
		"another last one": {func(from string) error {
			return os.Rename(filepath.Join(from, "000002.log"), filepath.Join(from, "000003.log"))
		}, true},
		"the first one is gone": {func(from string) error { return os.Remove(filepath.Join(from, "000001.log")) }, true},
	} {
		from := t.TempDir()
		for _, log := range []string{"000001.log", "000002.log"} {
			if err := os.WriteFile(filepath.Join(from, log), record, 0o600); err != nil {
				t.Fatal(err)
			}
		}
		hasRead = func(path string) {
			if filepath.Base(path) == "000002.log" {
				if err := row.change(from); err != nil {
					t.Fatal(err)
				}
			}
		}
		if logs, err := (&liveCopy{from: from}).logs(1); isAgain(err) != row.isRefused || !row.isRefused && len(logs) != 2 {
			t.Errorf("%s: %v, %d logs", why, err, len(logs))
		}
	}
}

func isAgain(err error) bool { return errors.Is(err, errAgain) }
