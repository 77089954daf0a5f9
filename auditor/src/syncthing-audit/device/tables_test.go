package device

import (
	"errors"
	"fmt"
	"os"
	"path/filepath"
	"strings"
	"testing"
	"time"

	"github.com/syncthing/syncthing/lib/db"
	"github.com/syndtr/goleveldb/leveldb"
)

// A copy is made anew as often as it is to be, and ends with whatever else is wrong.
func TestHowOftenACopyIsBegun(t *testing.T) {
	from := t.TempDir()
	fill(t, from)
	for rounds := 1; rounds < 5; rounds++ {
		left := rounds
		said, err := copyLive(from, t.TempDir(), func(string) error {
			if left--; left > 0 {
				return errAgain
			}
			return nil
		})
		if err != nil || said.Rounds != rounds {
			t.Errorf("%d rounds, not %d: %v", said.Rounds, rounds, err)
		}
	}
	failed := errors.New("no room")
	if said, err := copyLive(from, t.TempDir(), func(string) error { return failed }); err != failed || said.Rounds != 1 {
		t.Errorf("%d rounds: %v", said.Rounds, err)
	}
	if said, err := copyLive(from, filepath.Join(from, "nowhere"), checkLive); err == nil || said.Rounds != 1 {
		t.Errorf("%d rounds to nowhere: %v", said.Rounds, err)
	}
}

// Each pause is twice as long as the one before, up to the longest.
func TestPausesOfACopy(t *testing.T) {
	pause, sum := firstPause, time.Duration(0)
	for round := 1; round < mostRounds; round++ {
		if due := time.Duration(1<<min64(round-1, 20)) * time.Millisecond; pause != due && (pause != mostPause || due < mostPause) {
			t.Errorf("%v behind round %d", pause, round)
		}
		sum, pause = sum+pause, longer(pause)
	}
	if sum < 30*time.Second || sum > time.Minute {
		t.Errorf("%v in all", sum)
	}
}

func min64(one, other int) int {
	if one < other {
		return one
	}
	return other
}

// An old index has its tables under another ending: it is whole all the same, and a copy has them once.
func TestTablesUnderTheirOldEnding(t *testing.T) {
	from := t.TempDir()
	fill(t, from)
	table := theOne(t, from, "*.ldb")
	old := strings.TrimSuffix(table, ".ldb") + ".sst"
	if err := os.Rename(table, old); err != nil {
		t.Fatal(err)
	}
	copying := &liveCopy{from: from, to: t.TempDir(), tables: map[int64]bool{}}
	if err := copying.round(); err != nil || keysOf(t, copying.to) != 200 {
		t.Fatal(err)
	}
	first := copying.copied.Bytes
	about, err := os.Stat(old)
	if err == nil {
		err = copying.round()
	}
	if err != nil || copying.copied.Bytes != 2*first-about.Size() || keysOf(t, copying.to) != 200 {
		t.Errorf("%d and then %d bytes: %v", first, copying.copied.Bytes, err)
	}
	if err := settle(copying.to); err != nil || keysOf(t, copying.to) != 200 {
		t.Errorf("a copy that is settled: %v, %d keys", err, keysOf(t, copying.to))
	}
}

// A table that is as new as what the manifest comes to next isn't known to it; one that is older may be there without a word.
func TestTablesBesideAManifest(t *testing.T) {
	for more, isWhole := range map[int64]bool{-1: true, 0: false} {
		directory := t.TempDir()
		fill(t, directory)
		said, err := readManifest(directory)
		if err != nil {
			t.Fatal(err)
		}
		said.nextFile += 10 // no file of LevelDB's own has such a number
		if err := os.WriteFile(filepath.Join(directory, fmt.Sprintf("%06d.ldb", said.nextFile+more)), nil, 0o600); err != nil {
			t.Fatal(err)
		}
		if err := said.check(directory); (err == nil) != isWhole || err != nil && !strings.HasSuffix(err.Error(), "is newer than the manifest") {
			t.Errorf("%d: %v", more, err)
		}
		said.log++
		if err := said.check(directory); err == nil {
			t.Error("a log that isn't there is had")
		}
	}
}

// What names no manifest is told; the name's line may have an end or none.
func TestWhichManifestCounts(t *testing.T) {
	for text, name := range map[string]string{"MANIFEST-000001\n": "MANIFEST-000001", "MANIFEST-000001": "MANIFEST-000001", "": "", "x\n": "", "MANIFEST-/../x\n": "", "/MANIFEST-1": ""} {
		directory := t.TempDir()
		if err := os.WriteFile(filepath.Join(directory, "CURRENT"), []byte(text), 0o600); err != nil {
			t.Fatal(err)
		}
		path, err := currentManifest(directory)
		if (err == nil) != (name != "") || err == nil && path != filepath.Join(directory, name) || err != nil && err.Error() != "CURRENT names no manifest" {
			t.Errorf("%q: %s, %v", text, path, err)
		}
	}
	for name, number := range map[string]int64{"000012.ldb": 12, "MANIFEST-000012": 0, "LOCK": 0, "12.x.log": 12, ".ldb": 0} {
		if is, _ := fileNumber(name); is != number {
			t.Errorf("%s has the number %d", name, is)
		}
	}
}

// A folder that is deleted has an empty id, and what an index still has of it doesn't count.
func TestSequencesOfADeletedFolder(t *testing.T) {
	for id, isTold := range map[string]bool{"": false, "docs": true} {
		database := t.TempDir()
		opened, err := leveldb.OpenFile(database, nil)
		if err != nil {
			t.Fatal(err)
		}
		number := []byte{0, 0, 0, 5}
		for key, value := range map[string]string{string(append([]byte{db.KeyTypeFolderIdx}, number...)): id, string(sequencesBehind(number, 2).Start): "x"} {
			if err := opened.Put([]byte(key), []byte(value), nil); err != nil {
				t.Fatal(err)
			}
		}
		if err := checkSequences(opened); (err != nil) != isTold || err != nil && (!errors.Is(err, errAgain) || !strings.HasSuffix(err.Error(), "folder docs has entries behind its greatest sequence")) {
			t.Errorf("%q: %v", id, err)
		}
		opened.Close()
	}
}

// Own entries are behind a folder's greatest sequence from the next one on, and those of another folder aren't.
func TestWhichSequencesAreBehind(t *testing.T) {
	behind := sequencesBehind([]byte{0, 0, 0, 5}, 254)
	for key, is := range map[string]bool{"\x00\x00\x00\x05\x00\x00\x00\x00\x00\x00\x00\xfe": false, "\x00\x00\x00\x05\x00\x00\x00\x00\x00\x00\x00\xff": true,
		"\x00\x00\x00\x05\x00\x00\x00\x00\x00\x00\x01\x00": true, "\x00\x00\x00\x06\x00\x00\x00\x00\x00\x00\x00\xff": false} {
		whole := string([]byte{db.KeyTypeSequence}) + key
		if (whole >= string(behind.Start) && whole < string(behind.Limit)) != is {
			t.Errorf("% x: not %v", whole, is)
		}
	}
}

// A copy is taken where it is whole, opens, and has no entry behind a folder's greatest sequence; where it isn't, one is told apart that another round may mend.
func TestWhichCopyIsTaken(t *testing.T) {
	for why, row := range map[string]struct {
		change  func(directory string) error
		isTaken bool
		again   bool
	}{
		"whole":                   {func(string) error { return nil }, true, false},
		"a log that is cut":       {func(d string) error { cut(t, theOne(t, d, "*.log"), 30); return nil }, false, true},
		"no table":                {func(d string) error { return os.Remove(theOne(t, d, "*.ldb")) }, false, false},
		"a table of other bytes":  {func(d string) error { cut(t, theOne(t, d, "*.ldb"), 30); return nil }, false, false},
		"no manifest":             {func(d string) error { return os.Remove(theOne(t, d, "MANIFEST-*")) }, false, false},
		"no name of the manifest": {func(d string) error { return os.Remove(filepath.Join(d, "CURRENT")) }, false, false},
		"an entry behind the greatest sequence": {func(d string) error {
			opened, err := leveldb.OpenFile(d, nil)
			if err == nil {
				err = opened.Put(append([]byte{db.KeyTypeFolderIdx}, 0, 0, 0, 5), []byte("docs"), nil)
			}
			if err == nil {
				err = opened.Put(sequencesBehind([]byte{0, 0, 0, 5}, 0).Start, nil, nil)
			}
			if err == nil {
				err = opened.Close()
			}
			return err
		}, false, true},
	} {
		directory := t.TempDir()
		fill(t, directory)
		if err := row.change(directory); err != nil {
			t.Fatal(why, err)
		}
		if err := checkLive(directory); (err == nil) != row.isTaken || errors.Is(err, errAgain) != row.again {
			t.Errorf("%s: %v", why, err)
		}
	}
}
