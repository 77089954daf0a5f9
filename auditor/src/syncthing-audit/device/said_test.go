package device

import (
	"bufio"
	"bytes"
	"encoding/binary"
	"fmt"
	"math/rand"
	"os"
	"path/filepath"
	"reflect"
	"strings"
	"testing"

	"github.com/syncthing/syncthing/lib/protocol"
	"github.com/syndtr/goleveldb/leveldb"
	"github.com/syndtr/goleveldb/leveldb/opt"
	"github.com/syndtr/goleveldb/leveldb/util"
	"google.golang.org/protobuf/encoding/protowire"
	"syncthing-audit/fixture"
)

// What a manifest says is what LevelDB itself says, whatever was written, taken away and compacted: each table with its bytes, and a log that is there.
func TestAManifestSaysWhatLevelDBSays(t *testing.T) {
	random, database, most := rand.New(rand.NewSource(1)), t.TempDir(), 0
	for turn := 0; turn < 12; turn++ {
		opened, err := leveldb.OpenFile(database, &opt.Options{WriteBuffer: 4000, CompactionTableSize: 4000})
		for key := 0; err == nil && key < 60; key++ {
			err = opened.Put([]byte(fmt.Sprint(random.Intn(200))), make([]byte, 100+random.Intn(100)), nil)
		}
		if err == nil && turn%3 == 2 {
			err = opened.CompactRange(util.Range{})
		}
		if err == nil {
			err = opened.Close()
		}
		if err != nil {
			t.Fatal(err)
		}
		said, err := readManifest(database)
		if err != nil {
			t.Fatal(err)
		}
		tables := tablesOf(t, database)
		if _, err := os.Stat(filepath.Join(database, fmt.Sprintf("%06d.log", said.log))); err != nil || !reflect.DeepEqual(said.tables, tables) || said.nextFile <= said.log {
			t.Errorf("turn %d: %+v, and there are %v, %v", turn, said, tables, err)
		}
		for number, size := range tables {
			about, err := tableInfo(database, number)
			if err != nil || about.Size() != size || number >= said.nextFile {
				t.Errorf("turn %d: table %d has %v bytes, and not %d: %v", turn, number, about, size, err)
			}
		}
		if len(tables) > most {
			most = len(tables)
		}
	}
	if most < 3 {
		t.Errorf("never more than %d tables", most)
	}
}

// tablesOf gives the bytes of each table, by its number, as LevelDB tells them.
func tablesOf(t *testing.T, database string) map[int64]int64 {
	opened, err := openStrictly(database)
	if err != nil {
		t.Fatal(err)
	}
	defer opened.Close()
	told, err := opened.GetProperty("leveldb.sstables")
	if err != nil {
		t.Fatal(err)
	}
	made := map[int64]int64{}
	for _, line := range strings.Split(told, "\n") {
		var number, size int64
		if _, err := fmt.Sscanf(line, "%d:%d[", &number, &size); err == nil {
			made[number] = size
		}
	}
	return made
}

// Each field of a manifest's entry is passed over or taken as what it is, and an entry that ends within one is none.
func TestEachFieldOfAManifest(t *testing.T) {
	numbers := func(all ...uint64) (made []byte) {
		for _, one := range all {
			made = binary.AppendUvarint(made, one)
		}
		return made
	}
	text := func(before []byte) []byte { return append(append(before, 3), "abc"...) }
	for _, row := range []struct {
		entry []byte
		is    manifest
	}{
		{text(numbers(1)), manifest{log: 1, nextFile: 2, tables: map[int64]int64{8: 80}}},
		{numbers(2, 300), manifest{log: 300, nextFile: 2, tables: map[int64]int64{8: 80}}},
		{numbers(3, 300), manifest{log: 1, nextFile: 300, tables: map[int64]int64{8: 80}}},
		{numbers(4, 300), manifest{log: 1, nextFile: 2, tables: map[int64]int64{8: 80}}},
		{text(numbers(5, 1)), manifest{log: 1, nextFile: 2, tables: map[int64]int64{8: 80}}},
		{numbers(6, 1, 8), manifest{log: 1, nextFile: 2, tables: map[int64]int64{}}},
		{text(text(numbers(7, 1, 9, 90))), manifest{log: 1, nextFile: 2, tables: map[int64]int64{8: 80, 9: 90}}},
		{numbers(9, 300), manifest{log: 1, nextFile: 2, tables: map[int64]int64{8: 80}}},
	} {
		read := func(entry []byte) (manifest, error) {
			made := manifest{log: 1, nextFile: 2, tables: map[int64]int64{8: 80}}
			err := made.read(bufio.NewReader(bytes.NewReader(entry)))
			return made, err
		}
		if is, err := read(row.entry); err != nil || !reflect.DeepEqual(is, row.is) {
			t.Errorf("% x: %+v, %v", row.entry, is, err)
		}
		for end := 1; end < len(row.entry); end++ {
			if _, err := read(row.entry[:end]); err == nil {
				t.Errorf("% x: %d bytes are read as an entry", row.entry, end)
			}
		}
	}
	for _, unknown := range []uint64{0, 8, 10} {
		if err := (&manifest{}).read(bufio.NewReader(bytes.NewReader(numbers(unknown, 1)))); err == nil || err.Error() != fmt.Sprintf("it has a field %d", unknown) {
			t.Errorf("field %d: %v", unknown, err)
		}
	}
}

// The greatest sequence in a folder's counts is that of the device itself without flags, wherever that stands, and 0 without it. What is no message is told.
func TestTheGreatestSequenceInCounts(t *testing.T) {
	counts := func(of string, flags, sequence uint64) []byte {
		made := protowire.AppendVarint(protowire.AppendTag(nil, 1, protowire.VarintType), 99) // of a field that isn't read
		made = protowire.AppendVarint(protowire.AppendTag(made, fieldOfSequence, protowire.VarintType), sequence)
		made = protowire.AppendString(protowire.AppendTag(made, fieldOfDevice, protowire.BytesType), of)
		return protowire.AppendVarint(protowire.AppendTag(made, fieldOfLocalFlags, protowire.VarintType), flags)
	}
	set := func(field protowire.Number, all ...[]byte) (made []byte) {
		for _, one := range all {
			made = protowire.AppendBytes(protowire.AppendTag(made, field, protowire.BytesType), one)
		}
		return made
	}
	own := string(protocol.LocalDeviceID[:])
	other, flagged, right := counts("x", 0, 7), counts(own, 2, 8), counts(own, 0, 9)
	for _, row := range []struct {
		text     []byte
		sequence int64
	}{
		{nil, 0}, {set(1, other, flagged), 0}, {set(1, other, flagged, right), 9}, {set(1, right, other), 9}, {set(1, right, flagged), 9},
		{set(1, right, counts(own, 0, 5)), 9}, {set(2, right), 0}, {append(set(2, counts(own, 0, 5)), set(1, right)...), 9},
	} {
		if is, err := sequenceIn(row.text); err != nil || is != row.sequence {
			t.Errorf("% x: %d, not %d: %v", row.text, is, row.sequence, err)
		}
	}
	for _, text := range [][]byte{set(1, other)[:5], set(1, right[:len(right)-1])} {
		if is, err := sequenceIn(text); err == nil || is != 0 {
			t.Errorf("% x: %d, %v", text, is, err)
		}
	}
}

// A copy is made of the files of a directory alone, and never over another file.
func TestCopiesOfFiles(t *testing.T) {
	from, to := t.TempDir(), t.TempDir()
	for name, text := range map[string]string{"a": "1", "b": "22"} {
		if err := os.WriteFile(filepath.Join(from, name), []byte(text), 0o644); err != nil {
			t.Fatal(err)
		}
	}
	if err := os.Mkdir(filepath.Join(from, "c"), 0o700); err != nil {
		t.Fatal(err)
	}
	open := func() int { // files of this test
		return fixture.CountOpened(t, func(path string) bool { return strings.HasPrefix(path, from) || strings.HasPrefix(path, to) })
	}
	if err := copyFiles(from, to); err != nil {
		t.Fatal(err)
	}
	entries, err := os.ReadDir(to)
	if err != nil || len(entries) != 2 {
		t.Fatal(entries, err)
	}
	for name, text := range map[string]string{"a": "1", "b": "22"} {
		about, err := os.Stat(filepath.Join(to, name))
		if is, readErr := os.ReadFile(filepath.Join(to, name)); string(is) != text || err != nil || readErr != nil || about.Mode().Perm() != 0o600 {
			t.Errorf("%s: %q, %v, %v, %v", name, is, about, err, readErr)
		}
	}
	if copyFiles(from, to) == nil || copyFiles(filepath.Join(from, "none"), to) == nil || copyFile(filepath.Join(from, "none"), filepath.Join(to, "d")) == nil {
		t.Error("a copy is made over another one, or of nothing")
	}
	if copyFile(filepath.Join(from, "a"), filepath.Join(to, "none", "a")) == nil {
		t.Error("a copy is made in no directory")
	}
	if left := open(); left > 0 {
		t.Errorf("%d files are open still", left)
	}
}
