package device

import (
	"crypto/sha256"
	"encoding/binary"
	"errors"
	"fmt"
	"io"
	"os"
	"os/exec"
	"path/filepath"
	"strconv"
	"testing"
	"time"

	"github.com/syncthing/syncthing/lib/db"
	"github.com/syncthing/syncthing/lib/db/backend"
	"github.com/syncthing/syncthing/lib/events"
	"github.com/syncthing/syncthing/lib/protocol"
	"github.com/syndtr/goleveldb/leveldb"
)

const (
	// roomOfWriter is the variable that has this test's program write to an index until its standard input ends.
	roomOfWriter = "LIVE_TEST_ROOM"
	// numberOfCopies is the variable with how many copies are made beside the writer.
	numberOfCopies = "LIVE_TEST_COPIES"
	fewCopies      = 20

	writtenNames = 2000
	mostInBatch  = 300
)

var otherDevice = protocol.DeviceID{1, 2, 3}

// TestMain writes to an index where the program is the child.
func TestMain(tests *testing.M) {
	if room := os.Getenv(roomOfWriter); room != "" {
		writeHeavily(room)
		return
	}
	os.Exit(tests.Run())
}

// nameOfSequence gives which name changes at a sequence: another one each time, for as many as there are names.
func nameOfSequence(sequence int64) string {
	return fmt.Sprintf("%04d", sequence*7919%writtenNames)
}

// entryOfSequence gives the entry that is written at a sequence, whose version says which one it is.
func entryOfSequence(sequence int64) protocol.FileInfo {
	made := protocol.FileInfo{Name: nameOfSequence(sequence), Size: 8 * protocol.MinBlockSize, ModifiedBy: 1, Sequence: sequence,
		RawBlockSize: protocol.MinBlockSize, Version: protocol.Vector{Counters: []protocol.Counter{{ID: 1, Value: uint64(sequence)}}}}
	for place := 0; place < 8; place++ {
		hash := sha256.Sum256([]byte(fmt.Sprint(sequence, place)))
		made.Blocks = append(made.Blocks, protocol.BlockInfo{Hash: hash[:], Offset: int64(place) * protocol.MinBlockSize, Size: protocol.MinBlockSize})
	}
	return made
}

// openSet opens a folder of an index by Syncthing's own packages.
func openSet(database string) (*db.FileSet, backend.Backend, error) {
	opened, err := backend.Open(database, backend.TuningAuto)
	if err != nil {
		return nil, nil, err
	}
	index, err := db.NewLowlevel(opened, events.NoopLogger)
	if err != nil {
		return nil, nil, err
	}
	if err := db.UpdateSchema(index); err != nil {
		return nil, nil, err
	}
	set, err := db.NewFileSet("docs", index)
	return set, opened, err
}

// writeHeavily updates own entries and a view as fast as it goes, and writes into a file which sequence is stored.
func writeHeavily(room string) {
	set, opened, err := openSet(filepath.Join(room, databaseName))
	if err != nil {
		panic(err)
	}
	ended := make(chan struct{})
	go func() {
		io.Copy(io.Discard, os.Stdin)
		close(ended)
	}()
	progress, err := os.Create(filepath.Join(room, "stored"))
	if err != nil {
		panic(err)
	}
	for sequence := int64(0); ; {
		batch := []protocol.FileInfo{}
		for count := 1 + sequence*sequence%mostInBatch; count > 0; count-- {
			sequence++
			batch = append(batch, entryOfSequence(sequence))
		}
		set.Update(protocol.LocalDeviceID, batch)
		set.Update(otherDevice, batch)
		progress.WriteAt(binary.BigEndian.AppendUint64(nil, uint64(sequence)), 0)
		select {
		case <-ended:
			opened.Close()
			return
		default:
		}
	}
}

// stored gives the greatest sequence that the writer says is stored; 0 before it begins.
func stored(room string) int64 {
	text, err := os.ReadFile(filepath.Join(room, "stored"))
	if err != nil || len(text) < 8 {
		return 0
	}
	return int64(binary.BigEndian.Uint64(text))
}

// startWriter starts the child, and waits until it has written each name; what it gives ends it.
func startWriter(t *testing.T, room string) func() {
	child := exec.Command(os.Args[0])
	child.Env = append(os.Environ(), roomOfWriter+"="+room, "STDEBUG_WriteBuffer=200000", "STDEBUG_CompactionTableSize=100000",
		"STDEBUG_NoSync=1")
	child.Stderr = os.Stderr
	input, err := child.StdinPipe()
	if err == nil {
		err = child.Start()
	}
	if err != nil {
		t.Fatal(err)
	}
	isEnded := false
	end := func() {
		if !isEnded {
			isEnded = true
			input.Close()
			if err := child.Wait(); err != nil {
				t.Error(err)
			}
		}
	}
	t.Cleanup(end)
	for end := time.Now().Add(5 * time.Minute); stored(room) < 2*writtenNames; time.Sleep(10 * time.Millisecond) {
		if time.Now().After(end) {
			t.Fatal("the writer writes nothing")
		}
	}
	return end
}

// entriesOf gives the sequence of each name that an index has of a device, and the greatest one.
func entriesOf(t *testing.T, database string, of protocol.DeviceID) (map[string]int64, int64) {
	entries, greatest := wholeOf(t, database, of)
	made := map[string]int64{}
	for name, entry := range entries {
		if said := int64(entry.Version.Counters[0].Value); said != entry.Sequence || len(entry.Blocks) != 8 {
			t.Errorf("%s has sequence %d and version %d with %d blocks", name, entry.Sequence, said, len(entry.Blocks))
		}
		made[name] = entry.Sequence
	}
	return made, greatest
}

// indexIDOf gives the id of a device's own index; Syncthing's package changes it where it mends an index.
func indexIDOf(t *testing.T, database string) protocol.IndexID {
	set, opened, err := openSet(database)
	if err != nil {
		t.Fatal(err)
	}
	defer opened.Close()
	return set.IndexID(protocol.LocalDeviceID)
}

// checkNoGap says which names of an index aren't as they were when its greatest sequence was the last one.
func checkNoGap(t *testing.T, what string, found map[string]int64, greatest int64) {
	if len(found) != writtenNames {
		t.Errorf("%s has %d names", what, len(found))
	}
	for sequence := greatest; sequence > greatest-writtenNames; sequence-- {
		if name := nameOfSequence(sequence); found[name] != sequence {
			t.Errorf("%s, which goes to %d, has %s of %d in place of %d", what, greatest, name, found[name], sequence)
		}
	}
}

// An entry behind the folder's greatest sequence is found, before Syncthing's package mends the copy.
func TestSequencesBehindTheGreatest(t *testing.T) {
	database := t.TempDir()
	set, opened, err := openSet(database)
	if err != nil {
		t.Fatal(err)
	}
	set.Update(protocol.LocalDeviceID, []protocol.FileInfo{entryOfSequence(1), entryOfSequence(2)})
	opened.Close()
	check := func() error {
		opened, err := openStrictly(database)
		if err != nil {
			t.Fatal(err)
		}
		defer opened.Close()
		return checkSequences(opened)
	}
	if err := check(); err != nil {
		t.Fatal(err)
	}
	behind, err := leveldb.OpenFile(database, nil)
	if err == nil {
		err = behind.Put(sequencesBehind(make([]byte, bytesOfFolder), 2).Start, nil, nil)
	}
	if err == nil {
		err = behind.Close()
	}
	if err != nil {
		t.Fatal(err)
	}
	if err := check(); !errors.Is(err, errAgain) {
		t.Errorf("an entry behind the greatest sequence: %v", err)
	}
}

// liveOne is a copy, with what was stored before it was begun.
type liveOne struct {
	path   string
	before int64
	index  protocol.IndexID // that of the index in the end
}

// check says what a copy lacks of what the index has in the end.
func (c *liveOne) check(t *testing.T, what string, last map[string]int64, greatestAtEnd int64) {
	if id := indexIDOf(t, c.path); id != c.index {
		t.Errorf("%s is of index %v, and not of %v", what, id, c.index)
	}
	own, greatest := entriesOf(t, c.path, protocol.LocalDeviceID)
	checkNoGap(t, what, own, greatest)
	if greatest < c.before || greatest > greatestAtEnd {
		t.Errorf("%s goes to %d, and %d were stored before it was begun; in the end %d", what, greatest, c.before, greatestAtEnd)
	}
	for name, sequence := range own {
		if last[name] < sequence || last[name] <= greatest && last[name] != sequence {
			t.Errorf("%s has %s of %d, and the index in the end %d", what, name, sequence, last[name])
		}
	}
	view, seen := entriesOf(t, c.path, otherDevice)
	checkNoGap(t, "the view in "+what, view, seen)
}

// Copies that are made while Syncthing's own packages write open in strict mode. Each is the index as it was at one moment
// after the copy was begun, in which nothing is missing of what the device's own database has at its end.
func TestCopiesBesideAWriter(t *testing.T) {
	copies := fewCopies
	if asked, err := strconv.Atoi(os.Getenv(numberOfCopies)); err == nil {
		copies = asked
	}
	room := t.TempDir()
	end := startWriter(t, room)
	var all []*liveOne
	rounds := 0
	for len(all) < copies {
		one := &liveOne{path: t.TempDir(), before: stored(room)}
		said, err := copyLive(filepath.Join(room, databaseName), one.path, checkLive)
		if err != nil {
			t.Fatal(err)
		}
		rounds += said.Rounds
		all = append(all, one)
	}
	end()
	last, greatest := entriesOf(t, filepath.Join(room, databaseName), protocol.LocalDeviceID)
	checkNoGap(t, "the index", last, greatest)
	id := indexIDOf(t, filepath.Join(room, databaseName))
	for place, one := range all {
		one.index = id
		one.check(t, fmt.Sprintf("copy %d", place), last, greatest)
	}
	t.Logf("%d copies took %d rounds; the writer stored %d entries of each of two devices", copies, rounds, greatest)
}
