package device

import (
	"fmt"
	"net/http"
	"os"
	"path/filepath"
	"strconv"
	"testing"
	"time"

	"github.com/syncthing/syncthing/lib/protocol"
	"syncthing-audit/adapt"
)

// homeOfDevice is the variable with the home of a device that runs and is writing to its index. It is stopped in the end.
const homeOfDevice = "LIVE_TEST_HOME"

// wholeOf gives the entry that an index has of a device for each name, and the greatest sequence.
func wholeOf(t *testing.T, database string, of protocol.DeviceID) (map[string]protocol.FileInfo, int64) {
	set, opened, err := openSet(database)
	if err != nil {
		t.Fatal(err)
	}
	defer opened.Close()
	snapshot, err := set.Snapshot()
	if err != nil {
		t.Fatal(err)
	}
	defer snapshot.Release()
	made, greatest := map[string]protocol.FileInfo{}, int64(0)
	adapt.Have(snapshot.WithHave, of, func(entry protocol.FileInfo) bool {
		made[entry.Name] = entry
		if entry.Sequence > greatest {
			greatest = entry.Sequence
		}
		return true
	})
	return made, greatest
}

// stopDevice ends a device by its REST API, and waits until its index is free.
func stopDevice(t *testing.T, home string) {
	about, err := ReadConfig(home)
	if err != nil {
		t.Fatal(err)
	}
	asked, err := http.NewRequest(http.MethodPost, "http://"+about.GUI.Address()+"/rest/system/shutdown", nil)
	if err != nil {
		t.Fatal(err)
	}
	asked.Header.Set("X-API-Key", about.GUI.APIKey)
	if answer, err := http.DefaultClient.Do(asked); err != nil || answer.StatusCode != http.StatusOK {
		t.Fatalf("%v, %v", answer, err)
	}
	for end := time.Now().Add(5 * time.Minute); ; time.Sleep(100 * time.Millisecond) {
		lock, err := lockShared(home, filepath.Join(home, databaseName))
		if err == nil {
			lock.Close()
			return
		}
		if time.Now().After(end) {
			t.Fatal(err)
		}
	}
}

// checkAgainst says what a copy lacks, or has otherwise, of what the device's own database has in the end.
func checkAgainst(t *testing.T, what string, found map[string]protocol.FileInfo, greatest int64, last map[string]protocol.FileInfo) {
	for name, entry := range last {
		had, is := found[name]
		if entry.Sequence <= greatest && (!is || had.Sequence != entry.Sequence || !had.Version.Equal(entry.Version)) {
			t.Errorf("%s, which goes to %d, lacks %s of %d: %v, %d", what, greatest, name, entry.Sequence, is, had.Sequence)
		}
	}
	for name, entry := range found {
		if later, is := last[name]; !is || later.Sequence < entry.Sequence {
			t.Errorf("%s has %s of %d, which the device hasn't", what, name, entry.Sequence)
		}
	}
}

// Copies of the index of a real device under heavy writes: by hand, with LIVE_TEST_HOME and LIVE_TEST_COPIES.
func TestCopiesOfADevice(t *testing.T) {
	home := os.Getenv(homeOfDevice)
	copies, err := strconv.Atoi(os.Getenv(numberOfCopies))
	if home == "" || err != nil {
		t.Skip("no home is given")
	}
	database := filepath.Join(home, databaseName)
	var paths []string
	rounds := 0
	for len(paths) < copies {
		path := t.TempDir()
		said, err := copyLive(database, path, checkLive)
		if err != nil {
			t.Fatal(err)
		}
		rounds += said.Rounds
		paths = append(paths, path)
	}
	stopDevice(t, home)
	end := t.TempDir()
	if err := copyFiles(database, end); err != nil {
		t.Fatal(err)
	}
	last, greatest := wholeOf(t, end, protocol.LocalDeviceID)
	id := indexIDOf(t, end)
	first := int64(0)
	for place, path := range paths {
		what := fmt.Sprintf("copy %d", place)
		if indexIDOf(t, path) != id {
			t.Errorf("%s is of another index", what)
		}
		found, upTo := wholeOf(t, path, protocol.LocalDeviceID)
		checkAgainst(t, what, found, upTo, last)
		if place == 0 {
			first = upTo
		}
	}
	t.Logf("%d copies took %d rounds; the device's greatest sequence went from %d to %d, with %d names", copies, rounds, first, greatest, len(last))
}
