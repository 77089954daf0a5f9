package observing

import (
	"errors"
	"fmt"
	"io"
	"os"
	"path/filepath"
	"strings"
	"testing"
	"time"

	"github.com/syncthing/syncthing/lib/protocol"
	"syncthing-audit/commandline"
	"syncthing-audit/history"
	"syncthing-audit/observe"
	"syncthing-audit/rest"
	"syncthing-audit/wire"
)

// What is wrong with the words is told before any device is asked; what is right isn't.
func TestWordsOfObserve(t *testing.T) {
	there := filepath.Join(t.TempDir(), "there")
	if err := os.WriteFile(there, nil, 0o600); err != nil {
		t.Fatal(err)
	}
	apis := map[protocol.DeviceID]*rest.Remote{{1}: nil}
	for _, row := range []struct {
		asked commandline.Options
		told  string
	}{
		{commandline.Options{}, ""}, {commandline.Options{Homes: []string{"a", "b"}}, "an observer has one --home"},
		{commandline.Options{Init: true}, ""}, {commandline.Options{Init: true, Still: -1}, ""}, {commandline.Options{Init: true, Folders: []string{"docs"}}, "--init makes the observer's home"},
		{commandline.Options{Init: true, Parts: []string{"A"}}, "--init makes the observer's home"}, {commandline.Options{Parts: []string{"A"}, Folders: []string{"docs"}}, ""},
		{commandline.Options{Still: -0.1}, "--still is at least 0"}, {commandline.Options{Rescan: true}, "--rescan asks the devices"}, {commandline.Options{Rescan: true, APIs: apis}, ""},
		{commandline.Options{History: "h", Into: "i"}, "give --history to the 'check'"}, {commandline.Options{History: "h"}, ""}, {commandline.Options{Into: "i"}, ""},
		{commandline.Options{Budget: 1}, ""}, {commandline.Options{Every: 1}, ""}, {commandline.Options{Budget: 1, Into: "i"}, "--into writes parts"}, {commandline.Options{Every: 1, Into: "i"}, "--into writes parts"},
		{commandline.Options{Budget: 1, Disks: map[int]string{0: "d"}}, "--disk waits for a person"}, {commandline.Options{Every: 1, Disks: map[int]string{0: "d"}}, "--disk waits for a person"},
		{commandline.Options{Budget: 1, Records: true}, "--records reads none"}, {commandline.Options{Every: 1, Records: true}, ""},
		{commandline.Options{Disks: map[int]string{0: "d", 1: "e"}}, ""}, {commandline.Options{Disks: map[int]string{0: "d", 1: "d"}}, "--disk d is given for two devices"},
		{commandline.Options{Disks: map[int]string{0: there}}, "refused: --disk " + there + " is there already"}, {commandline.Options{Disks: map[int]string{0: there + "/below"}}, "not a directory"},
	} {
		asked := row.asked
		if len(asked.Homes) == 0 {
			asked.Homes = []string{"/home"}
		}
		if err := checkObserve(&asked); (err == nil) != (row.told == "") || err != nil && !strings.Contains(err.Error(), row.told) {
			t.Errorf("%+v: %v", row.asked, err)
		}
		if due := map[bool]string{true: "/home/history", false: row.asked.History}[row.asked.Budget+int64(row.asked.Every) > 0 && row.told == ""]; asked.History != due {
			t.Errorf("%+v: history %s, not %s", row.asked, asked.History, due)
		}
		if row.told == "" {
			continue
		}
		asked.Homes, asked.History = row.asked.Homes, row.asked.History
		if status, err := Run(asked, io.Discard, io.Discard); status != 0 || err == nil || !strings.Contains(err.Error(), row.told) {
			t.Errorf("%+v: a run has status %d, %v", row.asked, status, err)
		}
	}
	kept := commandline.Options{Homes: []string{"/home"}, Budget: 1, History: "own"}
	if err := checkObserve(&kept); err != nil || kept.History != "own" {
		t.Errorf("%s, %v", kept.History, err)
	}
	t.Setenv("XDG_STATE_HOME", "/state")
	usual := commandline.Options{}
	if err := checkObserve(&usual); err != nil || len(usual.Homes) != 1 || usual.Homes[0] != "/state/syncthing-audit/observer" {
		t.Errorf("%v, %v", usual.Homes, err)
	}
	t.Setenv("XDG_STATE_HOME", "")
	t.Setenv("HOME", "")
	if nowhere := (commandline.Options{}); checkObserve(&nowhere) == nil || len(nowhere.Homes) > 0 {
		t.Errorf("%v", nowhere.Homes)
	}
}

// A device is given by its id, and by where it is. Without an address it is where it was, unless it is to connect by itself.
func TestAddressesOfDevices(t *testing.T) {
	first, second := protocol.DeviceID{1}, protocol.DeviceID{2}
	kept := &observe.Addresses{Devices: map[string]string{first.String(): "far:1"}, Folders: map[string]map[string]bool{"docs": {first.String(): true}, "pics": {second.String(): true}}}
	for _, row := range []struct {
		words, folders []string
		listen         string
		addresses      []address
		told           string
	}{
		{words: []string{first.String()}, addresses: []address{{first, "far:1", first.String(), true}}},
		{words: []string{first.String()}, listen: "tcp://:1", addresses: []address{{first, "", first.String(), false}}},
		{words: []string{second.String()}, addresses: []address{{second, "", second.String(), true}}},
		{words: []string{first.String() + "@tcp://near:22"}, addresses: []address{{first, "near:22", first.String() + "@tcp://near:22", false}}},
		{words: []string{first.String() + "@near:22"}, listen: "tcp://:1", addresses: []address{{first, "near:22", first.String() + "@near:22", false}}},
		{words: []string{second.String() + "@tcp4://n:2", first.String() + "@tcp6://n:1"}, addresses: []address{{second, "n:2", second.String() + "@tcp4://n:2", false}, {first, "n:1", first.String() + "@tcp6://n:1", false}}},
		{folders: []string{"pics"}, addresses: []address{{second, "", second.String(), true}}},
		{folders: []string{"else"}, told: "no device is given"},
		{words: []string{first.String(), first.String() + "@n:1"}, told: "device " + first.String() + " is given twice"},
		{words: []string{"A@quic://n:1"}, told: `"A@quic://n:1" is no device with its address`}, {words: []string{first.String() + "@n"}, told: "is no device with its address"},
		{words: []string{"AAAA"}, told: `"AAAA" is no device id: `},
	} {
		found, err := addressesOf(commandline.Options{Parts: row.words, Folders: row.folders, Listen: row.listen}, kept)
		if (err == nil) != (row.told == "") || err != nil && !strings.Contains(err.Error(), row.told) || fmt.Sprint(found) != fmt.Sprint(row.addresses) {
			t.Errorf("%v: %v, %v", row.words, found, err)
		}
		ids := (&observing{addresses: found}).idsOfAll()
		for place, given := range row.addresses {
			if len(ids) != len(row.addresses) || ids[place] != given.id {
				t.Errorf("%v: the devices are %v", row.words, ids)
				break
			}
		}
	}
	if portOf("tcp://:22000") != ":22000" || portOf("127.0.0.1:1") != "127.0.0.1:1" {
		t.Error("a port to listen at is another one")
	}
}

// By the way in which a device fails it may be elsewhere, or busy, or neither.
func TestWaysToFail(t *testing.T) {
	for why, row := range map[error]struct{ isElsewhere, isBusy bool }{
		wire.Unreached: {true, false}, wire.AnotherDevice: {true, false}, wire.NotSyncthing: {true, true}, wire.TooLate: {false, true}, wire.Closed: {false, true}, wire.NotShared: {false, false},
		errors.New("some error"): {false, false},
	} {
		err := fmt.Errorf("%w: so", why)
		if isElsewhere(err) != row.isElsewhere || isBusy(err) != row.isBusy {
			t.Errorf("%v: elsewhere %v, busy %v", why, isElsewhere(err), isBusy(err))
		}
	}
}

// What waits is told in words: of it what was never read, and since when the rest waits.
func TestWordsOfWhatWaits(t *testing.T) {
	at := time.Date(2026, 11, 30, 1, 2, 3, 0, time.UTC)
	for due, waiting := range map[string]history.Waiting{
		"1 file (1 MB)": {Files: 1, Bytes: 1e6},
		"2 files (2 MB), of which 1 file (1 MB) never yet":                                                               {Files: 2, Bytes: 2e6, Never: 1, NeverBytes: 1e6},
		"2 files (2 MB); the one that waits longest was read 2026-11-30 01:02:03 UTC":                                    {Files: 2, Bytes: 2e6, Oldest: &at},
		"3 files (3 MB), of which 2 files (2 MB) never yet; the one that waits longest was read 2026-11-30 01:02:03 UTC": {Files: 3, Bytes: 3e6, Never: 2, NeverBytes: 2e6, Oldest: &at},
	} {
		if told := wordsOfWaiting(waiting); told != due {
			t.Errorf("%q, not %q", told, due)
		}
	}
	seen := &observing{devices: []*observe.Device{nil, {ID: protocol.DeviceID{7: 1}, Hello: wire.Hello{Name: "a b"}}}}
	if told, unknown := seen.called(1), seen.called(12); told != "a b (AAAAAAA)" || unknown != "12" {
		t.Errorf("%q, %q", told, unknown)
	}
}

// The command for a walk of a device's disks has each block size and folder, and its words as a shell takes them.
func TestTheCommandOfAWalk(t *testing.T) {
	for due, told := range map[string]string{
		"syncthing-audit-disk --after T -o f 'docs=DIR'":                                                    commandOfHalf("T", []string{"docs"}, "f", nil, nil),
		"syncthing-audit-disk --after T --block-size 1 --block-size 2 --names 'a b' -o f 'd=DIR' 'e f=DIR'": commandOfHalf("T", []string{"d", "e f"}, "f", []string{"1", "2"}, []string{"--names", "a b"}),
	} {
		if told != due {
			t.Errorf("%s, not %s", told, due)
		}
	}
}

// What is kept of a folder at a device stands where earlier runs had it, and apart from what is kept of others.
func TestWhereIndexesAreKept(t *testing.T) {
	places := map[string]bool{}
	for _, folder := range []string{"docs", "pics"} {
		for _, id := range []protocol.DeviceID{{1}, {2}} {
			place := directoryOfKept("/home", folder, id)
			if !strings.HasPrefix(place, "/home/indexes/") || len(filepath.Base(place)) != 32 {
				t.Errorf("%s", place)
			}
			places[place] = true
		}
	}
	if len(places) != 4 {
		t.Errorf("%v", places)
	}
}
