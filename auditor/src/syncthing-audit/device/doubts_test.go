package device

import (
	"errors"
	"fmt"
	"os"
	"path/filepath"
	"reflect"
	"strings"
	"testing"
	"time"

	"github.com/syncthing/syncthing/lib/config"
	"syncthing-audit/part"
)

// What may be amiss with an index is told to the word, with the time of each file where it belongs.
func TestTheWordsOfDoubts(t *testing.T) {
	had := time.Local
	time.Local = time.UTC
	defer func() { time.Local = had }()
	at := func(second int64) time.Time { return time.Unix(second, 0) }
	home := &Home{Dir: "laptop", State: &part.Index{Written: at(1), Configured: at(2)}, Newer: &part.Newer{Path: "other/index", Read: at(3), Written: at(4)}, ToRepair: true}
	for place, told := range []string{
		"laptop/index-v0.14.0.db was written last 1970-01-01 00:00:01 UTC, and config.xml after that, 1970-01-01 00:00:02 UTC. If Syncthing was started since then, ",
		"laptop/index-v0.14.0.db was written last 1970-01-01 00:00:03 UTC, and other/index after that, 1970-01-01 00:00:04 UTC. If Syncthing has its database there now",
		"Syncthing found a fault in laptop/index-v0.14.0.db, and is to repair it at its next start (index-v0.14.0.db.needsrepair is there).",
	} {
		if doubts := home.Doubts(); len(doubts) != 3 || !strings.HasPrefix(doubts[place], told) {
			t.Errorf("%q, not %s", doubts, told)
		}
	}
}

// Why a folder is away is told with its path or without.
func TestWordsOfAFolderThatIsAway(t *testing.T) {
	room := t.TempDir()
	empty, nowhere := filepath.Join(room, "empty"), filepath.Join(room, "nowhere")
	if err := os.MkdirAll(filepath.Join(room, "there/.stfolder"), 0o700); err != nil {
		t.Fatal(err)
	}
	if err := os.Mkdir(empty, 0o700); err != nil {
		t.Fatal(err)
	}
	for path, told := range map[string][2]string{filepath.Join(room, "there"): {"", ""},
		empty:   {empty + " has no .stfolder, by which Syncthing knows the folder", "its directory has no .stfolder, by which Syncthing knows the folder"},
		nowhere: {"there is no " + nowhere, "its directory isn't there"}} {
		folder := config.FolderConfiguration{ID: "docs", Path: path, MarkerName: ".stfolder"}
		if is := [2]string{Away(folder), AwayWithoutPath(folder)}; !reflect.DeepEqual(is, told) {
			t.Errorf("%q, not %q", is, told)
		}
	}
	folder := config.FolderConfiguration{ID: "docs", Path: room, MarkerName: ".stfolder"}
	for path, words := range map[string][2]string{"": {"its directory has no .stfolder, by which Syncthing knows the folder", "its directory isn't there"},
		"/a": {"/a has no .stfolder, by which Syncthing knows the folder", "there is no /a"}} {
		for place, cause := range []error{config.ErrMarkerMissing, config.ErrPathMissing} {
			if told := lackingAt(path, folder, fmt.Errorf("it failed: %w", cause)); told != words[place] {
				t.Errorf("%q, not %q", told, words[place])
			}
			if told := pathFault(folder, fmt.Errorf("it failed: %w", cause)).Error(); strings.Contains(told, "Without the marker Syncthing stops") != (place == 0) || !strings.HasSuffix(told, "--folder chooses other folders") {
				t.Error(told)
			}
		}
	}
	err := pathFault(folder, os.ErrPermission)
	if !errors.Is(err, os.ErrPermission) || err.Error() != "folder docs: "+room+": permission denied" {
		t.Error(err)
	}
}
