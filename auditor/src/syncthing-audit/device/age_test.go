package device

import (
	"os"
	"path/filepath"
	"strings"
	"testing"
	"time"
)

// homeOfTimes gives a home whose config.xml and whose index's files changed at these seconds.
func homeOfTimes(t *testing.T, configured int64, written ...int64) string {
	made := t.TempDir()
	set := func(path string, seconds int64) {
		if err := os.WriteFile(path, nil, 0o600); err != nil {
			t.Fatal(err)
		}
		if err := os.Chtimes(path, time.Unix(seconds, 0), time.Unix(seconds, 0)); err != nil {
			t.Fatal(err)
		}
	}
	if err := os.Mkdir(filepath.Join(made, databaseName), 0o700); err != nil {
		t.Fatal(err)
	}
	for place, one := range written {
		set(filepath.Join(made, databaseName, string(rune('a'+place))), one)
	}
	set(filepath.Join(made, "config.xml"), configured)
	return made
}

// An index of which no file is as new as config.xml may be an old one, and is told with both times; the newest file counts.
func TestAgeOfAnIndex(t *testing.T) {
	t.Setenv("TZ", "UTC")
	for _, one := range []struct {
		why        string
		configured int64
		written    []int64
		isOld      bool
	}{
		{"written after", 1000, []int64{1001, 10}, false}, {"at once", 1000, []int64{1000}, false}, {"as coarse as times are", 1002, []int64{1000, 1}, false},
		{"before", 1003, []int64{10, 1000, 20}, true},
	} {
		home := &Home{Dir: homeOfTimes(t, one.configured, one.written...)}
		if err := home.noteAge(); err != nil || (home.State != nil) != one.isOld {
			t.Errorf("%s: %+v, %v", one.why, home.State, err)
		}
		if one.isOld && (home.State.Written.Unix() != 1000 || home.State.Configured.Unix() != one.configured) {
			t.Errorf("%s: %+v", one.why, home.State)
		}
		if told := home.Doubts(); len(told) > 0 != one.isOld || one.isOld && !strings.Contains(told[0], "If Syncthing was started since then, it has its database elsewhere") {
			t.Errorf("%s: %q", one.why, told)
		}
	}
}

// The index of a database that is elsewhere is the one that counts.
func TestAgeOfAnIndexElsewhere(t *testing.T) {
	home := &Home{Dir: homeOfTimes(t, 2000, 1000), data: homeOfTimes(t, 1, 2000)}
	if err := home.noteAge(); err != nil || home.State != nil {
		t.Errorf("%+v, %v", home.State, err)
	}
}

// A Syncthing that runs has written to its index since it was started.
func TestAnIndexThatIsWrittenSince(t *testing.T) {
	home := homeOfTimes(t, 1, 1000, 10)
	for seconds, is := range map[int64]bool{900: true, 1000: true, 1002: true, 1003: false} {
		if IsWrittenSince(home, time.Unix(seconds, 0)) != is {
			t.Errorf("since %d: not %v", seconds, is)
		}
	}
	if IsWrittenSince(t.TempDir(), time.Unix(0, 0)) {
		t.Error("without an index")
	}
}
