package summary

import (
	"encoding/json"
	"strings"
	"testing"
	"time"

	"syncthing-audit/finding"
	"syncthing-audit/join"
	"syncthing-audit/part"
)

// Versions of Syncthing that this program wasn't tried with are told.
func TestAnotherSyncthing(t *testing.T) {
	for _, row := range []struct {
		runs []string
		told string
	}{
		{[]string{"v1.19.2-ds1", "v1.29.5", ""}, lastLine},
		{[]string{"v1.2.9", "v1.29.5", "v1.190.0"},
			"\nnot tried with such a Syncthing: laptop v1.2.9, phone v1.190.0; it was with 1.19 and 1.29" + lastLine},
	} {
		answer := answerOf(3, func(*finding.Folder) {})
		for place, version := range row.runs {
			answer.Devices[place].Runs = version
		}
		var written strings.Builder
		Of(answer).Print(&written, time.UTC, time.Time{})
		if !strings.HasSuffix(written.String(), row.told) || strings.Contains(written.String(), "not tried") != (row.told != lastLine) {
			t.Errorf("%s: %s", row.runs, written.String())
		}
	}
}

// A part that was made long ago may be of one moment with the others by all indexes. When it was made is told then.
func TestOldParts(t *testing.T) {
	now := time.Unix(later, 0)
	for _, row := range []struct {
		ages []time.Duration
		told string
	}{
		{[]time.Duration{time.Hour, mostAge}, lastLine},
		{[]time.Duration{time.Hour, mostAge + time.Minute},
			"\nread more than a day ago: server 2020-09-12 12:26:40 UTC; what changed on a disk since isn't seen" + lastLine},
		{[]time.Duration{-part.MostAhead, -part.MostAhead - time.Minute},
			"\nread in a time that is still to come, by the device's clock: server 2020-09-13 13:28:40 UTC; how long ago that was isn't known" + lastLine},
	} {
		answer := answerOf(2, func(*finding.Folder) {})
		for place := range answer.Devices {
			answer.Devices[place].Made = now.Add(-row.ages[place])
		}
		var written strings.Builder
		Of(answer).Print(&written, time.UTC, now)
		if !strings.HasSuffix(written.String(), "on laptop, server\n"+row.told) {
			t.Errorf("%s\nnot\n%s", written.String(), row.told)
		}
	}
}

// Where an index may be an old one, a person, a program and the lines are told when it was written, and the verdict stays.
func TestAnIndexThatMayBeOld(t *testing.T) {
	answer := answerOf(2, func(*finding.Folder) {})
	answer.Devices[1].Index = &part.Index{Written: time.Unix(started, 0).UTC(), Configured: time.Unix(later, 0).UTC()}
	const told = "maybe an old index: that of server was written last 2020-09-13 12:26:40 UTC, and config.xml there after that, 2020-09-13 12:27:40 UTC. " +
		"If Syncthing was started there since then, it has its database elsewhere, and this answer isn't about that: name it as --data DIR"
	if text := printed(answer); !strings.Contains(text, told) || strings.Contains(text, "that of laptop was written") {
		t.Error(text)
	}
	written, err := json.Marshal(Of(answer).Devices)
	if err != nil || !strings.Contains(string(written), `"index":{"written":"2020-09-13T12:26:40Z","configured":"2020-09-13T12:27:40Z"}`) || strings.Count(string(written), `"index"`) != 1 {
		t.Errorf("%s, %v", written, err)
	}
}

// So it is where another index is newer. What is told of Syncthing 2 names no --data, since its index isn't read.
func TestANewerIndex(t *testing.T) {
	answer := answerOf(2, func(*finding.Folder) {})
	const told = "maybe an old index: that of server was written last 2020-09-13 12:26:40 UTC, and '/srv/a b/index-v0.14.0.db' there after that, " +
		"2020-09-13 12:27:40 UTC. If Syncthing has its database there now, an answer isn't about that: name its directory as --data DIR"
	for _, isOfTwo := range []bool{false, true} {
		answer.Devices[1].Newer = &part.Newer{Path: "/srv/a b/index-v0.14.0.db", Read: time.Unix(started, 0).UTC(), Written: time.Unix(later, 0).UTC(), IsOfTwo: isOfTwo}
		text := printed(answer)
		if strings.Contains(text, told) == isOfTwo || strings.Count(text, "maybe an old") != 1 || strings.Contains(text, "its index isn't read") != isOfTwo {
			t.Error(text)
		}
	}
	written, err := json.Marshal(Of(answer).Devices)
	const member = `"newer_index":{"path":"/srv/a b/index-v0.14.0.db","written":"2020-09-13T12:27:40Z","read":"2020-09-13T12:26:40Z","of_syncthing_2":true}`
	if err != nil || strings.Count(string(written), member) != 1 || strings.Count(string(written), "newer_index") != 1 {
		t.Errorf("%s, %v", written, err)
	}
}

// Of how many files the time differs and Syncthing takes it for the same is told, where there are such ones.
func TestTimesThatAreNear(t *testing.T) {
	answer := answerOf(2, func(folder *finding.Folder) {
		folder.Members[0].About.TimeWindow = 2
		folder.Members[1].About.TimeWindow, folder.Members[1].Near = 2, 3
	})
	const told = "times taken for the same: in docs (Documents) 3 files, by less than 2 seconds, on server: the time on the disk isn't the recorded one, and no scan there sees that"
	if text := printed(answer); !strings.Contains(text, told) || strings.Count(text, "times taken") != 1 {
		t.Error(text)
	}
	written, err := json.Marshal(Of(answer).Folders[0].Devices)
	if err != nil || strings.Count(string(written), `"time_window":2`) != 2 || strings.Count(string(written), `"near_times":3`) != 1 {
		t.Errorf("%s, %v", written, err)
	}
}

// Names that Syncthing takes for its temporary files are told of the devices that have some, and the verdict stays.
func TestTemporaryNames(t *testing.T) {
	answer := answerOf(2, func(folder *finding.Folder) {
		folder.Members[0].Temporary, folder.Members[1].Temporary = &part.Count{}, &part.Count{Names: 2, Bytes: 3100}
	})
	const told = " outside docs: 2 names, 3.1 kB on server, which Syncthing takes for its temporary files ('.syncthing.*', '~syncthing~*'): it never sends such names, " +
		"and its scans delete such files once they are a day old, or as 'keepTemporariesH' says "
	if text := printed(answer); !strings.HasPrefix(text, "docs (Documents): in step") || !strings.Contains(text, told) || strings.Count(text, "outside") != 1 {
		t.Error(text)
	}
	written, err := json.Marshal(Of(answer).Folders[0].Devices)
	if err != nil || strings.Count(string(written), `"temporary"`) != 1 || !strings.Contains(string(written), `"temporary":{"names":2,"bytes":3100}`) {
		t.Errorf("%s, %v", written, err)
	}
}

// An index that Syncthing is to repair is told, and the verdict stays.
func TestAnIndexThatIsToBeRepaired(t *testing.T) {
	answer := answerOf(2, func(*finding.Folder) {})
	answer.Devices[1].ToRepair = true
	const told = "to be repaired: the index of server. Syncthing found a fault in it, and repairs it at its next start"
	if text := printed(answer); !strings.Contains(text, told) || strings.Count(text, "to be repaired") != 1 {
		t.Error(text)
	}
	written, err := json.Marshal(Of(answer).Devices)
	if err != nil || strings.Count(string(written), `"index_to_repair":true`) != 1 || strings.Contains(string(written), `"index":`) {
		t.Errorf("%s, %v", written, err)
	}
}

// An observer is told by its name and the beginning of its id, however short that is; without a name by the id alone.
func TestObserversAreNamed(t *testing.T) {
	for _, row := range []struct {
		observer join.Observer
		told     string
	}{
		{join.Observer{Folder: "docs", Device: phone, Name: "ph\x1bone"}, "ph?one (PHONEAA)"}, {join.Observer{Folder: "docs", Device: phone}, phone},
		{join.Observer{Folder: "docs", Device: "X", Name: "eye"}, "eye (X)"}, {join.Observer{Folder: "docs", Name: "eye"}, "eye ()"},
	} {
		answer := answerOf(2, func(*finding.Folder) {})
		answer.Observers = []join.Observer{row.observer}
		if text := printed(answer); !strings.Contains(text, "not asked: "+row.told+", an observer: it shares docs, keeps no files of it, and sends no records") {
			t.Errorf("%s: %s", row.told, text)
		}
	}
}

// A device may say that its part is of the year 1, which Go takes for no time: that is long ago, too.
func TestAPartOfTheYearOne(t *testing.T) {
	now := time.Unix(later, 0)
	answer := answerOf(2, func(*finding.Folder) {})
	answer.Devices[0].Made, answer.Devices[1].Made = now, time.Time{}
	var written strings.Builder
	Of(answer).Print(&written, time.UTC, now)
	if !strings.Contains(written.String(), "\nread more than a day ago: server 0001-01-01 00:00:00 UTC; what changed on a disk since isn't seen\n") {
		t.Error(written.String())
	}
}
