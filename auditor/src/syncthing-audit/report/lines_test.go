package report

import (
	"fmt"
	"strings"
	"testing"
	"time"

	"github.com/syncthing/syncthing/lib/protocol"
	"syncthing-audit/choice"
	"syncthing-audit/finding"
	"syncthing-audit/join"
	"syncthing-audit/part"
)

// folderOf gives a folder of so many devices with these failures.
func folderOf(id string, devices int, failures ...finding.Failure) *finding.Folder {
	made := &finding.Folder{ID: id, Names: 2}
	for _, one := range failures {
		made.Failures.Add(one)
	}
	for number := 1; number <= devices; number++ {
		made.Members = append(made.Members, join.Member{Device: &join.Device{Head: &part.Head{Device: protocol.DeviceID{7: byte(number)}.String()}, Number: uint64(number)}})
	}
	return made
}

// ownFolder gives a folder that its device shares with nobody.
func ownFolder(id string) *finding.Folder {
	made := folderOf(id, 1)
	made.Own = "A"
	return made
}

// otherOwn gives another device's folder that it shares with nobody.
func otherOwn(id string) *finding.Folder {
	made := ownFolder(id)
	made.Own = "B"
	return made
}

func TestVerdicts(t *testing.T) {
	differs := finding.Failure{Reason: "StoreDiffers", Name: "b", Device: 1}
	unwon := finding.Failure{Reason: "NotWinner", Name: "z"}
	left := folderOf("docs", 2)
	left.LeftOut = []*finding.LeftOut{{Name: "x", Names: 1, Why: []finding.Reason{{Device: left.Members[0].Head.Device, Kind: part.Special, Why: "a fifo"}}}}
	cases := []struct {
		why     string
		answer  finding.Answer
		verdict string
	}{
		{"all in step", finding.Answer{Folders: []*finding.Folder{folderOf("docs", 2)}}, "settled"},
		{"a folder at one device alone", finding.Answer{Folders: []*finding.Folder{folderOf("docs", 2), folderOf("pics", 1)}}, "settled as far as audited"},
		{"a folder that a device shares with nobody", finding.Answer{Folders: []*finding.Folder{folderOf("docs", 2), ownFolder("pics")}}, "settled"},
		{"one of which each of two devices has its own", finding.Answer{Folders: []*finding.Folder{ownFolder("pics"), otherOwn("pics")}},
			"settled as far as audited"},
		{"so with the id that Syncthing gives on each", finding.Answer{Folders: []*finding.Folder{ownFolder("default"), otherOwn("default")}}, "settled"},
		{"a name that was left out", finding.Answer{Folders: []*finding.Folder{left}}, "settled as far as audited"},
		{"a device that was left out", finding.Answer{Folders: []*finding.Folder{folderOf("docs", 2)},
			LeftOut: []finding.Refusal{{Kind: part.Absent, Folder: "docs"}}}, "settled as far as audited"},
		{"the least folder of one reason", finding.Answer{Folders: []*finding.Folder{folderOf("docs", 2, differs), folderOf("pics", 2, differs)}},
			"not settled: StoreDiffers docs b on 1"},
		{"the reason that is told first", finding.Answer{Folders: []*finding.Folder{folderOf("docs", 2, differs), folderOf("pics", 2, unwon)}},
			"not settled: NotWinner pics z"},
	}
	for _, one := range cases {
		if verdict := Verdict(&one.answer, false); verdict != one.verdict {
			t.Errorf("%s: %q, not %q", one.why, verdict, one.verdict)
		}
		due := one.verdict // what wasn't read again is no comfort, and what is wrong now comes first
		if !strings.HasPrefix(due, "not settled: ") {
			due = "not settled, as found before and not read again"
		}
		if verdict := Verdict(&one.answer, true); verdict != due {
			t.Errorf("%s, not read again: %q, not %q", one.why, verdict, due)
		}
	}
}

func TestRefusals(t *testing.T) {
	var written strings.Builder
	Refusals(&written, &finding.Answer{Refusals: []finding.Refusal{
		{Kind: "absent", Folder: "docs", Label: "My Documents", Device: "phone", Why: "no part of it is given"},
		{Kind: "special", Folder: "docs", Device: "laptop (ABCDEFG)", Name: "-a `b` $c", Why: "it is a fifo"},
		{Folder: "docs", Why: "too many"},
	}, Unlisted: map[string]int64{"special": 4, "ignored": 5}})
	const expected = `syncthing-audit: refused: folder docs (My Documents), device phone: no part of it is given
syncthing-audit: refused: folder docs, device laptop (ABCDEFG), name './-a ` + "`b`" + ` $c': it is a fifo
syncthing-audit: refused: folder docs: too many
syncthing-audit: refused: 5 more of the kind ignored
syncthing-audit: refused: 4 more of the kind special
syncthing-audit: 12 refused; --leave-out absent,special,ignored leaves them out
`
	if written.String() != expected {
		t.Errorf("%s\nnot\n%s", written.String(), expected)
	}
}

// A directory that one device ignores doesn't push everything else off the screen: of what is alike, the first names are
// told, and the others counted. Another kind, another device and what is refused of no name is told all the same.
func TestManyRefusalsAlike(t *testing.T) {
	all := []finding.Refusal{}
	for number := 0; number < 40; number++ {
		all = append(all, finding.Refusal{Kind: "ignored", Folder: "docs", Device: "nas", Name: fmt.Sprintf("tax/%02d", number), Why: "it is ignored"})
		all = append(all, finding.Refusal{Folder: "docs", Device: "nas", Why: "too many"})
	}
	all = append(all, finding.Refusal{Kind: "unreadable", Folder: "docs", Device: "nas", Name: "z", Why: "it can't be read"},
		finding.Refusal{Kind: "ignored", Folder: "docs", Device: "laptop", Name: "z", Why: "it is ignored"})
	var written strings.Builder
	Refusals(&written, &finding.Answer{Refusals: all})
	for text, count := range map[string]int{"name tax/": mostAlike, ": too many\n": 40, "nas, name z: it can't": 1, "laptop, name z": 1,
		"refused: folder docs, device nas: 35 more of the kind ignored\n": 1, "82 refused; --leave-out ignored,unreadable": 1, "\n": mostAlike + 44} {
		if found := strings.Count(written.String(), text); found != count {
			t.Errorf("%q: %d, not %d:\n%s", text, found, count, written.String())
		}
	}
}

// The lines say why an answer about folders that devices share with nobody is one as far as audited.
func TestLinesOfFoldersThatAreNotShared(t *testing.T) {
	for id, expected := range map[string]string{
		"pics":    "\nnot shared with one another: folder pics on 1\nnot shared with one another: folder pics on 1\n",
		"default": "\nnot shared: folder default on 1\nnot shared: folder default on 1\n",
	} {
		var written strings.Builder
		Lines(&written, &finding.Answer{Folders: []*finding.Folder{ownFolder(id), otherOwn(id)}}, nil)
		if !strings.Contains(written.String(), expected) {
			t.Errorf("%s: %q has no %q", id, written.String(), expected)
		}
	}
}

func TestLines(t *testing.T) {
	folder := folderOf("docs", 2)
	folder.Unwon.Add(finding.Unwon{Name: "new file", At: []finding.Cause{{Member: 1, Kind: finding.Unscanned}}})
	folder.Permissions.Add(finding.Permissions{Name: "a", At: []finding.Bits{{Has: true, Index: 0o644, OnDisk: true, Disk: 0o600}, {}}})
	folder.LeftOut = []*finding.LeftOut{{Name: "odd\xff", Names: 1, Bytes: 3, Why: []finding.Reason{{Device: folder.Members[0].Head.Device, Kind: part.OddName, Why: "not UTF-8"}}}}
	folder.Unlisted.LeftOut = finding.Count{Names: 1, Bytes: 9}
	folder.Outside = finding.Count{Names: 1, Bytes: 7}
	var written strings.Builder
	Lines(&written, &finding.Answer{Folders: []*finding.Folder{folder}}, nil)
	const expected = `not settled: NotWinner docs new\x20file
folder docs: 2 names, 0 deleted, 2 devices
NotWinner docs new\x20file
no winner: docs new\x20file on 2: unscanned
permissions: docs a 1 index 0644 disk 0600
left out: docs odd\xff on 1: not UTF-8 (names, 1 names, 3 bytes)
left out: docs 1 names more, 9 bytes, which aren't listed
ignored: docs 1 names, 7 bytes, on no device's index
`
	if written.String() != expected {
		t.Errorf("%s\nnot\n%s", written.String(), expected)
	}
}

// Of a folder that is settled it is told whether it is firm; if not, all that keeps it from that, in the order of reasons.
func TestLinesOnFirmness(t *testing.T) {
	isFirm, isnt := folderOf("docs", 2), folderOf("music", 2)
	isnt.NotFirm = &finding.Failure{Reason: finding.VersionDiffers, Name: "b c", Device: 2}
	isnt.Loose.Add(finding.Loose{Name: "a", At: []finding.LooseAt{{Member: 0, Reason: finding.ViewNotBelow}}})
	isnt.Loose.Add(finding.Loose{Name: "b c", At: []finding.LooseAt{{Member: 1, Reason: finding.VersionDiffers}, {Member: 0, Reason: finding.ViewNotBelow}}})
	unsettled := folderOf("text", 2, finding.Failure{Reason: "StoreDiffers", Name: "b", Device: 1})
	var written strings.Builder
	Lines(&written, &finding.Answer{Folders: []*finding.Folder{isFirm, isnt, unsettled}}, nil)
	const expected = `not settled: StoreDiffers text b on 1
folder docs: 2 names, 0 deleted, 2 devices
folder music: 2 names, 0 deleted, 2 devices
folder text: 2 names, 0 deleted, 2 devices
StoreDiffers text b on 1
firm: docs
not firm: VersionDiffers music b\x20c on 2
not firm: ViewNotBelow music a on 1
not firm: ViewNotBelow music b\x20c on 1
not known to converge: text
`
	if written.String() != expected {
		t.Errorf("%s\nnot\n%s", written.String(), expected)
	}
}

// Which folders of the devices weren't audited is told; without --folder that isn't settled.
func TestLinesOfOtherFolders(t *testing.T) {
	answer := &finding.Answer{Folders: []*finding.Folder{folderOf("docs", 2)}, Devices: []finding.Device{{Number: 1, Name: "laptop", IsSilent: true},
		{Number: 2, Name: "my server", Unasked: []finding.Unasked{{ID: "music", Label: "My music"}}}}}
	for _, verdict := range []string{"settled as far as audited", "settled"} {
		var written strings.Builder
		Lines(&written, answer, nil)
		if written.String() != verdict+"\nfolder docs: 2 names, 0 deleted, 2 devices\nfirm: docs\nnot told: other folders of 1\nnot asked for: folder music on 2\n"+
			"device 1: laptop\ndevice 2: my\\x20server\n" {
			t.Errorf("%s", written.String())
		}
		answer.IsByName = true
	}
}

// Parts that were made with --names or --slice have no others. Who answers without it didn't choose these, so that isn't settled.
func TestLinesOfOtherNames(t *testing.T) {
	const begun, sliced = "not asked for: names of docs that don't begin with a\\x20b\n", "not asked for: names of docs outside slice 3 of 7\n"
	for told, asked := range map[string]choice.Names{begun: {Prefix: "a b"}, sliced: {Slice: 3, Slices: 7}, begun + sliced: {Prefix: "a b", Slice: 3, Slices: 7}} {
		folder := folderOf("docs", 2)
		for _, one := range folder.Members {
			one.Head.Names = asked
		}
		answer := &finding.Answer{Folders: []*finding.Folder{folder}}
		for _, verdict := range []string{"settled as far as audited", "settled"} {
			var written strings.Builder
			Lines(&written, answer, nil)
			if written.String() != verdict+"\nfolder docs: 2 names, 0 deleted, 2 devices\nfirm: docs\n"+told {
				t.Errorf("%s", written.String())
			}
			answer.ByNames = true
		}
	}
}

// What was in motion while running devices were looked at isn't called settled.
func TestLinesOfRunningDevices(t *testing.T) {
	folder := folderOf("docs", 2)
	ids := []string{folder.Members[0].Head.Device, folder.Members[1].Head.Device}
	folder.Live = &finding.Live{Moving: 2, Names: []finding.Moving{{Name: "a b", At: []finding.Moved{
		{Device: ids[0], Why: []string{part.MovedRecord, part.MovedDisk}}, {Device: ids[1], Why: []string{part.MovedViews}}}}},
		Unheard: []finding.Unheard{{Device: ids[1], Of: ids[0], Names: 4}}}
	folder.Live.SetStill(312500 * time.Millisecond)
	var written strings.Builder
	Lines(&written, &finding.Answer{Folders: []*finding.Folder{folder}}, nil)
	const expected = `settled as far as audited
folder docs: 2 names, 0 deleted, 2 devices
firm: docs
still: docs 312.500 s, in motion: 2 names
in motion: docs a\x20b on 1: record, disk
in motion: docs a\x20b on 2: views
in motion: docs and 1 names more
not heard of: docs on 2 of 1: 4 names
`
	if written.String() != expected {
		t.Errorf("%s\nnot\n%s", written.String(), expected)
	}
	folder.Live = &finding.Live{}
	if verdict := Verdict(&finding.Answer{Folders: []*finding.Folder{folder}}, false); verdict != "settled" {
		t.Errorf("all still: %s", verdict)
	}
}

// An index that may be an old one has a line with its times, whatever the verdict is.
func TestLineOfAnIndexThatMayBeOld(t *testing.T) {
	var written strings.Builder
	old := &part.Index{Written: time.Unix(1600000000, 0), Configured: time.Unix(1600000060, 0)}
	Lines(&written, &finding.Answer{Folders: []*finding.Folder{folderOf("docs", 2)}, Devices: []finding.Device{{Number: 1}, {Number: 2, Index: old}}}, nil)
	var refused strings.Builder
	Refusals(&refused, &finding.Answer{Devices: []finding.Device{{ID: "A"}, {ID: "B", Index: old}}, Refusals: []finding.Refusal{{Folder: "docs", Why: "odd"}}})
	if !strings.HasSuffix(refused.String(), "syncthing-audit: maybe an old index: device B, written 2020-09-13T12:26:40Z, before config.xml was changed "+
		"2020-09-13T12:27:40Z. Where Syncthing has its database elsewhere, name it as --data DIR\n") || strings.Contains(refused.String(), "device A") {
		t.Error(refused.String())
	}
	const told = "\nmaybe an old index: on 2, written 2020-09-13T12:26:40Z, before config.xml was changed 2020-09-13T12:27:40Z\n"
	if !strings.HasPrefix(written.String(), "settled\n") || strings.Count(written.String(), "maybe an old") != 1 || !strings.HasSuffix(written.String(), told) {
		t.Error(written.String())
	}
}

// So has one beside which a newer one stands.
func TestLineOfANewerIndex(t *testing.T) {
	var written, refused strings.Builder
	newer := &part.Newer{Path: "/srv/a b", Read: time.Unix(1600000000, 0), Written: time.Unix(1600000060, 0)}
	Lines(&written, &finding.Answer{Folders: []*finding.Folder{folderOf("docs", 2)}, Devices: []finding.Device{{Number: 1}, {Number: 2, Newer: newer}}}, nil)
	Refusals(&refused, &finding.Answer{Devices: []finding.Device{{ID: "A"}, {ID: "B", Newer: newer}}, Refusals: []finding.Refusal{{Folder: "docs", Why: "odd"}}})
	const told = "written 2020-09-13T12:26:40Z, before '/srv/a b' was written 2020-09-13T12:27:40Z"
	if strings.Count(written.String(), "maybe an old") != 1 || !strings.HasSuffix(written.String(), "\nmaybe an old index: on 2, "+told+"\n") {
		t.Error(written.String())
	}
	if strings.Count(refused.String(), "maybe an old") != 1 || !strings.Contains(refused.String(), "maybe an old index: device B, "+told+". If Syncthing has its database there now") {
		t.Error(refused.String())
	}
}

// So has each device on which times are taken for the same.
func TestLineOfNearTimes(t *testing.T) {
	var written strings.Builder
	folder := folderOf("docs", 2)
	folder.Members[1].About, folder.Members[1].Near = &part.Folder{TimeWindow: 3}, 1
	Lines(&written, &finding.Answer{Folders: []*finding.Folder{folder}}, nil)
	if !strings.HasSuffix(written.String(), "\ntimes taken for the same: docs 1 files on 2, by less than 3 s\n") || strings.Count(written.String(), "times") != 1 {
		t.Error(written.String())
	}
}

// So has each device with names that Syncthing takes for its temporary files.
func TestLineOfTemporaryNames(t *testing.T) {
	var written strings.Builder
	folder := folderOf("docs", 2)
	folder.Members[0].Temporary, folder.Members[1].Temporary = &part.Count{}, &part.Count{Names: 1, Bytes: 9}
	Lines(&written, &finding.Answer{Folders: []*finding.Folder{folder}}, nil)
	if !strings.HasSuffix(written.String(), "\ntemporary: docs 1 names, 9 bytes on 2\n") || strings.Count(written.String(), "temporary") != 1 {
		t.Error(written.String())
	}
}

// And so has each index that Syncthing is to repair, also where the answer is a refusal.
func TestLineOfAnIndexThatIsToBeRepaired(t *testing.T) {
	devices := []finding.Device{{ID: "A", Number: 1}, {ID: "B", Number: 2, ToRepair: true}}
	var written, refused strings.Builder
	Lines(&written, &finding.Answer{Folders: []*finding.Folder{folderOf("docs", 2)}, Devices: devices}, nil)
	Refusals(&refused, &finding.Answer{Devices: devices, Refusals: []finding.Refusal{{Folder: "docs", Why: "odd"}}})
	for text, told := range map[string]string{written.String(): "\nto be repaired: the index on 2\n",
		refused.String(): "\nsyncthing-audit: to be repaired: the index of device B. Start Syncthing there, and let it finish\n"} {
		if !strings.HasSuffix(text, told) || strings.Count(text, "repaired") != 1 {
			t.Error(text)
		}
	}
}
