package audit

import (
	"reflect"
	"strings"
	"testing"
	"time"

	"syncthing-audit/finding"
	"syncthing-audit/join"
	"syncthing-audit/part"
)

// Where all names are in motion nobody is told to look again without a word of what is missing or emptied, and of who has it.
func TestNothingIsStillTellsWhatNoScanHasSeen(t *testing.T) {
	folder := &finding.Folder{ID: "docs", Live: finding.NewLive()}
	for _, name := range []string{"laptop", "server"} {
		head := &part.Head{Name: name, Device: strings.ToUpper(name) + "-REST", Folders: []part.Folder{{ID: "docs", Kind: "send-receive"}}}
		folder.Members = append(folder.Members, join.Member{Device: &join.Device{Head: head}, About: &head.Folders[0]})
	}
	if told := nothingIsStill(2, []*finding.Folder{folder, {ID: "other"}}).Error(); told != "refused: there is nothing to audit: all of 2 names are in motion: look again" {
		t.Error(told)
	}
	for _, at := range []*part.Name{{Own: &part.Record{Content: &part.Content{Size: 9}}, Disk: &part.Node{}}, {Own: record}} {
		folder.Live.AddMoving(finding.Moving{At: []finding.Moved{{Device: "SERVER-REST", Waits: finding.KindOfWaiting(at), Have: []string{"LAPTOP-REST"}}}})
	}
	const want = "look again. Before that, on server (SERVER-): no scan of folder docs has seen 1 missing, 1 emptied there. A scan may delete that on all devices, or send it to them, " +
		"so first copy back what is to stay as it is recorded (2 on laptop (LAPTOP-))"
	if told := nothingIsStill(2, []*finding.Folder{folder}).Error(); !strings.HasSuffix(told, want) {
		t.Error(told)
	}
	folder.Members[1].About.Kind = receiveOnly
	if told := nothingIsStill(2, []*finding.Folder{folder}).Error(); !strings.HasSuffix(told, "look again") {
		t.Error(told)
	}
}

const receiveOnly = "receive-only"

// A folder is told as one whose devices were looked at twice, with how long it was still, as far as that is known; as one of parts of other moments; or as
// neither.
func TestWhatIsToldOfLooks(t *testing.T) {
	second := time.Unix(100, 0)
	still := func(seconds int64) *finding.Live {
		live := finding.NewLive()
		live.SetStill(time.Duration(seconds) * time.Second)
		return live
	}
	for _, one := range []struct {
		looks []*part.Look
		is    *finding.Live
	}{
		{[]*part.Look{nil, nil}, nil},
		{[]*part.Look{{At: second, Ended: second.Add(30 * time.Second)}, nil}, still(30)},
		{[]*part.Look{{At: second, Ended: second.Add(30 * time.Second)}, {At: second.Add(time.Second), Ended: second.Add(20 * time.Second)}}, still(19)},
		{[]*part.Look{{At: second, Ended: second.Add(-time.Second)}, nil}, finding.NewLive()},
	} {
		folder := &join.Folder{ID: "docs"}
		for _, look := range one.looks {
			folder.Members = append(folder.Members, join.Member{Device: &join.Device{Head: &part.Head{Look: look}}, About: &part.Folder{}})
		}
		if is := liveOf(folder); !reflect.DeepEqual(is, one.is) {
			t.Errorf("%+v, not %+v", is, one.is)
		}
	}
}

// A part of an earlier moment is told as one of parts, and not of looks.
func TestWhatIsToldOfPartsOfOtherMoments(t *testing.T) {
	plan := planWith(t, nil, nil, func(head *part.Head) { head.Folders[0].Max = 8 }) // each knows of the other's change 9
	if is := liveOf(plan.Folders[0]); is == nil || !is.OfParts || is.Seconds != nil {
		t.Errorf("%+v", is)
	}
}

// A name that changed after a device's part was made is in motion there, and nothing is told of where it is as it was.
func TestWhatChangedAfterAPart(t *testing.T) {
	next := namesOf()
	next.found.Live = &finding.Live{OfParts: true}
	row := rowOf(with(), with())
	row.Later = []int{1}
	next.addMoving(row)
	if at := next.found.Live.Names[0].At; !reflect.DeepEqual(at, []finding.Moved{{Device: "B", Why: []string{part.MovedLater}}}) {
		t.Errorf("%+v", at)
	}
}
