package summary

import (
	"strings"
	"testing"
	"time"

	"github.com/syncthing/syncthing/lib/protocol"
	"syncthing-audit/damage"
	"syncthing-audit/finding"
	"syncthing-audit/join"
	"syncthing-audit/part"
)

// answerOverWire gives an answer on a folder of two devices in step, which were asked over the wire.
func answerOverWire(isOfRecords bool) *finding.Answer {
	folder := &finding.Folder{ID: "docs", Names: 5, Rows: map[string]*join.Row{}}
	answer := &finding.Answer{Folders: []*finding.Folder{folder}, IsByName: true}
	for place := byte(1); place <= 2; place++ {
		id := protocol.DeviceID{7: place}.String()
		head := &part.Head{Device: id, Name: string('a' + rune(place) - 1), Wire: part.NewWire(protocol.DeviceID{7: 9}.String(), isOfRecords)}
		member := join.Member{Device: join.NewDevice(headed{head}, id), About: &part.Folder{ID: "docs", Kind: "send-receive"}, Unseen: join.Unseen{Standing: 2}}
		if isOfRecords {
			member.Unseen.Unread = 3
		}
		folder.Members = append(folder.Members, member)
		answer.Devices = append(answer.Devices, finding.Device{ID: id, Name: head.Name, IsSilent: true, OverWire: true})
	}
	return answer
}

// headed is a part with a head alone.
type headed struct{ head *part.Head }

func (h headed) Head() *part.Head         { return h.head }
func (h headed) Next() (part.Line, error) { panic("it has no lines") }

// A device that was asked over the wire has told nothing of other folders for that reason, whether or not it is in one that was audited.
func TestADeviceOfNoFolderWasAskedOverTheWire(t *testing.T) {
	answer := answerOverWire(false)
	answer.Folders[0].Members = answer.Folders[0].Members[:1]
	overWire, older := Of(answer).notToldOverWire()
	if len(overWire) != 2 || len(older) != 0 {
		t.Errorf("%v were asked over the wire, and %v have older parts", overWire, older)
	}
}

// The best answer over the wire is 'as far as seen', never firm; it says what isn't seen, with counts.
func TestInStepOverTheWire(t *testing.T) {
	for _, isOfRecords := range []bool{false, true} {
		answer := answerOverWire(isOfRecords)
		if !answer.IsPartial() || answer.HowFirm() != finding.NotKnown {
			t.Errorf("%v, %s", answer.IsPartial(), answer.HowFirm())
		}
		var told strings.Builder
		Of(answer).Print(&told, time.UTC, time.Now())
		text := strings.Join(strings.Fields(told.String()), " ")
		for _, has := range []string{"docs: in step as far as seen over the wire, not known to be firm; ", "what stands where 2 directories and symlinks are recorded",
			"not told: which other folders a, b may share; over the wire"} {
			if !strings.Contains(text, has) {
				t.Errorf("%q isn't in %s", has, text)
			}
		}
		if strings.Contains(text, "the bytes of 3 files") != isOfRecords {
			t.Error(text)
		}
	}
}

// Other bytes of the recorded size may be an edit, since the time isn't seen: the advice begins with a look at it.
func TestOtherBytesOverTheWire(t *testing.T) {
	for _, isOverWire := range []bool{false, true} {
		fault := Fault{Cause: OtherBytes, isOverWire: isOverWire, Kind: "send-receive"}
		if told := fault.whetherEdit(&File{}, unnamed); (told == "") == isOverWire {
			t.Errorf("%v: %s", isOverWire, told)
		}
		words := wordsOfFaults([]*Fault{&fault}, false)
		if strings.Contains(words, "an edit that no scan has taken") != isOverWire || strings.Contains(words, "time are as recorded") == isOverWire {
			t.Error(words)
		}
	}
}

// Nor is it said of a file that was cut short, or is longer, that this is under the recorded time; a device whose disks are seen shows that.
func TestNoTimeOfADiskIsToldOverTheWire(t *testing.T) {
	at := time.Unix(1600000000, 0)
	for _, kind := range []damage.Kind{damage.Cut, damage.Longer} {
		for _, isOverWire := range []bool{false, true} {
			fault := Fault{Cause: Changed, Damage: kind, isOverWire: isOverWire, Recorded: &State{Type: "file", Size: 5, Modified: &at}, Found: &State{Type: "file", Size: 4, Modified: &at}}
			p := printerOf(nil, nil)
			told := wordsOfFaults([]*Fault{&fault}, false) + p.since(&fault)
			if strings.Contains(told, "under the recorded time") == isOverWire || strings.Contains(told, "(recorded as modified ") != isOverWire {
				t.Error(told)
			}
		}
	}
}

// Of a device that is behind, the time of what is due is told, over the wire, too.
func TestWhatIsDueHasItsTimeOverTheWire(t *testing.T) {
	at, later := time.Unix(1600000000, 0), time.Unix(1700000000, 0)
	state := func(at *time.Time) *State { return &State{Type: "file", Size: 5, Modified: at} }
	for _, isOverWire := range []bool{false, true} {
		fault := Fault{Cause: Behind, isOverWire: isOverWire, Recorded: state(&at), Found: state(&at), Due: state(&later)}
		if told := printerOf(nil, nil).since(&fault); told != " (modified 2023-11-14 22:13:20 UTC)" {
			t.Errorf("over the wire %v:%s", isOverWire, told)
		}
	}
}
