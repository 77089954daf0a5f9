package summary

import (
	"math/rand"
	"reflect"
	"regexp"
	"sort"
	"strings"
	"testing"

	"github.com/syncthing/syncthing/lib/protocol"
	"golang.org/x/exp/slices"
	"syncthing-audit/damage"
	"syncthing-audit/finding"
	"syncthing-audit/forecast"
	"syncthing-audit/forecast/read"
	"syncthing-audit/join"
	"syncthing-audit/outlook"
	"syncthing-audit/part"
	"syncthing-audit/print"
)

// ignoring is a device that sends and receives, and ignores deletions.
const ignoring = "ignoring"

// foretellAll has an answer of rows say what happens if nobody does anything: all of its devices run 1.29.5 and share the folder. More is configured of it by these.
func foretellAll(answer *finding.Answer, configure ...func(*finding.Folder)) {
	shareAll(answer)
	for _, folder := range answer.Folders {
		for _, change := range configure {
			change(folder)
		}
		rows, names := read.NewRows(&join.Folder{ID: folder.ID, Members: folder.Members}), []string{}
		for name := range folder.Rows {
			names = append(names, name)
		}
		sort.Strings(names)
		for _, name := range names {
			for _, at := range folder.Rows[name].At {
				if at != nil {
					at.Name = part.Bytes(name)
				}
			}
			rows.Take(folder.Rows[name])
		}
		folder.Outlook = outlook.NewForeteller(forecast.Budget{States: 300, Walks: 4, Total: 100000}, later*1e9).Of(rows)
	}
}

// shareAll has all devices of an answer run 1.29.5 and share the folder, under ids of Syncthing.
func shareAll(answer *finding.Answer) {
	for _, folder := range answer.Folders {
		for _, member := range folder.Members {
			id := protocol.DeviceID{7: byte(member.Number)}.String()
			for place := range answer.Devices {
				if answer.Devices[place].ID == member.Head.Device {
					answer.Devices[place].ID = id
				}
			}
			member.Head.Device = id
		}
		for _, member := range folder.Members {
			member.Head.Runs, member.About.Options, member.About.Sharing = "v1.29.5", &part.Options{MaxConflicts: 10, Versions: &part.Versions{Kind: part.VersionsNone}}, nil
			for _, other := range folder.Members {
				if other.Head != member.Head {
					member.About.Sharing = append(member.About.Sharing, part.Sharing{Device: other.Head.Device})
				}
			}
		}
	}
}

func minuteBefore(at *part.Name) {
	at.Own.ModifiedS, at.Disk.ModifiedS = at.Own.ModifiedS-60, at.Disk.ModifiedS-60
}

// foretoldSo are cases with all that an entry says of what happens and what to do.
var foretoldSo = []struct {
	why     string
	row     []*part.Name
	reasons []string
	kind    string // of the server
	has     []string
	hasnt   string
}{
	{"missing", []*part.Name{file(1, 1), with(file(1, 1), absent)}, []string{"StoreDiffers 2"}, "send-receive",
		[]string{"if nothing is done: no device has it then; what laptop has now goes, and laptop keeps no old versions.", "then all devices have what laptop has now", "to do: take the steps for it above, under 'to do in'. not"}, "isn't known"},
	{"missing everywhere", []*part.Name{with(file(1, 1), absent), with(file(1, 1), absent)}, []string{"StoreDiffers 1", "StoreDiffers 2"}, "send-receive",
		[]string{"1 name takes a change that no scan has seen yet", "if nothing is done: no device has it then.", "to do: look among old versions and backups: no audited device has what is recorded. not"}, "let Syncthing run"},
	{"rot", []*part.Name{file(1, 1), with(file(1, 1), rotten)}, []string{"StoreDiffers 2"}, "send-receive",
		[]string{"if nothing is done: laptop keeps what it has; server keeps what it has (server: it has other bytes than recorded", "to do: take the steps for it above"}, "to have again"},
	{"changed", []*part.Name{file(1, 1), changedTo(7)}, []string{"StoreDiffers 2"}, "send-receive",
		[]string{"if nothing is done: all devices then have what server has now; what laptop has now goes.", "to do: nothing, if the change is wanted.",
			"to have again what server recorded, copy elsewhere what stands there, if it may be right, and copy it from laptop to server with its time alone"}, "isn't known"},
	{"changed to an older file", []*part.Name{file(1, 1), olderThanRecorded(7)}, []string{"StoreDiffers 2"}, "send-receive",
		[]string{"first, on server: 1 file is older than recorded, as after a backup was put back. A scan sends the older bytes to all devices", "if nothing is done: all devices then have what server has now; what laptop has now goes.",
			"server: changed on the disk since the last scan: older than recorded, as after a backup was put back (modified 2020-09-13 12:25:40 UTC, recorded as modified 2020-09-13 12:26:40 UTC)",
			"to do: nothing, if the older file is wanted on all devices. to do: to have again what server recorded"}, "if the change is wanted"},
	{"a receive-only device with an older file", []*part.Name{file(1, 1), olderThanRecorded(7)}, []string{"StoreDiffers 2"}, "receive-only",
		[]string{"older than recorded, as after a backup was put back (modified"}, "first, on server"},
	{"emptied", []*part.Name{file(1, 1), with(file(1, 1), afterwards(emptied))}, []string{"StoreDiffers 2"}, "send-receive",
		[]string{"looks damaged", "if nothing is done: all devices then have what server has now", "to do: take the steps for it above, under 'to do in'. not"}, "if the change is wanted"},
	{"behind", []*part.Name{file(2, 2), with(file(1, 1), minuteBefore)}, []string{"RecordDiffers 2", "StoreDiffers 2"}, "send-receive",
		[]string{"if nothing is done: all devices then have what laptop has now; what server has now goes.", "to do: nothing: let Syncthing run on all of these devices until it is idle",
			"if not, see whether a device or the folder is paused"}, "isn't known"},
	{"behind with other bytes under the time of its own", []*part.Name{file(2, 2), file(1, 1)}, []string{"RecordDiffers 2", "StoreDiffers 2"}, "send-receive",
		[]string{"1 name loses something that a disk has now", "1. on server: copy it elsewhere, if it is to stay", "to do: take the steps for it above, under 'to do in', which save what is to stay. to do: to have again what server has now: put"},
		"let Syncthing run"},
	{"deleted", []*part.Name{with(with(file(2, 2), again), absent), file(1, 1)}, []string{"RecordDiffers 2", "StoreDiffers 2"}, "send-receive",
		[]string{"to do: nothing, if it may go. If not, copy it elsewhere before Syncthing starts on any of these devices"}, "isn't known"},
	{"deleted, and the device ignores deletions", []*part.Name{with(with(file(2, 2), again), absent), file(1, 1)}, []string{"RecordDiffers 2", "StoreDiffers 2"}, ignoring,
		[]string{"1 name on server: by the folder's option 'ignoreDelete' it takes no deletions", "to do: nothing, if server is to keep what others delete. If it is to go there, too, delete it there; or set the folder's option 'ignoreDelete' to false there"},
		"copy elsewhere what is to stay"},
	{"behind on a device that only sends", []*part.Name{file(2, 2), file(1, 1)}, []string{"RecordDiffers 2", "StoreDiffers 2"}, sendOnly,
		[]string{"to choose in docs (Documents) on server", "server keeps what it has (server: it only sends", "to do: choose for the whole folder what stands above"}, "to do: nothing"},
	{"a local change", []*part.Name{file(1, 1), local(file(2, 2), onFirst...)}, []string{"LocalOnly 2"}, receiveOnly,
		[]string{"'Revert Local Changes', once Syncthing has scanned", "(server: it only receives, and keeps its own change)", "to do: choose for the whole folder"}, "to do: nothing"},
}

// An entry says what happens if nothing is done as it is foretold, and what to do by the steps that were found.
func TestAnEntrySaysWhatIsForetold(t *testing.T) {
	for _, row := range foretoldSo {
		answer := answerOf(2, func(folder *finding.Folder) {
			folder.Members[1].About.Kind = row.kind
			if row.kind == ignoring {
				folder.Members[1].About.Kind = "send-receive"
			}
			fails(folder, "a", row.row, row.reasons...)
		})
		foretellAll(answer, func(folder *finding.Folder) { folder.Members[1].About.Options.IgnoresDeletions = row.kind == ignoring })
		text := printed(answer)
		for _, has := range row.has {
			if !strings.Contains(text, has) {
				t.Errorf("%s: %q isn't in %s", row.why, has, text)
			}
		}
		if strings.Contains(text, row.hasnt) {
			t.Errorf("%s: %q is in %s", row.why, row.hasnt, text)
		}
	}
}

// What looks damaged is to be saved and put back where no steps do it, whatever comes of it: one of other devices may have taken a deletion of it.
func TestWhatLooksDamagedIsNeverLeft(t *testing.T) {
	state := &State{Type: "file", Size: 5}
	for _, fate := range outlook.Fates {
		file := &File{Faults: []*Fault{{Device: server, Cause: Changed, Damage: damage.Cut, Recorded: state, Found: state, sources: []string{laptop}}}, foretold: foretold{fate: &outlook.Name{Fate: fate}}}
		is := adviceOf(file, unnamed)
		if len(is) != 2 || !strings.HasPrefix(is[0], "before Syncthing starts or scans on any of these devices, copy elsewhere") || !strings.HasPrefix(is[1], "to have again what") {
			t.Errorf("%s: %q", fate, is)
		}
	}
}

// A name that loses something, and whose steps aren't listed, is to be saved: nobody is told to let Syncthing run. Of others nothing is put back.
func TestWhatIsLostWithoutSteps(t *testing.T) {
	state := &State{Type: "file", Size: 5}
	for fate, told := range map[outlook.Fate]string{outlook.Lost: "before Syncthing starts or scans on any of these devices, copy elsewhere what is to stay",
		outlook.Depends: "nothing: let Syncthing run", outlook.ByItself: "nothing: let Syncthing run"} {
		file := &File{Faults: []*Fault{{Device: server, Cause: Changed, Recorded: state, Found: state, sources: []string{laptop}}}, foretold: foretold{fate: &outlook.Name{Fate: fate}}}
		if is := adviceOf(file, unnamed); len(is) != 1 || !strings.HasPrefix(is[0], told) {
			t.Errorf("%s: %q", fate, is)
		}
		file.foretold.hasSteps = true
		if is := adviceOf(file, unnamed); fate != outlook.Lost && !reflect.DeepEqual(is, []string{"nothing but the start with which the steps above end"}) {
			t.Errorf("%s: %q", fate, is)
		}
	}
}

// Who has a device on Windows is told that it can't have some names.
func TestANameThatWindowsCannotHave(t *testing.T) {
	state := &State{Type: "file", Size: 5}
	file := &File{Faults: []*Fault{{Device: server, Cause: Missing, Recorded: state, sources: []string{laptop}}},
		foretold: foretold{fate: &outlook.Name{Fate: outlook.Stays, Kept: []outlook.Kept{{Device: server, Why: forecast.InvalidName}}}}}
	if is := adviceOf(file, unnamed); len(is) != 1 || !strings.HasPrefix(is[0], "if all are to have it, rename it on a device that has it: Windows has no name with one of < > ") {
		t.Errorf("%q", is)
	}
}

// What a device may run isn't seen over the wire: a name that hasn't come there may be one that Windows can't have.
func TestANameThatDoesNotComeOverTheWire(t *testing.T) {
	state := &State{Type: "file", Size: 5}
	for name, is := range map[string]bool{"a:b": true, "a": false} {
		for _, isOverWire := range []bool{true, false} {
			for _, recorded := range []*State{nil, state} {
				fault := &Fault{Device: server, Cause: Behind, Due: state, Recorded: recorded, isOverWire: isOverWire}
				file := &File{Faults: []*Fault{fault}, isOfWindows: join.IsOfWindows(name)}
				told := strings.Join(adviceOf(file, unnamed), " ")
				if strings.Contains(told, "runs Windows, rename it on a device that has it") != (is && isOverWire && recorded == nil) {
					t.Errorf("%s, over the wire %v, recorded %v: %q", name, isOverWire, recorded, told)
				}
			}
		}
	}
}

const sendOnly = "send-only"

// putBack is what gives a device back what it recorded.
var putBack = regexp.MustCompile(`to have again what (\w+) recorded, (?:copy elsewhere what stands there, if it may be right, and )?copy it from (\w+) to (\w+) `)

// Each entry of random names says what happens or why that isn't known; what may be lost has steps, or is to be saved; and from where a device gets back what
// it recorded, that stands.
func TestEntriesOfRandomNames(t *testing.T) {
	known, unknown, copied := 0, 0, 0
	for seed := int64(1); seed <= manyWorlds; seed++ {
		random := rand.New(rand.NewSource(seed))
		all := randomWorld(random)
		all.rows["a"] = all.randomName(random)
		answer := all.answer()
		if seed%4 > 0 {
			foretellAll(answer)
		}
		row, folder := answer.Folders[0].Rows["a"], answer.Folders[0]
		summary := Of(answer)
		for _, file := range summary.Folders[0].Files {
			text := strings.Join(file.Advice, " ")
			switch {
			case len(file.Faults) == 0:
			case file.foretold.isKnown():
				known++
				if file.Foretold == "" || file.foretold.is(outlook.Lost) && !strings.Contains(text, "the steps for it above") {
					t.Errorf("seed %d: %s\n%s\n%s", seed, file.Foretold, text, rowText(row))
				}
			default:
				unknown++
				if !strings.HasPrefix(file.Foretold, "it isn't known what happens: ") {
					t.Errorf("seed %d: %s", seed, file.Foretold)
				}
			}
			for _, found := range putBack.FindAllStringSubmatch(text, -1) {
				from, to := placeOf(folder, summary.Called(), found[2]), placeOf(folder, summary.Called(), found[3])
				if own := row.At[to].Own; own != nil && own.Content != nil && found[1] == found[3] {
					copied++
					if row.At[from] == nil || row.At[from].Disk == nil || !slices.Contains(row.At[from].Disk.Contents, *own.Content) {
						t.Errorf("seed %d: %s doesn't have what %s recorded: %s\n%s", seed, found[2], found[1], found[0], rowText(row))
					}
				}
			}
		}
		if t.Failed() {
			return
		}
	}
	if known < 100 || unknown < 50 || copied < 10 {
		t.Errorf("%d names are known, %d aren't, %d copies: too few", known, unknown, copied)
	}
}

// placeOf gives the place of the device that is called so.
func placeOf(folder *finding.Folder, named print.Names, called string) int {
	return slices.IndexFunc(folder.Members, func(member join.Member) bool { return named(member.Head.Device) == called })
}
