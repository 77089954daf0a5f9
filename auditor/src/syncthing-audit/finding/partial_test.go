package finding

import (
	"encoding/json"
	"fmt"
	"math/rand"
	"reflect"
	"sort"
	"strings"
	"testing"

	"syncthing-audit/choice"
	"syncthing-audit/damage"
	"syncthing-audit/join"
	"syncthing-audit/part"
)

// wholeAnswer gives an answer on two devices' folder of which all was audited.
func wholeAnswer() *Answer {
	folder := &Folder{ID: "docs", Live: &Live{}}
	for number := uint64(1); number <= 2; number++ {
		folder.Members = append(folder.Members, join.Member{Device: &join.Device{Number: number, Head: &part.Head{Device: fmt.Sprint(number)}}, About: &part.Folder{}, Linked: &part.Count{}})
	}
	return &Answer{Devices: []Device{{}, {}}, Folders: []*Folder{folder}}
}

// Each thing by itself that wasn't audited, or may change a folder without a record, makes an answer partial. What a person chose doesn't.
func TestEachThingThatMakesAnAnswerPartial(t *testing.T) {
	waiting := func(kind string) func(*Answer) {
		return func(a *Answer) { a.Folders[0].Live.addWaiting(Moved{Device: "2", Waits: kind}) }
	}
	for _, row := range []struct {
		why                        string
		change                     func(a *Answer)
		isPartial, isPart, isWhole bool
		isNotFirm                  Firm
		unsure                     string
	}{
		{"nothing", func(*Answer) {}, false, false, true, IsFirm, ""},
		{"no live looks", func(a *Answer) { a.Folders[0].Live = nil }, false, false, true, IsFirm, ""},
		{"a device that was left out", func(a *Answer) { a.LeftOut = []Refusal{{Folder: "pics"}, {Folder: "docs"}} }, true, true, false, IsFirm, ""},
		{"a device of another folder that was left out", func(a *Answer) { a.LeftOut = []Refusal{{Folder: "pics"}} }, true, false, true, IsFirm, ""},
		{"a name that was left out", func(a *Answer) { a.Folders[0].LeftOut = []*LeftOut{{}} }, true, true, false, IsFirm, ""},
		{"one device alone", func(a *Answer) { a.Folders[0].Members = a.Folders[0].Members[:1] }, true, true, false, IsFirm, ""},
		{"one device whose own it is", func(a *Answer) { a.Folders[0].Members, a.Folders[0].Own = a.Folders[0].Members[:1], "a" }, false, false, true, IsFirm, ""},
		{"two devices, each with its own of one id", func(a *Answer) { ownFolders(a, "docs") }, true, true, true, IsFirm, ""},
		{"two devices, each with its own of the id by chance", func(a *Answer) { ownFolders(a, join.ByChance) }, false, false, true, IsFirm, ""},
		{"a name in motion", func(a *Answer) { a.Folders[0].Live.Moving = 1 }, true, true, false, IsFirm, ""},
		{"a record on its way", func(a *Answer) { a.Folders[0].Live.AddUnheard("1", "2") }, true, true, true, IsFirm, ""},
		{"some names, chosen by a part", func(a *Answer) { askedFor(a, choice.Names{Slice: 1, Slices: 3}) }, true, true, false, IsFirm, ""},
		{"some names, chosen by a person", func(a *Answer) { askedFor(a, choice.Names{Prefix: "a"}); a.ByNames = true }, false, false, false, IsFirm, ""},
		{"a folder that nobody asked for", func(a *Answer) { a.Devices[1].Unasked = []Unasked{{}} }, true, false, true, IsFirm, ""},
		{"a folder that a person didn't choose", func(a *Answer) { a.Devices[1].Unasked, a.IsByName = []Unasked{{}}, true }, false, false, true, IsFirm, ""},
		{"a device that doesn't say what it has", func(a *Answer) { a.Devices[1].IsSilent = true }, true, false, true, IsFirm, ""},
		{"what is changed waits", waiting(WaitsChanged), true, true, true, NotKnown, "2 not-scanned: 1 names"},
		{"what is missing waits", waiting(WaitsMissing), true, true, true, NotKnown, "2 not-scanned: 1 names"},
		{"what is back waits", waiting(WaitsBack), false, false, true, IsFirm, ""},
		{"what is new waits", waiting(WaitsNew), false, false, true, IsFirm, ""},
		{"what is changed waits where nothing is sent", func(a *Answer) { waiting(WaitsChanged)(a); a.Folders[0].Members[1].About.Kind = "receive-only" }, false, false, true, IsFirm, ""},
		{"a busy device", func(a *Answer) { busy(a) }, true, true, true, NotKnown, "1 busy: Syncthing was never seen idle between the looks: it was 'scanning'"},
		{"what is to be ignored", func(a *Answer) { a.Folders[0].Members[1].ToIgnore = 1 }, true, true, true, NotKnown, "2 to-ignore: 1 names"},
		{"links elsewhere", func(a *Answer) { a.Folders[0].Members[0].Linked.Names = 1 }, true, true, true, NotKnown, "1 linked: 1 names"},
		{"what else writes", func(a *Answer) { a.Folders[0].Members[1].About.Writers = []string{"folder x", "folder y"} }, true, true, true, NotKnown, "2 writers: folder x, folder y"},
		{"an older program that counts no links", func(a *Answer) { a.Folders[0].Members[0].Linked = nil }, false, false, true, IsFirm, ""},
		{"a device over the wire", func(a *Answer) {
			a.Folders[0].Members[1].Head.Wire, a.Folders[0].Members[1].Unseen = &part.Wire{}, join.Unseen{Standing: 3, Unread: 4}
		}, true, true, true, NotKnown, "2 over-the-wire: 3 directories and symlinks not seen, 4 files not read"},
	} {
		answer := wholeAnswer()
		row.change(answer)
		folder := answer.Folders[0]
		var unsure []string
		for _, one := range folder.Unsure() {
			unsure = append(unsure, fmt.Sprint(one.Device, " ", one.Words()))
		}
		if answer.IsPartial() != row.isPartial || answer.IsPart(folder) != row.isPart || answer.IsWhole(folder) != row.isWhole ||
			folder.HowFirm() != row.isNotFirm || answer.HowFirm() != row.isNotFirm || strings.Join(unsure, ", ") != row.unsure {
			t.Errorf("%s: partial %v, part %v, whole %v, %s, %s, unsure %q", row.why, answer.IsPartial(), answer.IsPart(folder), answer.IsWhole(folder), folder.HowFirm(),
				answer.HowFirm(), unsure)
		}
		if answer.IsOfSlice() != folder.Asked().IsOfSlice() || (folder.HowFirm() == NotKnown) != (folder.HowFirm().CallUnsure() == "not known to be firm") {
			t.Errorf("%s: of a slice %v, %s", row.why, answer.IsOfSlice(), folder.HowFirm().CallUnsure())
		}
	}
	if empty := (&Answer{Folders: []*Folder{{}}}); empty.IsOfSlice() || (&Answer{}).IsOfSlice() || !empty.Folders[0].Asked().IsAll() {
		t.Error("an answer without devices is of all names")
	}
}

func ownFolders(a *Answer, id string) {
	first := a.Folders[0]
	first.ID, first.Own, first.Members = id, "a", first.Members[:1]
	other := *first
	other.Own = "b"
	a.Folders = append(a.Folders, &other)
}

func askedFor(a *Answer, names choice.Names) {
	for _, member := range a.Folders[0].Members {
		member.Head.Names = names
	}
}

func busy(a *Answer) {
	member := a.Folders[0].Members[0]
	member.Head.Look, member.About.Rest = &part.Look{}, &part.Rest{State: "scanning"}
}

// The worst of several folders is how it stands with all: known to be firm goes behind all else.
func TestTheWorstOfSeveralFolders(t *testing.T) {
	firm, unknown, isnt := wholeAnswer().Folders[0], wholeAnswer().Folders[0], wholeAnswer().Folders[0]
	unknown.Members[0].ToIgnore, isnt.NotFirm = 1, &Failure{VersionDiffers, "a", 7}
	for _, row := range []struct {
		folders []*Folder
		is      Firm
	}{{nil, IsFirm}, {[]*Folder{unknown, firm}, NotKnown}, {[]*Folder{firm, unknown}, NotKnown}, {[]*Folder{isnt, unknown}, NotFirm}, {[]*Folder{unknown, isnt}, NotFirm}} {
		if is := (&Answer{Folders: row.folders}).HowFirm(); is != row.is {
			t.Errorf("%s, not %s", is, row.is)
		}
	}
}

// What moves, waits or wasn't heard of is counted by device, by kind, and by where else it stands.
func TestWhatIsCountedOfRunningDevices(t *testing.T) {
	live := &Live{}
	for _, moved := range [][]Moved{
		{{Device: "A"}, {Device: "B", Waits: WaitsMissing, Have: []string{"A", "C"}}}, {{Device: "B", Waits: WaitsMissing}}, {{Device: "B", Waits: WaitsNew}, {Device: "C", Waits: WaitsBack}}, {{Device: "A"}},
		{{Device: "B", Waits: string(damage.Kinds[0]), Have: []string{"C"}}},
	} {
		live.AddMoving(Moving{At: moved})
	}
	expected := map[string]*Waiting{"B": {Names: map[string]int64{WaitsMissing: 2, WaitsNew: 1, string(damage.Kinds[0]): 1}, From: map[string]int64{"A": 1, "C": 2}, Nowhere: 1},
		"C": {Names: map[string]int64{WaitsBack: 1}, From: map[string]int64{}}}
	if live.Moving != 5 || live.Waits != 4 || len(live.Names) != 5 || !reflect.DeepEqual(live.Waiting, expected) {
		t.Errorf("%+v, %+v, %+v", live, live.Waiting["B"], live.Waiting["C"])
	}
	if waits := live.Waiting["B"]; waits.Losing() != 3 || waits.Sent() != 3 || live.Waiting["C"].Losing() != 0 || live.Waiting["C"].Sent() != 1 {
		t.Errorf("%d lose, %d are sent", waits.Losing(), waits.Sent())
	}
	for _, pair := range [][2]string{{"A", "B"}, {"B", "A"}, {"A", "B"}, {"A", "C"}, {"A", "B"}} {
		live.AddUnheard(pair[0], pair[1])
	}
	if !reflect.DeepEqual(live.Unheard, []Unheard{{"A", "B", 3}, {"B", "A", 1}, {"A", "C", 1}}) {
		t.Errorf("%v", live.Unheard)
	}
	for len(live.Names) < MostListed {
		live.AddMoving(Moving{})
	}
	live.AddMoving(Moving{})
	if len(live.Names) != MostListed || live.Moving != MostListed+1 {
		t.Errorf("%d of %d are listed", len(live.Names), live.Moving)
	}
	folder := &Folder{Live: live}
	for _, id := range []string{"A", "B"} {
		folder.Members = append(folder.Members, join.Member{Device: &join.Device{Head: &part.Head{Device: id}}})
	}
	if folder.SendsAfterScan(0) != nil || folder.SendsAfterScan(1) != live.Waiting["B"] || (&Folder{Members: make([]join.Member, 1)}).SendsAfterScan(0) != nil {
		t.Error("what waits is that of another member")
	}
}

// The kinds of waiting: what looks most like damage first, each once.
func TestTheOrderOfKindsOfWaiting(t *testing.T) {
	var told []string
	for _, kind := range KindsOfWaiting {
		told = append(told, kind)
	}
	expected := []string{"missing"}
	for _, kind := range damage.Kinds {
		expected = append(expected, string(kind))
	}
	expected = append(expected, "unknown", "changed", "back", "new")
	if !reflect.DeepEqual(told, expected) {
		t.Errorf("%q", told)
	}
	for _, kind := range told {
		if LosesRecorded(kind) != (kind != "new" && kind != "back") {
			t.Errorf("%s loses what is recorded: %v", kind, LosesRecorded(kind))
		}
	}
}

// Random failures of a folder come in one order: that of the reasons, the names and the devices, whatever list they are from. All that is told of a
// name comes together.
func TestFailuresEqualASortedList(t *testing.T) {
	for seed := int64(0); seed < 120; seed++ {
		random := rand.New(rand.NewSource(seed))
		folder := &Folder{Members: []join.Member{{Device: &join.Device{Number: 1}}, {Device: &join.Device{Number: 2}}}}
		var all []Failure
		var names []string
		for _, name := range []string{"a", "b", "c", "d"} {
			before := len(all)
			isPermitted := random.Intn(4) == 0
			switch random.Intn(4) {
			case 0:
				folder.Unwon.Add(Unwon{Name: name})
				all = append(all, Failure{Reason: notWinner, Name: name})
			case 1:
				damaged := Damaged{Name: part.Bytes(name), IsFile: random.Intn(2) == 0, At: []DamagedAt{{Member: 0}, {Member: 1}}[:1+random.Intn(2)]}
				folder.Damaged.Add(damaged)
				for _, at := range damaged.At {
					if !damaged.IsFile {
						all = append(all, Failure{storeDiffers, name, uint64(at.Member + 1)})
					}
				}
				names = append(names, name)
			case 2:
				for _, reason := range Reasons[1:] {
					for device := uint64(1); device <= 2; device++ {
						if random.Intn(4) == 0 {
							failure := Failure{reason, name, device}
							folder.Failures.Add(failure)
							all = append(all, failure)
						}
					}
				}
			}
			if isPermitted {
				folder.Permissions.Add(Permissions{Name: name})
			}
			if (len(all) > before || isPermitted) && (len(names) == 0 || names[len(names)-1] != name) {
				names = append(names, name)
			}
		}
		sort.SliceStable(all, func(a, b int) bool { return IsBefore(&all[a], &all[b], Reasons) })
		var told []Failure
		folder.EachFailure(func(one *Failure) { told = append(told, *one) })
		var toldNames []string
		folder.EachName(func(one *Told) { toldNames = append(toldNames, one.Name) })
		if !reflect.DeepEqual(told, all) || !reflect.DeepEqual(toldNames, names) || folder.HasFailures() != (len(all) > 0) {
			t.Fatalf("seed %d: %v, not %v; %q, not %q", seed, told, all, toldNames, names)
		}
		checkFirst(t, folder, all)
	}
}

// checkFirst checks which of several folders tells its failure first: of two with one reason the first one.
func checkFirst(t *testing.T, folder *Folder, all []Failure) {
	early, late := folderOf([]string{"CertificateOrder z 9"}, nil), folderOf([]string{"PullAhead a 1"}, nil)
	if in, first := (&Answer{Folders: []*Folder{late, {}, early, early}}).First(); in != early || first.Name != "z" {
		t.Errorf("%v", first)
	}
	if in, first := (&Answer{Folders: []*Folder{{}, folder}}).First(); (first != nil) != (len(all) > 0) || first != nil && (in != folder || *first != all[0]) {
		t.Errorf("%v", first)
	}
	twin := *folder
	if in, first := (&Answer{Folders: []*Folder{folder, &twin}}).First(); first != nil && in != folder {
		t.Error("of two folders with one reason the second one is told")
	}
}

func TestWhichFailureIsBefore(t *testing.T) {
	order := []Failure{{"NotWinner", "b", 2}, {"StoreDiffers", "a", 2}, {"StoreDiffers", "b", 1}, {"StoreDiffers", "b", 2}}
	for one := range order {
		for other := range order {
			if IsBefore(&order[one], &order[other], Reasons) != (one < other) {
				t.Errorf("%v, %v", order[one], order[other])
			}
		}
	}
}

// A name that was left out is read as it was saved, whatever its bytes are.
func TestLeftOutNamesAreSaved(t *testing.T) {
	for _, name := range []string{"a", "\xff/"} {
		saved := &LeftOut{Name: part.Bytes(name), Below: true, Names: 2, Bytes: 3, Why: []Reason{{"A", "special", "x"}}}
		text, err := json.Marshal(saved)
		read := &LeftOut{}
		if err == nil {
			err = json.Unmarshal(text, read)
		}
		if err != nil || !reflect.DeepEqual(read, saved) {
			t.Errorf("%s: %+v, %v", text, read, err)
		}
	}
	kept := &LeftOut{Name: "kept"}
	if json.Unmarshal([]byte(`{"Name":1}`), kept) == nil || kept.Name != "kept" {
		t.Errorf("%+v", kept)
	}
}

// What keeps a folder from being firm is told with its reason, its name and its device.
func TestWhatIsToldOfAnotherFirmness(t *testing.T) {
	folder := &Folder{ID: "docs", Label: "Documents", NotFirm: &Failure{VersionDiffers, "a", 7}}
	const told = `refused: folder docs (Documents): syncaudit says that VersionDiffers of "a" on 7 keeps it from being firm, and this program that nothing does`
	if err := folder.CheckLoose(); err == nil || err.Error() != told {
		t.Error(err)
	}
}

// Of what a device has heard, what isn't below its own record is kept.
func TestWhatWasHeardOf(t *testing.T) {
	heard := func(view int, version ...[2]uint64) part.Seen {
		return part.Seen{View: view, Record: &part.Record{Version: version, ModifiedS: 9}}
	}
	name := &part.Name{Own: &part.Record{Version: [][2]uint64{{1, 2}}}, Views: []part.Seen{heard(0, [2]uint64{1, 1}), heard(1, [2]uint64{1, 2}), heard(2, [2]uint64{1, 3}), heard(3, [2]uint64{2, 1})}}
	expected := []part.Seen{{View: 2, Record: &part.Record{Version: [][2]uint64{{1, 3}}}}, {View: 3, Record: &part.Record{Version: [][2]uint64{{2, 1}}}}}
	if kept := heardOf(name); !reflect.DeepEqual(kept, expected) {
		t.Errorf("%+v", kept)
	}
	name.Own = nil
	if kept := heardOf(name); len(kept) != 4 {
		t.Errorf("%+v", kept)
	}
}

// An index that is to be repaired, a scan that records attributes or other permissions, and what else writes into a folder, at any device.
func TestWhatElseBringsRecords(t *testing.T) {
	permissions := func(onDisk bool, disk uint32) func(*Folder) {
		return func(f *Folder) {
			f.Permissions.Add(Permissions{At: []Bits{{}, {Has: true, OnDisk: onDisk, Index: 1, Disk: disk}}})
		}
	}
	for why, row := range map[string]struct {
		change func(f *Folder)
		mayGet bool
	}{
		"nothing":             {func(*Folder) {}, false},
		"a repair":            {func(f *Folder) { f.Members[0].Head.ToRepair = true }, true},
		"a repair later":      {func(f *Folder) { f.Members[1].Head.ToRepair = true }, true},
		"attributes":          {func(f *Folder) { f.Members[1].About.ScansAttributes = true }, true},
		"a writer":            {func(f *Folder) { f.Members[0].About.Writers = []string{"versions"} }, true},
		"names of one file":   {func(f *Folder) { f.Members[1].Links = 2 }, true},
		"other permissions":   {permissions(true, 2), true},
		"the same":            {permissions(true, 1), false},
		"nothing on the disk": {permissions(false, 2), false},
		"no device":           {func(f *Folder) { f.Members[0].Device = nil }, false},
		"no folder":           {func(f *Folder) { f.Members[1].About = nil }, false},
	} {
		folder := wholeAnswer().Folders[0]
		row.change(folder)
		if is := folder.mayGetOtherRecords(); is != row.mayGet {
			t.Errorf("%s: %v", why, is)
		}
	}
}
