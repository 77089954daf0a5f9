package summary

import (
	"fmt"
	"math/rand"
	"sort"

	"golang.org/x/exp/slices"
	"syncthing-audit/finding"
	"syncthing-audit/join"
	"syncthing-audit/part"
)

// world is a folder at some devices, and what these have of some names: what is told of it is to follow from it alone.
type world struct {
	names   []string // of the devices
	kinds   []string
	runs    []string
	areWide []bool
	numbers []uint64 // by which versions name the devices
	rows    map[string][]*part.Name
	modes   map[string][]finding.Bits
}

var calledSo = []string{"laptop", "server", "phone", "tablet"}

// randomWorld gives a folder of two to four devices that has no names yet.
func randomWorld(random *rand.Rand) *world {
	drawn := &world{rows: map[string][]*part.Name{}, modes: map[string][]finding.Bits{}}
	for place, name := range calledSo[:2+random.Intn(3)] {
		drawn.names, drawn.numbers = append(drawn.names, name), append(drawn.numbers, uint64(place+1))
		drawn.kinds = append(drawn.kinds, []string{"send-receive", "send-receive", "send-receive", receiveOnly, sendOnly}[random.Intn(5)])
		drawn.runs = append(drawn.runs, []string{"v1.19.2", "v1.29.5", ""}[random.Intn(3)])
		drawn.areWide = append(drawn.areWide, random.Intn(6) == 0)
	}
	return drawn
}

// answer gives what is found of the names, as the audit and syncaudit tell it.
func (w *world) answer() *finding.Answer {
	folder := &finding.Folder{ID: "docs", Rows: map[string]*join.Row{}}
	answer := &finding.Answer{Folders: []*finding.Folder{folder}}
	order := w.order()
	for _, place := range order {
		head := &part.Head{Device: idsOfWorld[place], Name: w.names[place], Runs: w.runs[place],
			Folders: []part.Folder{{ID: "docs", Kind: w.kinds[place], Path: "/srv/docs", ScansAttributes: w.areWide[place]}}}
		folder.Members = append(folder.Members, join.Member{Device: &join.Device{Head: head, Number: w.numbers[place]}, About: &head.Folders[0]})
	}
	for place, name := range w.names {
		answer.Devices = append(answer.Devices, finding.Device{ID: idsOfWorld[place], Number: w.numbers[place], Name: name, Runs: w.runs[place]})
	}
	failures, rows := []finding.Failure{}, []string{}
	for name := range w.rows {
		rows = append(rows, name)
	}
	sort.Strings(rows)
	for _, name := range rows {
		row := w.row(name, order)
		folder.Rows[name] = row
		failures = append(failures, addFound(folder, row)...)
		if bits := w.modes[name]; bits != nil {
			at := make([]finding.Bits, len(order))
			for member, place := range order {
				at[member] = bits[place]
			}
			folder.Permissions.Add(finding.Permissions{Name: name, At: at})
		}
	}
	sort.SliceStable(failures, func(a, b int) bool { return finding.IsBefore(&failures[a], &failures[b], finding.Reasons) })
	for _, failure := range failures {
		folder.Failures.Add(failure)
	}
	return answer
}

// idsOfWorld are the ids of the devices, whatever they are called.
var idsOfWorld = []string{laptop, server, phone, "TABLETA" + restOfID}

// order gives the places of the devices, their numbers rising.
func (w *world) order() []int {
	places := []int{}
	for place := range w.names {
		places = append(places, place)
	}
	sort.Slice(places, func(a, b int) bool { return w.numbers[places[a]] < w.numbers[places[b]] })
	return places
}

// row gives a name as the audit has it: versions have the devices' numbers in place of their places.
func (w *world) row(name string, order []int) *join.Row {
	joined := &join.Row{Name: name}
	for _, place := range order {
		at := w.rows[name][place]
		if at == nil {
			joined.At = append(joined.At, nil)
			continue
		}
		next := &part.Name{Name: part.Bytes(name), Disk: at.Disk}
		if at.Own != nil {
			own := *at.Own
			own.Version, own.Local, own.ModifiedBy = w.numbered(own.Version), w.numbered(own.Local), w.numbers[own.ModifiedBy]
			next.Own = &own
		}
		joined.At = append(joined.At, next)
	}
	return joined
}

// numbered gives a version of places by the devices' numbers, rising.
func (w *world) numbered(version [][2]uint64) [][2]uint64 {
	var named [][2]uint64
	for _, counter := range version {
		named = append(named, [2]uint64{w.numbers[counter[0]], counter[1]})
	}
	sort.Slice(named, func(a, b int) bool { return named[a][0] < named[b][0] })
	return named
}

// addFound adds a name that has no winner, or gives the reasons that syncaudit tells of it (docs/reasons.md).
func addFound(folder *finding.Folder, row *join.Row) []finding.Failure {
	winner := documentWinner(row)
	if winner == nil {
		folder.Unwon.Add(finding.Unwon{Name: row.Name, At: withoutWinner(row)})
		return nil
	}
	failures := []finding.Failure{}
	for place, member := range folder.Members {
		at := row.At[place]
		if at == nil {
			at = &part.Name{}
		}
		for _, reason := range reasonsAt(at, winner) {
			failures = append(failures, finding.Failure{Reason: reason, Name: row.Name, Device: member.Number})
		}
	}
	return failures
}

func withoutWinner(row *join.Row) []finding.Cause {
	causes := []finding.Cause{}
	for place, at := range row.At {
		switch {
		case at == nil:
		case at.Own != nil:
			causes = append(causes, finding.Cause{Member: place, Kind: finding.LocalChange})
		case at.Disk != nil:
			causes = append(causes, finding.Cause{Member: place, Kind: finding.Unscanned})
		}
	}
	return causes
}

// documentWinner gives the record that wins a name in a document: at equal times by who modified it, and then by the device.
func documentWinner(row *join.Row) *part.Record {
	var winner *part.Record
	for _, at := range row.At {
		if at == nil || at.Own == nil || at.Own.Invalid || slices.IndexFunc(row.At, func(other *part.Name) bool {
			return other != nil && other.Own != nil && !other.Own.Invalid && join.ClaimOf(at.Own).IsBelow(join.ClaimOf(other.Own))
		}) >= 0 {
			continue
		}
		if winner == nil || comesFirst(at.Own, winner) {
			winner = at.Own
		}
	}
	return winner
}

func comesFirst(record, other *part.Record) bool {
	switch {
	case record.Deleted != other.Deleted:
		return other.Deleted
	case record.ModifiedS != other.ModifiedS:
		return record.ModifiedS > other.ModifiedS
	}
	return record.ModifiedBy < other.ModifiedBy
}

// reasonsAt gives the reasons that fail of a device.
func reasonsAt(at *part.Name, winner *part.Record) []string {
	reasons, own, disk := []string{}, at.Own, at.Disk
	if own == nil && !winner.Deleted {
		reasons = append(reasons, "RecordMissing")
	}
	if own != nil && !own.Invalid && (own.Deleted != winner.Deleted || !own.Deleted && !(own.Type == winner.Type && own.Target == winner.Target && sameContent(own, winner))) {
		reasons = append(reasons, "RecordDiffers")
	}
	if own != nil && own.Invalid {
		reasons = append(reasons, "LocalOnly")
	}
	if winner.Deleted != (disk == nil) || disk != nil && !isSame(disk, winner) {
		reasons = append(reasons, "StoreDiffers")
	}
	if isUnclean(own, disk) {
		reasons = append(reasons, "StoreUnclean")
	}
	return reasons
}

func sameContent(record, other *part.Record) bool {
	return (record.Content == nil) == (other.Content == nil) && (record.Content == nil || *record.Content == *other.Content)
}

func isUnclean(own *part.Record, disk *part.Node) bool {
	if disk == nil {
		return own != nil && !own.Deleted
	}
	return own == nil || own.Deleted || own.Type != disk.Type || own.Target != disk.Target || own.Content != nil && (own.Content.Size != disk.Size || own.ModifiedS != disk.ModifiedS)
}

// randomNode gives what may stand under a name: a file of some bytes, a symlink or a directory.
func randomNode(random *rand.Rand, clock int64) *part.Node {
	switch random.Intn(9) {
	case 0:
		return &part.Node{Type: 4, Target: fmt.Sprint("to ", random.Intn(2)), ModifiedS: clock}
	case 1:
		return &part.Node{Type: 1, ModifiedS: clock}
	}
	content := part.Content{Size: 300000, BlockSize: 131072, Hash: part.Hash{byte(1 + random.Intn(4))}}
	return &part.Node{ModifiedS: clock, Size: content.Size, Contents: []part.Content{content}}
}

// randomHistory gives what the devices have of a name after some steps: someone changes, deletes or spoils what stands on a disk, a device scans, and
// one takes what another one has.
func (w *world) randomHistory(random *rand.Rand) []*part.Name {
	at := make([]*part.Name, len(w.names))
	for place := range at {
		at[place] = &part.Name{}
	}
	clock := int64(started)
	for turn := 2 + random.Intn(12); turn > 0; turn-- {
		place, other := random.Intn(len(at)), random.Intn(len(at))
		if random.Intn(4) > 0 {
			clock += 60
		}
		switch random.Intn(9) {
		case 0:
			at[place].Disk = randomNode(random, clock)
		case 1:
			at[place].Disk = nil
		case 2:
			spoil(at[place], random)
		case 3:
			if disk := at[place].Disk; disk != nil {
				next := *disk
				next.ModifiedS = clock
				at[place].Disk = &next
			}
		case 4, 5:
			w.scan(at[place], place, clock)
		default:
			w.takeFrom(at[place], at[other], place, other)
		}
	}
	for place, has := range at {
		differ(has)
		if has.Own == nil && has.Disk == nil {
			at[place] = nil
		}
	}
	return at
}

// spoil gives a file other bytes of the same size and time.
func spoil(at *part.Name, random *rand.Rand) {
	if at.Disk == nil || len(at.Disk.Contents) == 0 {
		return
	}
	next := *at.Disk
	next.Contents = []part.Content{next.Contents[0]}
	next.Contents[0].Hash = part.Hash{byte(90 + random.Intn(3))}
	at.Disk = &next
}

// scan has a device record what stands on its disk, if it takes that for a change.
func (w *world) scan(at *part.Name, place int, clock int64) {
	if !isUnclean(at.Own, at.Disk) {
		return
	}
	next := &part.Record{ModifiedBy: uint64(place), ModifiedS: clock, Sequence: 1, Deleted: at.Disk == nil}
	var was [][2]uint64
	if at.Own != nil {
		was = at.Own.Version
		if at.Own.Invalid {
			was = at.Own.Local
		}
	}
	version := raised(was, uint64(place))
	if at.Disk != nil {
		next.Type, next.Target, next.ModifiedS = at.Disk.Type, at.Disk.Target, at.Disk.ModifiedS
		if next.Type == 4 {
			next.ModifiedS = 0
		}
		if len(at.Disk.Contents) > 0 {
			content := at.Disk.Contents[0]
			next.Content = &content
		}
	} else if at.Own != nil {
		next.Type = at.Own.Type
	}
	next.Version = version
	if w.kinds[place] == receiveOnly {
		next.Invalid, next.Version, next.Local = true, nil, version
	}
	at.Own = next
}

// raised gives a version on top of another one by a device.
func raised(was [][2]uint64, place uint64) [][2]uint64 {
	version, top := [][2]uint64{}, uint64(0)
	for _, counter := range was {
		if counter[1] > top {
			top = counter[1]
		}
		if counter[0] != place {
			version = append(version, counter)
		}
	}
	return append(version, [2]uint64{place, top + 1})
}

// takeFrom has a device take what another one recorded, where Syncthing does.
func (w *world) takeFrom(at, from *part.Name, place, other int) {
	if place == other || from.Own == nil || from.Own.Invalid || w.kinds[place] == sendOnly || isUnclean(at.Own, at.Disk) {
		return
	}
	if at.Own != nil && (at.Own.Invalid || !join.ClaimOf(from.Own).Wins(join.ClaimOf(at.Own))) {
		return
	}
	own := *from.Own
	at.Own, at.Disk = &own, nil
	if !own.Deleted {
		at.Disk = &part.Node{Type: own.Type, Target: own.Target, ModifiedS: own.ModifiedS}
		if own.Content != nil {
			at.Disk.Size, at.Disk.Contents = own.Content.Size, []part.Content{*own.Content}
		}
	}
}

// differ notes of a file that it doesn't have the recorded bytes.
func differ(at *part.Name) {
	if at.Own == nil || at.Disk == nil || at.Own.Content == nil || len(at.Disk.Contents) == 0 || at.Disk.Contents[0] == *at.Own.Content {
		return
	}
	next := *at.Disk
	next.Differ = &part.Differ{Count: 1, Ranges: [][2]int64{{2, 2}}, First: part.Pair{Recorded: &part.Hash{1}, Found: &part.Hash{2}}}
	at.Disk = &next
}

// randomRow gives a name without a history: any record at any device, of few versions and times.
func (w *world) randomRow(random *rand.Rand) []*part.Name {
	at := make([]*part.Name, len(w.names))
	for place := range at {
		has := &part.Name{}
		if random.Intn(4) > 0 {
			has.Disk = randomNode(random, started+60*int64(random.Intn(3)))
			w.scan(has, place, started)
			has.Own.Invalid, has.Own.Local, has.Own.Deleted = false, nil, random.Intn(5) == 0
			if has.Own.Version = randomVersion(random, len(at)); has.Own.Deleted {
				has.Own.Content, has.Own.Target, has.Disk = nil, "", nil
			}
			if w.kinds[place] == receiveOnly && random.Intn(2) == 0 {
				has.Own.Invalid, has.Own.Local, has.Own.Version = true, has.Own.Version, nil
			}
		}
		switch random.Intn(6) {
		case 0:
			has.Disk = nil
		case 1:
			has.Disk = randomNode(random, started+60*int64(random.Intn(3)))
		case 2:
			spoil(has, random)
		}
		if differ(has); has.Own != nil || has.Disk != nil {
			at[place] = has
		}
	}
	return at
}

func randomVersion(random *rand.Rand, devices int) [][2]uint64 {
	version := [][2]uint64{}
	for place := 0; place < devices; place++ {
		if value := uint64(random.Intn(3)); value > 0 {
			version = append(version, [2]uint64{uint64(place), value})
		}
	}
	if len(version) == 0 {
		version = append(version, [2]uint64{0, 1})
	}
	return version
}

// randomName gives a name of one kind or the other.
func (w *world) randomName(random *rand.Rand) []*part.Name {
	if random.Intn(2) == 0 {
		return w.randomRow(random)
	}
	return w.randomHistory(random)
}
