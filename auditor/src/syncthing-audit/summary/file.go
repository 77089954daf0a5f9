package summary

import (
	"golang.org/x/exp/slices"
	"golang.org/x/text/unicode/norm"
	"syncthing-audit/damage"
	"syncthing-audit/finding"
	"syncthing-audit/join"
	"syncthing-audit/lists"
	"syncthing-audit/part"
	"syncthing-audit/print"
)

// Text is a name, which may be no text.
type Text = part.Bytes

// File is a name of which something is to be told.
type File struct {
	Name            Text       `json:"name"`
	Size            int64      `json:"size"`
	Faults          []*Fault   `json:"faults"`
	Have            []string   `json:"have_recorded"`                // devices whose index and disk have what is due
	Same            [][]string `json:"same_other_bytes,omitempty"`   // devices that have the same bytes in place of those recorded
	Follows         []Follow   `json:"follows"`                      // what fails for want of the above
	Permissions     []Mode     `json:"permissions"`                  // where they differ
	Foretold        string     `json:"if_nothing_is_done,omitempty"` // in words
	Advice          []string   `json:"advice"`
	RenamedFrom     Text       `json:"renamed_from,omitempty"` // the name that goes where this one comes with the same bytes
	RenamedTo       Text       `json:"renamed_to,omitempty"`   // and the other way round
	hasDetails      bool
	elsewhere       *elsewhere
	foretold        foretold
	off             []part.Sharing // devices that share the folder and aren't audited in it
	versions        string         // what old versions are called, with their places
	isOfSum         bool           // whether 'sum' tells it
	isOfAnotherTime bool           // whether those that have what is due have it with another time
	isOdd           bool           // whether the name isn't in Unicode's form NFC
	isOfWindows     bool           // whether Windows can have the name
	isMany          bool           // whether it stands for many names, which are told as one
	among           *Group         // all of which the very same is told
}

// say gives what is said of one name, or of many where the file stands for these.
func (f *File) say(one, many string) string {
	if f.isMany {
		return many
	}
	return one
}

// Follow is a reason of syncaudit that goes away with the faults.
type Follow struct {
	Device string `json:"device"`
	Reason string `json:"reason"`
}

// Mode are the permissions of a name at a device: in octal digits.
type Mode struct {
	Device string `json:"device"`
	Index  string `json:"index,omitempty"`
	Disk   string `json:"disk,omitempty"`
}

// fileOf gives what is to be told of a name.
func fileOf(folder *finding.Folder, told *finding.Told) *File {
	file := &File{Name: Text(told.Name), Faults: []*Fault{}, Have: []string{}, Follows: []Follow{}, Permissions: []Mode{}, isOdd: !norm.NFC.IsNormalString(told.Name),
		isOfWindows: join.IsOfWindows(told.Name)}
	r := &reader{folder: folder, row: folder.Rows[told.Name], file: file, reasons: map[int][]string{}}
	switch {
	case told.Unwon != nil:
		r.readUnwon(told.Unwon)
	case len(told.Failures) > 0:
		r.read(told.Failures)
	}
	if told.Damaged != nil {
		r.readDamage(told.Damaged)
	}
	if told.Permissions != nil {
		file.Permissions = modesOf(folder, told.Permissions)
	}
	if r.row != nil {
		file.hasDetails, file.Size = true, r.size()
	}
	return file
}

func kindOf(member join.Member) string {
	if member.About == nil {
		return ""
	}
	return member.About.Kind
}

// reader reads what is wrong with a name.
type reader struct {
	folder  *finding.Folder
	row     *join.Row // all that the devices have of it, if that was kept
	file    *File
	reasons map[int][]string // of each member
	winner  *part.Record     // nothing of a name without one
}

// size gives how many bytes what is due has. Where nothing is due, or its deletion, it is the most that a device has or records.
func (r *reader) size() int64 {
	if r.winner != nil && r.winner.Content != nil {
		return r.winner.Content.Size
	}
	return r.row.Size()
}

// unwonCauses are the causes of names without a winner.
var unwonCauses = map[string]Cause{finding.Unscanned: NotScanned, finding.LocalChange: LocalAddition, finding.OnlySeen: OnlySeen}

// readUnwon adds what each device has of a name without a winner.
func (r *reader) readUnwon(name *finding.Unwon) {
	for _, at := range name.At {
		r.reasons[at.Member] = []string{"NotWinner"}
		r.add(at.Member, unwonCauses[at.Kind])
	}
}

// readDamage adds of which devices the disk itself fails to give what it has, and why. Of a file that is a fault already, by what syncaudit says.
func (r *reader) readDamage(damaged *finding.Damaged) {
	for _, at := range damaged.At {
		if at.IsRot && r.at(at.Member) != nil {
			r.addOwnRot(at)
			continue
		}
		member, fault := r.folder.Members[at.Member], (*Fault)(nil)
		if !at.IsRot {
			fault = r.file.faultOfDisk(member.Head.Device)
		}
		if fault == nil {
			fault = &Fault{Device: member.Head.Device, Kind: kindOf(member), Reasons: []string{"StoreDiffers"}}
			r.file.Faults = append(r.file.Faults, fault)
		}
		if fault.Cause, fault.Why = Damaged, at.Why; at.IsRot {
			fault.Cause = Differs
		}
	}
}

// addOwnRot adds that a disk has other bytes than its own index records, of a name that isn't compared. What is due there is what that index has; others
// that have it are told if they leave the name out for what .stignore says, and not for what they may have.
func (r *reader) addOwnRot(at finding.DamagedAt) {
	r.reasons[at.Member] = []string{"StoreDiffers"}
	r.add(at.Member, OtherBytes)
	fault := r.file.Faults[len(r.file.Faults)-1]
	fault.Why = at.Why
	for _, source := range fault.sources {
		r.file.Have = print.AddOnce(r.file.Have, source)
	}
	if r.isToldOfAll() {
		fault.due, fault.Due = fault.at.Own, fault.Recorded
	}
}

// isToldOfAll says whether it is known of each device what it has of the name, unless .stignore keeps the name out there.
func (r *reader) isToldOfAll() bool {
	return !lists.Has(r.row.At, func(at *part.Name) bool {
		return at != nil && (len(at.Moved) > 0 || at.IsDamaged() || !at.IsIgnored() && !at.IsToldHere())
	})
}

// faultOfDisk gives the fault of a device that is one of its disk, if it is told already: as one of a file that a scan hasn't seen, say, or without details.
func (f *File) faultOfDisk(device string) *Fault {
	isOfDisk := func(fault *Fault) bool {
		return fault.Device == device && (fault.Cause == Damaged || fault.Cause == NotScanned || fault.Cause == Differs)
	}
	if place := slices.IndexFunc(f.Faults, isOfDisk); place >= 0 {
		return f.Faults[place]
	}
	return nil
}

// read adds the faults of a name, and what follows from them.
func (r *reader) read(failures []finding.Failure) {
	for _, failure := range failures {
		member := r.member(failure.Device)
		r.reasons[member] = append(r.reasons[member], failure.Reason)
	}
	r.findWinner()
	for member := range r.folder.Members {
		r.addFaults(member)
	}
	for member, by := range r.folder.Members {
		for _, reason := range []string{"ViewAhead", "FlightAhead", "PullAhead"} {
			if r.has(member, reason) && !r.file.hasAt(by.Head.Device) {
				r.addAhead(member, reason)
			}
		}
	}
	if len(r.reasons[-1]) > 0 {
		r.file.Faults = append(r.file.Faults, &Fault{Cause: Differs, Reasons: r.reasons[-1]})
	}
}

// addAhead adds that a device knows of a version that it could still take: as what follows from a fault, or by itself.
func (r *reader) addAhead(member int, reason string) {
	if len(r.file.Faults) == 0 || r.file.Faults[0].Cause == NewerKnown {
		r.add(member, NewerKnown)
		return
	}
	r.file.Follows = append(r.file.Follows, Follow{r.folder.Members[member].Head.Device, reason})
}

// member gives the place of the device with this number, or -1.
func (r *reader) member(number uint64) int {
	return slices.IndexFunc(r.folder.Members, func(member join.Member) bool { return member.Number == number })
}

// has says whether a member has one of these reasons.
func (r *reader) has(member int, reasons ...string) bool {
	return slices.IndexFunc(r.reasons[member], func(reason string) bool { return slices.Contains(reasons, reason) }) >= 0
}

// at gives what a member has of the name.
func (r *reader) at(member int) *part.Name {
	if r.row == nil {
		return nil
	}
	return r.row.At[member]
}

// findWinner finds what is due. Each device that no reason speaks against has it in its record. If such a device has it on
// its disk, too, it has the recorded bytes. One that has them with another time counts where no other one has them.
func (r *reader) findWinner() {
	unclean := []string{}
	for member, by := range r.folder.Members {
		if r.has(member, "RecordMissing", "RecordDiffers", "LocalOnly") {
			continue
		}
		switch {
		case r.has(member, "StoreDiffers"):
		case r.has(member, "StoreUnclean"):
			unclean = append(unclean, by.Head.Device)
		default:
			r.file.Have = append(r.file.Have, by.Head.Device)
		}
	}
	if r.row != nil {
		r.winner = r.row.Winner(func(member int) bool { return !r.has(member, "RecordMissing", "RecordDiffers", "LocalOnly") })
	}
	if len(r.file.Have) == 0 {
		r.file.Have, r.file.isOfAnotherTime = unclean, len(unclean) > 0
	}
}

// addFaults adds what is wrong at a member.
func (r *reader) addFaults(member int) {
	at := r.at(member)
	disk := Cause("")
	if at != nil {
		disk = onDisk(at)
	}
	isBehind := r.has(member, "RecordMissing", "RecordDiffers")
	switch {
	case r.has(member, "LocalOnly"):
		r.add(member, LocalChange)
	case isBehind && r.winner != nil && isCutOtherwise(at, r.winner):
		r.add(member, OtherBlocks)
	case isBehind && at != nil && at.Own != nil && r.winner != nil && !at.Own.Version.IsAtMost(r.winner.Version):
		r.add(member, Conflicting)
	case isBehind:
		r.add(member, Behind)
	case at == nil && r.has(member, "StoreDiffers"):
		r.add(member, Differs)
	case at == nil && r.has(member, "StoreUnclean"):
		r.add(member, OtherTime)
	}
	if r.has(member, "StoreDiffers", "StoreUnclean") && disk != "" {
		r.add(member, disk)
	} else if r.has(member, "StoreDiffers") && at != nil && !isBehind && !r.has(member, "LocalOnly") {
		r.add(member, Differs)
	}
}

// add adds a fault with what is known of it.
func (r *reader) add(member int, cause Cause) {
	of, at := r.folder.Members[member], r.at(member)
	fault := &Fault{Device: of.Head.Device, Cause: cause, Kind: kindOf(of), Due: finding.Recorded(r.winner), Reasons: r.reasons[member], at: at, due: r.winner, isOverWire: of.Head.IsOverWireAlone()}
	if at != nil {
		fault.Recorded, fault.Found = finding.Recorded(at.Own), finding.Found(at.Disk)
		if cause == OtherBytes || cause == Changed {
			fault.Blocks, fault.Damage = blocksOf(at), damage.Of(at.Own, at.Disk)
		}
		fault.sources = r.sourcesOf(member)
		fault.isTied = cause == Behind && r.isTied(at)
		fault.IsOfOneTime = cause == Behind && isOfOneTime(at.Own, r.winner)
	}
	fault.isUntold = cause == Behind && !fault.isTied && r.isUntold(member)
	fault.Deletion = cause == Behind && fault.lacksDeletion() ||
		(cause == LocalChange || cause == Conflicting || cause == LocalAddition) && fault.Recorded != nil && fault.Recorded.Deleted
	r.file.Faults = append(r.file.Faults, fault)
}
