package forecast

// Why a device doesn't take what it needs.
type Why string

const (
	NoReason         Why = ""
	OnlySends        Why = "only-sends"         // the folder only sends, and what prevails differs
	NoSource         Why = "no-source"          // no device has the bytes that are recorded
	NotScanned       Why = "not-scanned"        // something else stands there than is recorded
	HasUnscanned     Why = "has-unscanned"      // a directory has something that isn't recorded
	HasIgnored       Why = "has-ignored"        // a directory has something that .stignore keeps out
	HasLocalChanges  Why = "has-local-changes"  // a directory has local changes
	NotEmpty         Why = "not-empty"          // a directory isn't empty
	BelowNoDirectory Why = "below-no-directory" // what is above isn't a directory
	IsDirectory      Why = "is-directory"       // a file is to be deleted, and it is a directory
	NotThere         Why = "not-there"          // another time or mode is to be set, and nothing is there
	InvalidName      Why = "invalid-name"       // the device's system can't have such a name

	// Why a device keeps a name, though it needs nothing of it.
	KeepsLocalChange Why = "local-change"      // the folder only receives, and was changed there
	NotSeen          Why = "not-seen"          // the disk has other bytes than recorded, which no scan sees
	IgnoresDeletions Why = "ignores-deletions" // the folder takes no deletions
)

// AllWhys are all of them.
var AllWhys = []Why{NoReason, OnlySends, NoSource, NotScanned, HasUnscanned, HasIgnored, HasLocalChanges, NotEmpty, BelowNoDirectory, IsDirectory, NotThere, InvalidName,
	KeepsLocalChange, NotSeen, IgnoresDeletions}

// pull is one pull of one device. It works on the state, and reads what the device knew when the pull began: its index is written at the
// end of a pull.
type pull struct {
	*state
	i       int
	old     *state
	jobs    []job
	scans   map[int]bool
	rescans []source
	errors  map[int]Why
	buckets map[int32][]int // files to be deleted, by their bytes
	due     map[int]bool    // those of them that are still to be deleted
	dirs    []int
	holders map[int32][]int // files by the bytes that the device recorded, once they were asked for
}

type job struct {
	n     int
	entry record
}

// source is a file on another device that hasn't the bytes it is recorded with.
type source struct{ j, n int }

func (s *state) newPull(i int) *pull {
	return &pull{state: s, i: i, old: s.copied(), scans: map[int]bool{}, errors: map[int]Why{}, buckets: map[int32][]int{}, due: map[int]bool{}}
}

// pullOn has a device take what it needs. It gives what it failed to take.
func (s *state) pullOn(i int) map[int]Why {
	var needed []int
	for n := range s.names {
		if entry := s.need(i, n); entry.isThere() && !(entry.deleted && s.devices[i].IgnoreDelete) {
			needed = append(needed, n)
		}
	}
	if len(needed) == 0 {
		return nil
	}
	if s.devices[i].Kind == SendOnly {
		return s.mergeSame(i, needed)
	}
	p := s.newPull(i)
	p.takeFiles(p.takeOthers(needed))
	p.deleteRest()
	p.finish()
	return p.errors
}

// mergeSame is the pull of a folder that only sends: it takes the record of what is the same.
func (s *state) mergeSame(i int, needed []int) map[int]Why {
	errors := map[int]Why{}
	ignored := comparison{permissions: s.devices[i].IgnorePermissions, window: s.devices[i].TimeWindow}
	for _, n := range needed {
		entry, own := s.need(i, n), s.own(i, n)
		if own.isThere() && s.isEquivalent(entry, own, ignored) {
			s.put(i, i, n, *entry)
		} else {
			errors[n] = OnlySends
		}
	}
	return errors
}

// takeOthers deals with all but files that are to be fetched or renamed, which it gives.
func (p *pull) takeOthers(needed []int) (files []int) {
	for _, n := range needed {
		entry, own := p.wanted(n), p.recorded(n)
		switch {
		case p.names[n].bars.Has(p.i) && entry.deleted:
			p.done(n, *entry)
		case p.names[n].bars.Has(p.i):
			p.note(n, InvalidName)
		case entry.deleted && entry.kind == Directory:
			p.dirs = append(p.dirs, n)
		case entry.deleted && entry.kind == File && own.isThere() && !own.deleted && own.kind == File && own.flag == Valid:
			p.due[n] = true
			p.buckets[own.content] = append(p.buckets[own.content], n)
		case entry.deleted:
			p.note(n, p.deleteFile(n))
		case own.content != 0 && own.content == entry.content:
			p.note(n, p.setTimeAndMode(n))
		case entry.kind == File:
			files = append(files, n)
		case entry.kind == Directory:
			p.note(n, p.makeDirectory(n))
		default:
			p.note(n, p.makeSymlink(n))
		}
	}
	return files
}

// wanted gives the record that prevails, and recorded the device's own, as they were when the pull began.
func (p *pull) wanted(n int) *record {
	entry, _ := p.old.global(p.i, n)
	return entry
}
func (p *pull) recorded(n int) *record { return p.old.own(p.i, n) }

func (p *pull) note(n int, why Why) {
	if _, is := p.errors[n]; why != NoReason && !is {
		p.errors[n] = why
	}
}

// done has the index take a record at the end of the pull.
func (p *pull) done(n int, entry record) Why {
	p.jobs = append(p.jobs, job{n, entry})
	return NoReason
}

func (p *pull) device() *Device { return &p.devices[p.i] }

// modeOf gives the mode of something made anew.
func (p *pull) modeOf(entry *record, usual int32) int32 {
	if p.device().IgnorePermissions || entry.mode == NoMode {
		return usual
	}
	return entry.mode
}

// setTimeAndMode is Syncthing's shortcutFile: the bytes are recorded already.
func (p *pull) setTimeAndMode(n int) Why {
	entry, what := p.wanted(n), *p.at(p.i, n)
	ignores := p.device().IgnorePermissions || entry.mode == NoMode
	if (!what.isThere() || what.kind == Symlink) && !ignores {
		return NotThere
	}
	if what.isThere() && what.kind != Symlink {
		what.mode = p.modeOf(entry, what.mode)
		if what.kind == File {
			what.time = entry.time
		}
		p.write(p.i, n, what)
	}
	return p.done(n, *entry)
}

// finish writes the index, has scanned what the pull found to be scanned, and has other devices hash what isn't as it is recorded.
func (p *pull) finish() {
	for _, job := range p.jobs {
		p.put(p.i, p.i, job.n, job.entry)
	}
	if len(p.scans) > 0 {
		p.scan(p.i, p.scans)
	}
	for _, source := range p.rescans {
		own := *p.own(source.j, source.n)
		if !own.isThere() {
			continue
		}
		own.flag = MustBeHashed
		p.put(source.j, source.j, source.n, own)
		p.scan(source.j, map[int]bool{source.n: true})
	}
}
