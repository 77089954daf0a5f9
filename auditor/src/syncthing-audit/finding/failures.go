package finding

import "syncthing-audit/spill"

// Failures are what syncaudit tells of a folder, of any number. They are added in the order of names.
type Failures struct {
	byReason [reasons]spill.List[failed]
}

const reasons = 12

// failed is where a reason fails.
type failed struct {
	Name   string
	Device uint64
}

// Add adds a failure.
func (f *Failures) Add(failure Failure) {
	f.byReason[Place(failure.Reason)].Add(failed{failure.Name, failure.Device})
}

// Told is all that is told of a name.
type Told struct {
	Name        string
	Failures    []Failure // that syncaudit tells, in its order
	Unwon       *Unwon
	Permissions *Permissions
	Damaged     *Damaged
}

// HasFailures says whether something keeps the folder from being settled.
func (f *Folder) HasFailures() bool { return f.FirstFailure() != nil }

// FirstFailure gives the failure that one document of all would have told; nothing where the folder is settled.
func (f *Folder) FirstFailure() *Failure {
	for place := range Reasons {
		if next := f.failuresOf(place).next(); next != nil {
			return next
		}
	}
	return nil
}

// EachFailure gives all failures to take, in the order in which one document of all would have told them.
func (f *Folder) EachFailure(take func(*Failure)) {
	for place := range Reasons {
		all := f.failuresOf(place)
		for next := all.next(); next != nil; next = all.next() {
			take(next)
		}
	}
}

// byName goes through the failures of one reason, in the order of names.
type byName struct {
	reason string
	failed *spill.Cursor[failed]
	unwon  *spill.Cursor[Unwon] // of NotWinner alone: such a name has no row
	damage *damages             // of StoreDiffers alone: not all of these names have a row
}

// failuresOf goes through the failures of the reason in this place.
func (f *Folder) failuresOf(place int) *byName {
	sorted := &byName{reason: Reasons[place], failed: f.Failures.byReason[place].Read()}
	if sorted.reason == notWinner {
		sorted.unwon = f.Unwon.Read()
	}
	if sorted.reason == storeDiffers {
		sorted.damage = f.failuresOfDamage()
	}
	return sorted
}

const notWinner = "NotWinner"

// next takes the next failure; nothing at the end.
func (b *byName) next() *Failure {
	next := b.failed.Peek()
	if b.unwon != nil {
		if unwon := b.unwon.Peek(); unwon != nil && (next == nil || unwon.Name < next.Name) {
			b.unwon.Take()
			return &Failure{Reason: b.reason, Name: unwon.Name}
		}
	}
	if b.damage != nil {
		if damaged := b.damage.peek(); damaged != nil && (next == nil || string(damaged.Name) < next.Name) {
			return b.damage.take()
		}
	}
	if next == nil {
		return nil
	}
	b.failed.Take()
	return &Failure{b.reason, next.Name, next.Device}
}

// names goes through all names of which something is told.
type names struct {
	failures    [reasons]*spill.Cursor[failed]
	unwon       *spill.Cursor[Unwon]
	permissions *spill.Cursor[Permissions]
	damaged     *spill.Cursor[Damaged]
}

// EachName gives all names of which something is told to take, rising.
func (f *Folder) EachName(take func(*Told)) {
	all := &names{unwon: f.Unwon.Read(), permissions: f.Permissions.Read(), damaged: f.Damaged.Read()}
	for place := range all.failures {
		all.failures[place] = f.Failures.byReason[place].Read()
	}
	for name, is := all.least(); is; name, is = all.least() {
		take(all.take(name))
	}
}

// least gives the least name that is still to come.
func (n *names) least() (string, bool) {
	least, is := "", false
	see := func(name string) {
		if !is || name < least {
			least, is = name, true
		}
	}
	for _, cursor := range n.failures {
		if next := cursor.Peek(); next != nil {
			see(next.Name)
		}
	}
	if next := n.unwon.Peek(); next != nil {
		see(next.Name)
	}
	if next := n.permissions.Peek(); next != nil {
		see(next.Name)
	}
	if next := n.damaged.Peek(); next != nil {
		see(string(next.Name))
	}
	return least, is
}

// take takes all that is told of a name.
func (n *names) take(name string) *Told {
	told := &Told{Name: name}
	for place, cursor := range n.failures {
		for next := cursor.Peek(); next != nil && next.Name == name; next = cursor.Peek() {
			told.Failures = append(told.Failures, Failure{Reasons[place], next.Name, next.Device})
			cursor.Take()
		}
	}
	if next := n.unwon.Peek(); next != nil && next.Name == name {
		told.Unwon = next
		n.unwon.Take()
	}
	if next := n.permissions.Peek(); next != nil && next.Name == name {
		told.Permissions = next
		n.permissions.Take()
	}
	if next := n.damaged.Peek(); next != nil && string(next.Name) == name {
		told.Damaged = next
		n.damaged.Take()
	}
	return told
}

// Err says why what was found of a folder isn't whole, if so.
func (a *Answer) Err() error {
	for _, folder := range a.Folders {
		for place := range folder.Failures.byReason {
			if err := folder.Failures.byReason[place].Err(); err != nil {
				return err
			}
		}
		if err := folder.Unwon.Err(); err != nil {
			return err
		}
		if err := folder.Permissions.Err(); err != nil {
			return err
		}
		if err := folder.Loose.Err(); err != nil {
			return err
		}
		if err := folder.Damaged.Err(); err != nil {
			return err
		}
	}
	return nil
}
