package summary

import (
	"strings"

	"golang.org/x/exp/slices"
	"syncthing-audit/damage"
	"syncthing-audit/finding"
	"syncthing-audit/join"
	"syncthing-audit/lists"
	"syncthing-audit/part"
	"syncthing-audit/print"
	"syncthing-audit/shell"
)

// isOverWire says whether one of these devices of a folder, or some device of it without any, was asked over the wire.
func (f *Folder) isOverWire(devices ...string) bool {
	return lists.Has(f.Devices, func(member Member) bool {
		return member.OverWire != nil && !member.OverWire.hasDisks && (len(devices) == 0 || slices.Contains(devices, member.Device))
	})
}

// OverWire is what isn't seen of a device that was asked over the wire.
type OverWire struct {
	Unseen   []string `json:"unseen"`
	Standing int64    `json:"directories_and_symlinks"` // that are recorded, and taken to stand there
	Unread   int64    `json:"files_not_read"`           // that are recorded, and taken to have their bytes

	WentBackFrom int64 `json:"went_back_from,omitempty"` // its index had changes up to this one at an earlier look
	highest      int64
	hasDisks     bool // a walk there saw what stands on its disks
}

// overWireOf gives what isn't seen of a member; nothing of one that made its part itself.
func overWireOf(member join.Member) *OverWire {
	if member.Device == nil || !member.Head.IsOverWire() {
		return nil
	}
	return &OverWire{append([]string{}, member.Head.Wire.Unseen...), member.Unseen.Standing, member.Unseen.Unread, member.Head.Wire.WentBackFrom, member.About.Max, !member.Head.IsOverWireAlone()}
}

// whyOverWire says in words what isn't seen over the wire, with counts.
func whyOverWire(unsure finding.Unsure) string {
	words := []string{}
	if unsure.Unread > 0 {
		words = append(words, "the bytes of "+counted(unsure.Unread, "file", "files"))
	}
	if unsure.Names > 0 {
		words = append(words, "what stands where "+counted(unsure.Names, "directory or symlink is", "directories and symlinks are")+" recorded")
	}
	words = append(words, "times", "permissions", "names that no scan has taken")
	if !unsure.Asked {
		words = append(words, "whether a scan is under way", "whether the folder only receives")
	}
	return "not seen over the wire: " + strings.Join(words, ", ")
}

// asFarAs says how far a folder was audited.
func (f *Folder) asFarAs() string {
	if f.isOverWire() {
		return " as far as seen over the wire"
	}
	return " as far as audited"
}

// mayBeEdit says whether other bytes may be an edit that no scan has taken: over the wire a file's time isn't seen.
func (f *Fault) mayBeEdit() bool { return f.Cause == OtherBytes && f.isOverWire }

// whetherEdit says to find out whether other bytes are an edit, before what is to be done if they aren't.
func (f *Fault) whetherEdit(file *File, named print.Names) string {
	if !f.mayBeEdit() {
		return ""
	}
	return "first look at the " + file.say("file's time", "files' times") + " on " + named(f.Device) + ", which isn't seen over the wire. If it is the recorded one: "
}

// ofDamage says why what stands on the disk looks like damage, behind what is wrong there.
func (f *Fault) ofDamage() string {
	if f.Damage == damage.None {
		return ""
	}
	if f.isOverWire {
		return ": " + strings.Replace(wordsOfDamage[f.Damage], "the recorded time", "a time that isn't seen over the wire", 1)
	}
	return ": " + wordsOfDamage[f.Damage]
}

// notToldOverWire gives the devices that don't tell their other folders since they were asked over the wire, and the others of that kind.
func (s *Summary) notToldOverWire() (overWire, older []string) {
	overWire = lists.Where(s.NotTold, func(device string) bool { return s.overWire[device] })
	return overWire, lists.Where(s.NotTold, func(device string) bool { return !s.overWire[device] })
}

// nameOfObserver names an observer for a person.
func nameOfObserver(observer join.Observer) string {
	if observer.Name == "" {
		return observer.Device
	}
	return shell.Printable(observer.Name) + " (" + shortOf(observer.Device) + ")"
}

// wentBack prints which devices' indexes went back since an earlier look over the wire.
func (p *printer) wentBack(s *Summary) {
	s.eachMember(func(folder *Folder, member *Member) {
		if member.OverWire != nil && member.OverWire.WentBackFrom > 0 {
			p.Line("went back: the index of %s on %s: an earlier look had its change %d, and its last one is %d now, as after an older home was put in its "+
				"place there. Syncthing doesn't tell the others such changes again by itself", folder.ID, p.Called(member.Device), member.OverWire.WentBackFrom,
				member.OverWire.highest)
			p.advice([]string{"the others may not hear of such changes: stop Syncthing on " + p.Called(member.Device) + ", and " + part.ResetDeltas})
		}
	})
}
