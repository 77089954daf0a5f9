package finding

import (
	"fmt"

	"golang.org/x/exp/slices"
	"syncthing-audit/shell"
)

// FirmReasons are why a folder that is settled isn't firm, in the order in which they are told.
var FirmReasons = []string{VersionDiffers, ViewNotBelow, FlightNotBelow, PullNotBelow}

// These reasons. The last two are of records on their way and of pulls. Nobody who reads a device's index knows of those.
const (
	VersionDiffers = "VersionDiffers"
	ViewNotBelow   = "ViewNotBelow"
	FlightNotBelow = "FlightNotBelow"
	PullNotBelow   = "PullNotBelow"
)

// Firm says how it stands with a folder, in a word.
type Firm string

// How it stands with a folder or an answer. What isn't settled isn't firm.
const (
	IsFirm   Firm = "firm"
	NotFirm  Firm = "not-firm"
	NotKnown Firm = "not-known" // all have one version, and something that syncaudit isn't told of may change it (Unsure)
)

// Loose is a name that all devices have alike, and that keeps its folder from being firm.
type Loose struct {
	Name string
	At   []LooseAt // by their places in FirmReasons, then by the members'
}

// LooseAt is why, at a device.
type LooseAt struct {
	Member  int
	Reason  string
	IsOlder bool // of VersionDiffers: its own version is older than the winner's, and not concurrent
}

// IsFirmReason says whether a reason is one of FirmReasons.
func IsFirmReason(reason string) bool { return slices.Contains(FirmReasons, reason) }

// HowFirm says how it stands with a folder.
func (f *Folder) HowFirm() Firm {
	switch {
	case f.HasFailures(), f.NotFirm != nil:
		return NotFirm
	case len(f.Unsure()) > 0:
		return NotKnown
	}
	return IsFirm
}

// HowFirm says how it stands with all folders: the worst of them.
func (a *Answer) HowFirm() Firm {
	firm := IsFirm
	for _, folder := range a.Folders {
		switch folder.HowFirm() {
		case NotFirm:
			return NotFirm
		case NotKnown:
			firm = NotKnown
		}
	}
	return firm
}

// EachLoose gives all that keeps a settled folder from being firm to take, in the order in which one document of all would
// have told it.
func (f *Folder) EachLoose(take func(*Failure)) {
	for _, reason := range FirmReasons {
		f.Loose.Each(func(loose *Loose) {
			for _, at := range loose.At {
				if at.Reason == reason {
					take(&Failure{reason, loose.Name, f.Members[at.Member].Number})
				}
			}
		})
	}
}

// CheckLoose says whether the names that were found to keep a folder from being firm begin with what syncaudit says.
func (f *Folder) CheckLoose() error {
	if f.HasFailures() {
		return nil
	}
	var first *Failure
	f.EachLoose(func(failure *Failure) {
		if first == nil {
			first = failure
		}
	})
	if (first == nil) != (f.NotFirm == nil) || first != nil && *first != *f.NotFirm {
		return fmt.Errorf("refused: folder %s: syncaudit says that %v keeps it from being firm, and this program that %v does", shell.Folder(f.ID, f.Label),
			told(f.NotFirm), told(first))
	}
	return nil
}

// told gives a failure for a message.
func told(failure *Failure) string {
	if failure == nil {
		return "nothing"
	}
	return fmt.Sprintf("%s of %q on %d", failure.Reason, failure.Name, failure.Device)
}
