package summary

import (
	"syncthing-audit/finding"
	"syncthing-audit/lists"
	"syncthing-audit/print"
	"syncthing-audit/shell"
)

// Firm says whether a folder or all of them are firm, or that it wasn't asked. What isn't in step isn't firm.
type Firm = finding.Firm

// Loose is a name that is in step and that keeps its folder from being firm.
type Loose struct {
	Name    Text      `json:"name"`
	Devices []LooseAt `json:"devices"`
}

// LooseAt is why, at a device.
type LooseAt struct {
	Device  string `json:"device"`
	Reason  string `json:"reason"`          // in syncaudit's words
	IsOlder bool   `json:"older,omitempty"` // of VersionDiffers: its version is older than the winner's, and not concurrent
}

// looseOf gives how many names keep a folder in step from being firm, and the first of them.
func looseOf(from *finding.Folder) (int64, []Loose) {
	names := []Loose{}
	if from.HasFailures() || from.HowFirm() != finding.NotFirm {
		return 0, names
	}
	from.Loose.Each(func(loose *finding.Loose) {
		if len(names) == finding.MostListed {
			return
		}
		names = append(names, Loose{Text(loose.Name), lists.Each(loose.At, func(at finding.LooseAt) LooseAt {
			return LooseAt{from.Members[at.Member].Head.Device, at.Reason, at.IsOlder}
		})})
	})
	return from.Loose.Len(), names
}

// wordsOfLoose say why a name keeps its folder from being firm.
var wordsOfLoose = map[string]string{
	finding.VersionDiffers: "has it under a concurrent version",
	finding.ViewNotBelow:   "knows of a concurrent or newer version at another device",
	finding.FlightNotBelow: "is being told of a concurrent or newer version",
	finding.PullNotBelow:   "pulls a concurrent or newer version",
}

func (l LooseAt) words() string {
	if l.IsOlder {
		return "has it under an older version"
	}
	return wordsOfLoose[l.Reason]
}

// What it means for Syncthing that a folder in step isn't firm, and what to do.
const (
	meaningOfLoose = "all devices have the same content, and have or know of versions that differ. Syncthing may still exchange records. " +
		"That this changes no file is proved of this project's own peers only, which merge versions when they adopt a record, as Syncthing doesn't."
	adviceOfLoose = "let all of these devices run, connected, until they are idle, and audit again"
)

// loose prints what keeps a folder in step from being firm.
func (p *printer) loose(folder *Folder) {
	if folder.Loose == 0 {
		return
	}
	p.Line("\n%s %s from being firm", counted(folder.Loose, "name keeps", "names keep"), folder.ID)
	listed(p, mostOfList, folder.Loose, folder.NotFirm, "--lines has all", func(loose Loose) string {
		words := print.Joined(loose.Devices, "; ", func(at LooseAt) string { return p.Called(at.Device) + " " + at.words() })
		return shell.Path(string(loose.Name)) + ": " + words
	})
	p.running("  that is:", meaningOfLoose)
	p.advice([]string{adviceOfLoose})
}
