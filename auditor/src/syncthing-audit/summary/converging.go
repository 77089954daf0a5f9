package summary

import "syncthing-audit/finding"

// Hindrance is why a folder doesn't come right by itself, as far as its records say.
type Hindrance struct {
	Reason string `json:"reason"`
	Name   Text   `json:"name"`
	Device string `json:"device,omitempty"` // by its id
}

// hindranceOf gives the first thing that hinders a folder which isn't in step; nothing where nothing does.
func hindranceOf(from *finding.Folder) *Hindrance {
	first := from.Convergence.First
	if first == nil || !from.HasFailures() {
		return nil
	}
	hindrance := &Hindrance{Reason: first.Reason, Name: Text(first.Name)}
	for _, member := range from.Members {
		if member.Number == first.Device {
			hindrance.Device = member.Head.Device
		}
	}
	return hindrance
}
