package summary

import (
	"syncthing-audit/join"
	"syncthing-audit/part"
)

// isTied says whether a device has something else than what is due under the very version of that.
func (r *reader) isTied(at *part.Name) bool {
	return at.Own != nil && r.winner != nil && at.Own.Version.IsAtMost(r.winner.Version) && r.winner.Version.IsAtMost(at.Own.Version)
}

// isUntold says whether a member lacks what is due, and none of those who have it tells it so: what it knows of their indexes goes further
// than that change, and doesn't have it. Syncthing sends what comes behind the greatest sequence that the other device has heard. A device
// whose index went back, as after a power cut, gives its sequences anew, and then others have heard of them already. Of running devices that
// isn't said: a change may be on its way.
func (r *reader) isUntold(member int) bool {
	if r.row == nil || r.winner == nil || r.folder.Live != nil {
		return false
	}
	is := false
	for other, name := range r.row.At {
		if other == member || name == nil || name.Own == nil || name.Own.Invalid || !r.winner.Version.IsAtMost(name.Own.Version) {
			continue
		}
		view, seen := join.ViewOf(r.folder.Members, r.row, member, other)
		if view == nil {
			continue
		}
		isPast := view.IndexID == r.folder.Members[other].About.IndexID && view.Max >= name.Own.Sequence
		if !isPast || seen != nil && name.Own.Version.IsAtMost(seen.Version) {
			return false
		}
		is = true
	}
	return is
}
