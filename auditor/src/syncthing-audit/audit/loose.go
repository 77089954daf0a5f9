package audit

import (
	"golang.org/x/exp/slices"
	"syncthing-audit/finding"
	"syncthing-audit/join"
	"syncthing-audit/part"
)

// addLoose adds a name that keeps its folder from being firm, if nothing else is wrong with its records. syncaudit says
// whether the folder is settled and firm. Which names keep it from that, and how many they are, is found here.
func (n *names) addLoose(row *join.Row) {
	if hasOneVersion(row) {
		return
	}
	winner := row.Winner(join.OfAll)
	if winner == nil || !areAlike(row, winner) {
		return
	}
	loose := finding.Loose{Name: row.Name}
	for member, name := range row.At { // nothing is beyond the winner, so what the winner is at most is the same
		if name != nil && name.Own != nil && !winner.Version.IsAtMost(name.Own.Version) {
			loose.At = append(loose.At, finding.LooseAt{Member: member, Reason: finding.VersionDiffers,
				IsOlder: name.Own.Version.IsAtMost(winner.Version)})
		}
	}
	for member, name := range row.At {
		if name != nil && n.seesNotBelow(member, name, winner) {
			loose.At = append(loose.At, finding.LooseAt{Member: member, Reason: finding.ViewNotBelow})
		}
	}
	if len(loose.At) > 0 {
		n.found.Loose.Add(loose)
	}
}

// hasOneVersion says whether all records of a name have one version. Nothing is loose then.
func hasOneVersion(row *join.Row) bool {
	var version part.Version
	isFirst := true
	is := func(record *part.Record) bool {
		if isFirst {
			version, isFirst = record.Version, false
		}
		return slices.Equal(record.Version, version)
	}
	for _, name := range row.At {
		if name == nil {
			continue
		}
		if name.Own != nil && !is(name.Own) {
			return false
		}
		for _, seen := range name.Views {
			if seen.Record != name.Own && !is(seen.Record) {
				return false
			}
		}
	}
	return true
}

// seesNotBelow says whether a member knows of a record at another member whose version isn't at most the winner's.
func (n *names) seesNotBelow(member int, name *part.Name, winner *part.Record) bool {
	views := n.folder.Members[member].About.Views
	for _, seen := range name.Views {
		if n.folder.Member(views[seen.View].Device) >= 0 && !seen.Record.Invalid && !seen.Record.Version.IsAtMost(winner.Version) {
			return true
		}
	}
	return false
}

// areAlike says whether all own records have the winner's content: without that the folder isn't settled.
func areAlike(row *join.Row, winner *part.Record) bool {
	for _, name := range row.At {
		if name != nil && name.Own != nil && (name.Own.Invalid || !isAlike(name.Own, winner)) {
			return false
		}
	}
	return true
}

// isAlike says whether two records have one content. Of one type both have one in bytes, or neither.
func isAlike(record, other *part.Record) bool {
	switch {
	case record.Deleted || other.Deleted:
		return record.Deleted == other.Deleted
	case record.Type != other.Type:
		return false
	case record.Content == nil:
		return record.Target == other.Target
	}
	return record.Content.IsSame(other.Content)
}
