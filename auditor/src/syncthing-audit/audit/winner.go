package audit

import (
	"syncthing-audit/finding"
	"syncthing-audit/join"
	"syncthing-audit/part"
)

// hasWinner says whether others may take one of the devices' own records. One of them wins then, and syncaudit says which.
// A name without a winner is told here, since no certificate has a row for it.
func hasWinner(row *join.Row) bool {
	for _, name := range row.At {
		if name != nil && name.Own != nil && !name.Own.Invalid {
			return true
		}
	}
	return false
}

// isDeleting says whether a deletion is what is due, and a device records the name as something that stands there still.
func isDeleting(row *join.Row) bool {
	isGone, stands := false, false
	for _, name := range row.At {
		if name != nil && name.Own != nil && !name.Own.Invalid {
			isGone, stands = isGone || name.Own.Deleted, stands || !name.Own.Deleted
		}
	}
	return isGone && stands && row.Winner(join.OfAll).Deleted
}

// isKnown says whether anything holds a name: an own record, a node, or a record that others may take in a view.
func isKnown(row *join.Row) bool {
	for _, name := range row.At {
		if name == nil {
			continue
		}
		if name.Own != nil || name.Disk != nil {
			return true
		}
		if seesOne(name) {
			return true
		}
	}
	return false
}

// seesOne says whether a device knows of another one's record that others may take.
func seesOne(name *part.Name) bool {
	for _, seen := range name.Views {
		if !seen.Record.Invalid {
			return true
		}
	}
	return false
}

// addUnwon adds a name without a winner, with what each device has of it.
func (n *names) addUnwon(row *join.Row) {
	unwon := finding.Unwon{Name: row.Name}
	isDeleted := true
	for member, name := range row.At {
		if name == nil {
			continue
		}
		isDeleted = isDeleted && name.Disk == nil
		kind := finding.OnlySeen
		if name.Own != nil {
			kind = finding.LocalChange
		} else if name.Disk != nil {
			kind = finding.Unscanned
		} else if !seesOne(name) {
			continue
		}
		unwon.At = append(unwon.At, finding.Cause{Member: member, Kind: kind})
	}
	n.found.Names++
	if isDeleted {
		n.found.Deleted++
	}
	n.found.Unwon.Add(unwon)
	n.keep(row)
}
