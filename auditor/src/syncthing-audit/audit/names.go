package audit

import (
	"strings"

	"syncthing-audit/finding"
	"syncthing-audit/join"
	"syncthing-audit/part"
	"syncthing-audit/rows"
)

// names goes through the names of one folder.
type names struct {
	*collector
	folder *join.Folder
	found  *finding.Folder
	filled filled
	below  *finding.LeftOut // the directory below which all is left out, if there is one

	isBelowUnlisted bool // that directory isn't listed, so what is below it is counted with the others
}

// row takes a name: it is audited, or told as one that isn't, or as one without a winner.
func (n *names) row(row *join.Row) error {
	n.collector.names++
	if n.options.Joined != nil {
		n.options.Joined.Add(1)
	}
	switch {
	case n.isBelow(row):
		n.addOwnFaults(row)
	case row.IsMoving():
		n.addMoving(row)
		n.addOwnFaults(row)
	case isOutside(row):
		n.found.Outside.Add(1, row.Size())
	case hasOut(row):
		n.addOwnFaults(row)
		n.leaveOut(row, n.reasonsOf(row))
	default:
		return n.audit(row)
	}
	return nil
}

// audit has a name audited.
func (n *names) audit(row *join.Row) error {
	n.audited++
	n.addUnheard(row)
	n.addPermissions(row)
	n.addConflict(row)
	n.addDamaged(row)
	if isDeleting(row) {
		n.found.Deleting++
	}
	if !hasWinner(row) && isKnown(row) {
		n.addUnwon(row)
		return nil
	}
	full, out := n.filled.Add(row)
	if out != nil {
		n.audited--
		n.leaveOut(row, []finding.Reason{{Kind: out.Kind, Why: out.Why}})
		return nil
	}
	n.addLoose(row)
	if full == nil {
		return nil
	}
	return n.give(full)
}

// keep keeps what the devices have of a name of which something is told, once, as far as there is room.
func (n *names) keep(row *join.Row) {
	if n.found.Rows[row.Name] != nil {
		return
	}
	if kept := n.room.Keep(row); kept != nil {
		n.found.Rows[row.Name] = kept
	}
}

// give gives a piece to those who answer it. Where something was refused there is no answer, so it isn't asked for.
func (n *names) give(piece *rows.Piece) error {
	n.found.Documents++
	piece.Place = n.pieces
	n.pieces++
	if len(n.answer.Refusals) > 0 {
		return nil
	}
	return n.take(piece)
}

// isBelow says whether a name stands below a directory that couldn't be read somewhere, and counts it.
func (n *names) isBelow(row *join.Row) bool {
	if n.below == nil || !strings.HasPrefix(row.Name, string(n.below.Name)) || row.Name == string(n.below.Name) {
		return false
	}
	n.below.Names++
	n.below.Bytes = part.Sum(n.below.Bytes, row.Size())
	if n.isBelowUnlisted {
		n.found.Unlisted.LeftOut.Add(1, row.Size())
	}
	return true
}

// leaveOut leaves a name out for all these reasons, or refuses it for those to which there is no consent.
func (n *names) leaveOut(row *join.Row, reasons []finding.Reason) {
	left := &finding.LeftOut{Name: part.Bytes(row.Name), Names: 1, Bytes: row.Size(), Why: reasons}
	for _, at := range row.At {
		for _, out := range outsOf(at) {
			left.Below = left.Below || out.Below
		}
	}
	if left.Below {
		left.Names = 0
		n.below, n.isBelowUnlisted = left, false
	}
	refused := false
	for _, why := range reasons {
		if why.Kind != part.Damaged && !n.options.Consent.Has(why.Kind) {
			refused = true
			n.refuse(finding.Refusal{Kind: why.Kind, Folder: n.found.ID, Label: n.found.Label, Device: n.labelOf(why.Device), Name: row.Name, Why: why.Why})
		}
	}
	switch {
	case refused:
	case len(n.found.LeftOut) < finding.MostListed:
		n.found.LeftOut = append(n.found.LeftOut, left)
	default:
		n.found.Unlisted.LeftOut.Add(left.Names, left.Bytes)
		n.isBelowUnlisted = n.isBelowUnlisted || left.Below
	}
}

// labelOf names a device for a person; nothing of none.
func (n *names) labelOf(device string) string {
	for _, member := range n.found.Members {
		if member.Head.Device == device {
			return member.Called()
		}
	}
	return ""
}

func outsOf(name *part.Name) []part.LeftOut {
	if name == nil {
		return nil
	}
	return name.Out
}

// hasOut says whether a member has something of the name that no row says.
func hasOut(row *join.Row) bool {
	for _, name := range row.At {
		if len(outsOf(name)) > 0 {
			return true
		}
	}
	return false
}

// reasonsOf gives why a name can't be audited, at each member, each reason once: a member's record and its disk may have
// the same one.
func (n *names) reasonsOf(row *join.Row) []finding.Reason {
	var reasons []finding.Reason
	seen := map[finding.Reason]bool{}
	for member, name := range row.At {
		for _, out := range outsOf(name) {
			if next := (finding.Reason{Device: n.idOf(member), Kind: out.Kind, Why: out.Why}); !seen[next] {
				seen[next] = true
				reasons = append(reasons, next)
			}
		}
	}
	return reasons
}

// isOutside says whether a name is ignored by each member that has it on its disk, and no index names it. Syncthing doesn't
// take such a name for the folder's.
func isOutside(row *join.Row) bool {
	for _, name := range row.At {
		if name == nil {
			continue
		}
		if name.Own != nil || len(name.Views) > 0 || len(name.Out) != 1 || name.Out[0].Kind != part.Ignored || name.Disk == nil {
			return false
		}
	}
	return true
}
