package audit

import (
	"path"
	"regexp"

	"syncthing-audit/finding"
	"syncthing-audit/join"
	"syncthing-audit/part"
)

// conflictCopy is how Syncthing names the copy of a file that lost to another version; older releases without a device.
var conflictCopy = regexp.MustCompile(`\.sync-conflict-[0-9]{8}-[0-9]{6}(-[A-Z2-7]{7})?`)

// addConflict adds a name of a conflict copy that a device still has.
func (n *names) addConflict(row *join.Row) {
	if !conflictCopy.MatchString(path.Base(row.Name)) {
		return
	}
	for _, name := range row.At {
		if name != nil && name.Disk != nil {
			if len(n.found.Conflicts) < finding.MostListed {
				n.found.Conflicts = append(n.found.Conflicts, finding.Conflict{Name: part.Bytes(row.Name), Bytes: row.Size()})
			} else {
				n.found.Unlisted.Conflicts.Add(1, row.Size())
			}
			return
		}
	}
}
