package audit

import (
	"errors"
	"fmt"
	"strings"

	"golang.org/x/exp/slices"
	"syncthing-audit/finding"
	"syncthing-audit/join"
	"syncthing-audit/part"
	"syncthing-audit/shell"
)

// liveOf begins what is told of a folder whose devices were looked at twice, or whose parts are of different moments; nothing of others.
func liveOf(folder *join.Folder) *finding.Live {
	if !folder.IsLive() && folder.IsOfOneMoment() {
		return nil
	}
	live := finding.NewLive()
	live.WentBack = folder.HasGoneBack()
	if !folder.IsLive() {
		live.OfParts = true
	} else if spent, err := folder.Still(); err == nil {
		live.SetStill(spent)
	}
	return live
}

// addMoving adds a name that changed at a device between its two looks, or after its part was made.
func (n *names) addMoving(row *join.Row) {
	moving := finding.Moving{Name: part.Bytes(row.Name)}
	for member, name := range row.At {
		if name != nil && len(name.Moved) > 0 {
			moving.At = append(moving.At, n.movedOf(row, member))
		} else if slices.Contains(row.Later, member) {
			moving.At = append(moving.At, finding.Moved{Device: n.idOf(member), Why: []string{part.MovedLater}})
		}
	}
	n.found.Live.AddMoving(moving)
}

func (n *names) idOf(member int) string { return n.found.Members[member].Head.Device }

// addUnheard counts a still name whose record a device hadn't heard of from another one.
func (n *names) addUnheard(row *join.Row) {
	if n.found.Live == nil || n.found.Live.OfParts {
		return
	}
	for knower := range row.At {
		for of := range row.At {
			if n.folder.IsUnheard(row, knower, of) {
				n.found.Live.AddUnheard(n.idOf(knower), n.idOf(of))
			}
		}
	}
}

// nothingIsStill says that all names of running devices are in motion, and what of these no scan has seen: who has one made then is to know.
func nothingIsStill(moving int64, folders []*finding.Folder) error {
	told := fmt.Sprintf("refused: there is nothing to audit: all of %d names are in motion: look again", moving)
	for _, folder := range folders {
		for place, member := range folder.Members {
			if waits := folder.SendsAfterScan(place); waits != nil {
				told += fmt.Sprintf(". Before that, on %s: no scan of folder %s has seen %s there. A scan may delete that on all devices, or send it to them, so "+
					"first copy back what is to stay as it is recorded (%s)", member.Called(), shell.Folder(folder.ID, folder.Label),
					kindsOf(waits), sourcesOf(waits, folder))
			}
		}
	}
	return errors.New(told)
}

// kindsOf says how many names wait how.
func kindsOf(waits *finding.Waiting) string {
	words := []string{}
	for _, kind := range finding.KindsOfWaiting {
		if count := waits.Names[kind]; count > 0 && kind != finding.WaitsNew {
			words = append(words, fmt.Sprintf("%d %s", count, kind))
		}
	}
	return strings.Join(words, ", ")
}

// sourcesOf says which other devices have what is recorded.
func sourcesOf(waits *finding.Waiting, folder *finding.Folder) string {
	words := []string{}
	for _, member := range folder.Members {
		if count := waits.From[member.Head.Device]; count > 0 {
			words = append(words, fmt.Sprintf("%d on %s", count, member.Called()))
		}
	}
	if waits.Nowhere > 0 {
		words = append(words, fmt.Sprintf("%d on no audited device", waits.Nowhere))
	}
	return strings.Join(words, ", ")
}
