package audit

import (
	"fmt"

	"syncthing-audit/ask"
	"syncthing-audit/finding"
	"syncthing-audit/join"
	"syncthing-audit/rows"
	"syncthing-audit/shell"
)

// Replies gathers what syncaudit says of pieces, beside what is found in other ways.
type Replies struct {
	folders map[folderKey]*replied
	room    finding.Room
}

// folderKey tells folders apart: of one id there may be several, each its device's own.
type folderKey struct{ id, own string }

// replied is what it says of one folder.
type replied struct {
	pieces         int
	names, deleted int64
	notFirm        []finding.Failure // what each piece tells first
	convergence    finding.Convergence
	failures       finding.Failures
	rows           []*join.Row // of names that fail, as far as there is room
}

// NewReplies begins to gather.
func NewReplies() *Replies { return &Replies{folders: map[folderKey]*replied{}} }

// Take adds a reply. They come in the order of their pieces.
func (r *Replies) Take(piece *rows.Piece, reply *ask.Reply) {
	key := folderKey{piece.Folder, piece.Own}
	to := r.folders[key]
	if to == nil {
		to = &replied{}
		r.folders[key] = to
	}
	to.pieces++
	to.names += reply.Names
	to.deleted += reply.Deleted
	if reply.NotFirm != nil {
		to.notFirm = append(to.notFirm, *reply.NotFirm)
	}
	to.convergence.Take(reply.Convergence)
	failed := map[string]bool{}
	for _, failure := range reply.Failures {
		to.failures.Add(failure)
		failed[failure.Name] = true
	}
	for _, row := range piece.Rows {
		if !failed[row.Name] {
			continue
		}
		if kept := r.room.Keep(row); kept != nil {
			to.rows = append(to.rows, kept)
		}
	}
}

// AddTo adds all replies to what was found, and says why that isn't whole, if so. Where something was refused nobody is asked any more.
func (r *Replies) AddTo(answer *finding.Answer) error {
	if len(answer.Refusals) > 0 {
		return answer.Err()
	}
	for _, folder := range answer.Folders {
		from := r.folders[folderKey{folder.ID, folder.Own}]
		if from == nil || from.pieces != folder.Documents {
			return fmt.Errorf("refused: folder %s: syncaudit didn't answer to all of it", shell.Folder(folder.ID, folder.Label))
		}
		folder.Names += from.names
		folder.Deleted += from.deleted
		folder.Failures = from.failures
		folder.NotFirm = finding.First(from.notFirm, finding.FirmReasons)
		folder.Convergence = from.convergence
		for _, row := range from.rows {
			folder.Rows[row.Name] = row
		}
	}
	for _, folder := range answer.Folders {
		if err := folder.CheckLoose(); err != nil {
			return err
		}
	}
	return answer.Err()
}
