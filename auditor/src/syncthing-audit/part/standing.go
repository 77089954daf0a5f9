package part

import (
	"encoding/hex"
	"errors"
	"fmt"

	"golang.org/x/exp/slices"
	"syncthing-audit/shell"
)

// kindsOfMoved are what may have changed of a name.
var kindsOfMoved = []string{MovedRecord, MovedViews, MovedDisk, MovedReceiving, MovedUnscanned}

// checkStanding says which field of a name stands where it may not: a part of one look at a stopped device has nothing of two looks.
func checkStanding(name *Name, head *Head) error {
	wrong := ""
	switch isOfLook := head.Look != nil || head.Half != nil; {
	case !isOfLook && len(name.Moved) > 0:
		wrong = "it moved"
	case !isOfLook && name.Receiving != "":
		wrong = "it is being received"
	case !isOfLook && name.Disk != nil && name.Disk.Stamp != "":
		wrong = "it has a stamp"
	}
	if wrong != "" {
		return fmt.Errorf("%s: %s, and the part is of no look at a running device", shell.Path(string(name.Name)), wrong)
	}
	return checkMoved(name)
}

// checkMoved says why what moved of a name is none. Nothing else is told of such a name.
func checkMoved(name *Name) error {
	for _, why := range name.Moved {
		if !slices.Contains(kindsOfMoved, why) {
			return fmt.Errorf("%s moved as %q", shell.Path(string(name.Name)), why)
		}
	}
	if len(name.Moved) > 0 && (name.Own != nil || len(name.Views) > 0 || name.Disk != nil || len(name.Out) > 0 || name.Receiving != "") {
		return fmt.Errorf("%s moved, and more is told of it", shell.Path(string(name.Name)))
	}
	return nil
}

// bytesOfLook is how long the id of a first look is.
const bytesOfLook = 16

// checkLookID says why the id of a first look is none: it goes to other devices, on a line of its own.
func checkLookID(look *Look, isOverWire bool) error {
	if look == nil {
		return nil
	}
	if data, err := hex.DecodeString(look.ID); err != nil || look.ID != "" && len(data) != bytesOfLook {
		return errors.New("the part's look has an id that is none")
	}
	if !look.Ended.IsZero() && !isOverWire {
		return errors.New("the part's look is one of two, and says when both had ended")
	}
	return nil
}
