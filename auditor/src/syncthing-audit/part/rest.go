package part

import (
	"errors"
	"fmt"
)

// Rest says how a device's Syncthing was seen with a folder after the first look was over, and before the second one read the index. What a scan
// found waits in Syncthing's memory while a large file is hashed. A scan that had begun by that moment is over where Syncthing is seen idle then,
// and what it found is in the index that the second look reads. A later scan sees the disk as both looks do.
type Rest struct {
	State  string  `json:"state"`            // RestIdle and so on, or what Syncthing says that it does: 'scanning', say
	Why    string  `json:"why,omitempty"`    // Syncthing couldn't be asked, or can't go on with the folder, in words
	Wanted *Wanted `json:"wanted,omitempty"` // by its REST API, where an observer asked that
}

// Wanted is what Syncthing says that it still needs of a folder, and at which names it fails.
type Wanted struct {
	Count
	Errors int64       `json:"errors,omitempty"`
	First  []NameError `json:"first,omitempty"` // of these errors
}

// NameError is why Syncthing fails at a name, in its own words.
type NameError struct {
	Name Bytes  `json:"name"`
	Why  string `json:"why"`
}

// MostErrors is how many of Syncthing's errors a part has of a folder.
const MostErrors = 10

// How Syncthing was seen with a folder.
const (
	RestIdle    = "idle"
	RestPaused  = "paused"  // the folder, so that Syncthing does nothing there
	RestStopped = "stopped" // no Syncthing runs
	RestUnasked = "unasked" // it couldn't be asked
)

// WhyBusy says in words why a folder isn't known to have been at rest between two looks at the device; nothing where it was, or where the device
// was stopped and looked at once.
func (h *Head) WhyBusy(folder *Folder) string {
	switch {
	case h.Look == nil || h.IsOverWireAlone() && folder.Rest == nil: // of what is seen over the wire more than this isn't known
		return ""
	case h.Wire != nil && folder.Rest == nil:
		return "whether a scan is under way, and whether the folder only receives, isn't seen over the wire, and its disks were walked without --config"
	case folder.Rest == nil:
		return "an older syncthing-audit made the looks there, and didn't ask whether Syncthing is idle"
	case folder.Rest.State == RestUnasked:
		return "Syncthing couldn't be asked whether it is idle: " + folder.Rest.Why
	case !folder.Rest.IsAtRest() && folder.Rest.Wanted != nil: // it was asked at both looks
		return fmt.Sprintf("Syncthing wasn't idle at both looks: it was '%s'%s", folder.Rest.State, because(folder.Rest.Why))
	case !folder.Rest.IsAtRest():
		return fmt.Sprintf("Syncthing was never seen idle between the looks: it was '%s'%s", folder.Rest.State, because(folder.Rest.Why))
	}
	return ""
}

// because says why a folder is as it is, where that is known.
func because(why string) string {
	if why == "" {
		return ""
	}
	return " (" + why + ")"
}

// WhyWanted says in words what Syncthing still needs of a folder, or fails at; nothing where that is nothing, or wasn't asked.
func (r *Rest) WhyWanted() string {
	switch {
	case r == nil || r.Wanted == nil:
		return ""
	case r.Wanted.Errors > 0:
		return fmt.Sprintf("Syncthing says that it fails at names there: %d", r.Wanted.Errors)
	case r.Wanted.Names > 0:
		return fmt.Sprintf("Syncthing says that it still needs names there: %d", r.Wanted.Names)
	}
	return ""
}

// Most gives the greater one of both counts of names.
func (w *Wanted) Most() int64 {
	if w.Errors > w.Names {
		return w.Errors
	}
	return w.Names
}

// checkRest says why what is told of Syncthing and a folder is none.
func checkRest(rest *Rest) error {
	if rest == nil || rest.Wanted == nil {
		return nil
	}
	if wanted := rest.Wanted; wanted.Names < 0 || wanted.Bytes < 0 || wanted.Errors < int64(len(wanted.First)) || len(wanted.First) > MostErrors {
		return errors.New("what Syncthing still needs there is none")
	}
	return nil
}

// Worse gives the one of two answers after which less is known to be at rest, where Syncthing was asked twice; one of them may be nothing. Who couldn't
// ask doesn't say anything.
func (r *Rest) Worse(other *Rest) *Rest {
	switch {
	case r == nil || r.State == RestUnasked && other != nil:
		return other
	case other == nil || other.State == RestUnasked || !r.IsAtRest():
		return r
	case !other.IsAtRest():
		return other
	case r.Wanted == nil:
		return other
	}
	return r
}

// IsAtRest says whether no scan and no pull was under way.
func (r *Rest) IsAtRest() bool {
	return r.State == RestIdle || r.State == RestPaused || r.State == RestStopped
}
