package places

import (
	"fmt"

	"syncthing-audit/audit"
	"syncthing-audit/device"
	"syncthing-audit/inputs"
	"syncthing-audit/join"
	"syncthing-audit/outside"
	"syncthing-audit/part"
)

// endedCommand is why a command at a place gave nothing: the machine isn't reached, say, or the home there can't be audited. The other places go on.
type endedCommand struct{ err error }

func (e *endedCommand) Error() string { return e.err.Error() }

func (e *endedCommand) Unwrap() error { return e.err }

// goesOn says whether the others are audited without the places whose commands gave nothing.
func (r *running) goesOn() bool { return r.asked.Consent().Has(part.Absent) }

// leaveOut leaves a place out from now on, and tells why.
func (r *running) leaveOut(at int, what string, err error) {
	r.mutex.Lock()
	defer r.mutex.Unlock()
	if r.out == nil {
		r.out = map[int]string{}
	}
	r.out[at] = err.Error()
	outside.Printf(r.log, "syncthing-audit: %s: %v. It is left out\n", what, err)
}

// isOut says whether a place is left out.
func (r *running) isOut(at int) bool {
	r.mutex.Lock()
	defer r.mutex.Unlock()
	_, is := r.out[at]
	return is
}

// present gives the places that aren't left out.
func (r *running) present() []int {
	places := []int{}
	for at := range r.places {
		if !r.isOut(at) {
			places = append(places, at)
		}
	}
	return places
}

// checkPresent says whether all places are left out.
func (r *running) checkPresent() error {
	if len(r.present()) > 0 {
		return nil
	}
	return fmt.Errorf("%w: each device is left out", audit.ErrNothing)
}

// left gives the places that are left out.
func (r *running) left() []inputs.Left {
	left := []inputs.Left{}
	for at, place := range r.places {
		if !r.isOut(at) {
			continue
		}
		id := place.device
		if id == "" && place.host == "" {
			id = device.IDOf(place.home)
		} else if id == "" {
			id = r.known.ids[atPlace(place)]
		}
		left = append(left, inputs.Left{Called: place.called(), Device: id, Why: r.out[at]})
	}
	return left
}

// leaveOutAway leaves out a place that has none of the wanted folders there, where that is since their directories aren't.
func (r *running) leaveOutAway(at int, said *join.Device) {
	for _, other := range said.Head.Others {
		if other.Away != "" && len(said.Head.Folders) == 0 {
			r.leaveOut(at, "asking what is shared", fmt.Errorf("%s: %s", r.places[at].called(), join.WhyAway(other)))
			return
		}
	}
}
