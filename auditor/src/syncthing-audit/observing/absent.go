package observing

import (
	"syncthing-audit/inputs"
	"syncthing-audit/outside"
)

// left gives the devices that couldn't be looked at, and why, and where that lasts for how long.
func (o *observing) left() []inputs.Left {
	var left []inputs.Left
	for at := range o.addresses {
		if why := o.failed[at]; why != nil {
			id := o.addresses[at].id.String()
			left = append(left, inputs.Left{Called: id, Device: id, Why: why.Error() + o.news.often(o.addresses[at].given)})
		}
	}
	return left
}

// tellBack tells which devices could be looked at that failed at the look before.
func (o *observing) tellBack() {
	for at, device := range o.devices {
		if device == nil {
			continue
		}
		if told := o.news.works(o.addresses[at].given); told != "" {
			outside.Printf(o.log, "syncthing-audit: %s: it is back, after it failed at %s\n", o.addresses[at].given, told)
		}
	}
}
