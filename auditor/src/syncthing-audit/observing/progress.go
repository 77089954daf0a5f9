package observing

import (
	"sync/atomic"

	"syncthing-audit/terminal"
)

// startProgress begins to show a person how many bytes are read, of how many that are recorded and asked for; what it gives ends that.
func (o *observing) startProgress() func() {
	if !terminal.Is(o.log) {
		return func() {}
	}
	return terminal.Start(o.log, (&terminal.Work{Verb: "read", Hashed: o.read.Load, ToHash: o.toRead()}).Line)
}

// toRead gives how many bytes are asked for. A device whose index can't be read gives none of them.
func (o *observing) toRead() int64 {
	var sum atomic.Int64
	o.each("first look", func(at int) error {
		bytes, _ := o.devices[at].Wanted(o.wants(at))
		sum.Add(bytes)
		return nil
	})
	return sum.Load()
}
