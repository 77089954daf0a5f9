package observing

import (
	"context"
	"fmt"
	"io"
	"net"
	"sort"
	"strings"
	"sync"
	"sync/atomic"
	"time"

	"github.com/syncthing/syncthing/lib/protocol"
	"syncthing-audit/amount"
	"syncthing-audit/budget"
	"syncthing-audit/commandline"
	"syncthing-audit/leftover"
	"syncthing-audit/looks"
	"syncthing-audit/observe"
	"syncthing-audit/outside"
	"syncthing-audit/part"
	"syncthing-audit/wire"
)

// observing is a run of both looks over the wire.
type observing struct {
	asked     commandline.Options
	observer  *wire.Observer
	addresses []address
	room      string
	log       io.Writer
	progress  io.Writer
	mutex     sync.Mutex        // of the log, and of what failed
	failed    map[int]error     // why a device couldn't be looked at
	devices   []*observe.Device // by their places among the addresses; nothing of one that failed
	incoming  net.Listener
	awaited   map[protocol.DeviceID]chan *wire.Connection
	looks     map[protocol.DeviceID]wire.Look                // what a look asks of its device, and puts its indexes into
	kept      map[protocol.DeviceID]map[string]*observe.Kept // by folder
	since     []*wire.Index                                  // of the second looks
	found     string                                         // a directory for what is found
	isWaited  map[protocol.DeviceID]bool                     // whether a look waits for the device now
	isBegun   map[protocol.DeviceID]bool                     // whether a connection of it is taken, or is at its begin
	read      atomic.Int64
	first     time.Time // when the last first look was over
	second    time.Time // when the first second look began
	lookID    string    // the id of the first looks, once they are over
	chosen    *budget.Plan
	walked    map[int][]*observe.Walked // by the devices' places: what walks of disks found with other bytes

	discovering discovering
	news        *news  // of devices that fail
	asking      asking // of the devices' own Syncthings, by --rest
}

// wants gives what is asked of a device. Where its disks are walked, no bytes are asked for over the wire.
func (o *observing) wants(at int) observe.Asked {
	return observe.Asked{Names: o.asked.Names, Records: o.asked.Records || o.asked.Disks[at] != "", Room: o.found, Chosen: o.chosen}
}

// close ends the listening, and lets go of all indexes and of what was found.
func (o *observing) close() {
	if o.incoming != nil {
		o.incoming.Close()
	}
	for _, awaited := range o.awaited {
		select {
		case connection := <-awaited: // it came when nobody waited any more
			connection.Close()
		default:
		}
	}
	for _, index := range o.since {
		index.Close()
	}
	for _, folders := range o.kept {
		for _, kept := range folders {
			kept.Close()
		}
	}
	for _, device := range o.devices {
		if device != nil {
			device.Close()
		}
	}
	o.discovering.close()
	if o.chosen != nil {
		o.chosen.Close()
	}
	if o.found != "" {
		leftover.Remove(o.found)
	}
}

// each does something for each device that hasn't failed, for all at once. One that fails costs its own part alone.
func (o *observing) each(what string, do func(at int) error) {
	var all sync.WaitGroup
	for at := range o.addresses {
		if o.hasFailed(at) {
			continue
		}
		all.Add(1)
		go func(at int) {
			defer all.Done()
			if err := do(at); err != nil {
				o.fail(at, what, err)
			}
		}(at)
	}
	all.Wait()
}

// hasFailed says whether a device couldn't be looked at.
func (o *observing) hasFailed(at int) bool {
	o.mutex.Lock()
	defer o.mutex.Unlock()
	return o.failed[at] != nil
}

// fail tells that a device couldn't be looked at.
func (o *observing) fail(at int, what string, err error) {
	o.mutex.Lock()
	defer o.mutex.Unlock()
	if o.devices[at] != nil {
		o.devices[at].Close()
	}
	o.failed[at], o.devices[at] = err, nil
	if o.news.fails(o.addresses[at].given, what, err) {
		outside.Printf(o.log, "syncthing-audit: %s: %s: %v\n", o.addresses[at].given, what, err)
	}
}

// tellStep tells a person how far the run is.
func (o *observing) tellStep(format string, words ...interface{}) {
	o.mutex.Lock()
	defer o.mutex.Unlock()
	outside.Printf(o.progress, "syncthing-audit: "+format+"\n", words...)
}

// look makes both looks at all devices.
func (o *observing) look() error {
	if err := o.open(); err != nil {
		return err
	}
	if err := o.beginAsking(); err != nil {
		return err
	}
	connections, err := o.connectAll()
	if err != nil {
		return err
	}
	if err := o.firstLooks(connections); err != nil {
		return err
	}
	o.ask("first look")
	if err := o.endFirstLooks(); err != nil {
		return err
	}
	if left := time.Until(o.first.Add(time.Duration(o.asked.Still * float64(time.Second)))); left > 0 && !o.first.IsZero() {
		o.tellStep("read %s; second look in %.0f s", amount.Bytes(o.read.Load()), left.Seconds())
		time.Sleep(left)
	}
	o.ask("second look")
	o.second = time.Now()
	o.each("second look", o.again)
	o.endAsking()
	o.tellBack()
	if len(o.seen()) == 0 {
		return errNothingSeen
	}
	return nil
}

// connectAll connects to all devices.
func (o *observing) connectAll() ([]*wire.Connection, error) {
	connections := make([]*wire.Connection, len(o.addresses))
	o.tellStep("connecting to %s", amount.Of(len(o.addresses), "device"))
	o.each("not connected", func(at int) (err error) {
		connections[at], err = o.connect(at)
		return err
	})
	err := o.checkAll(connections)
	if err != nil {
		o.closeAll(connections)
	}
	return connections, err
}

// closeAll closes the connections to all devices that haven't failed.
func (o *observing) closeAll(connections []*wire.Connection) {
	o.each("", func(at int) error { connections[at].Close(); return nil })
}

// firstLooks makes the first looks: all indexes, then the bytes, once it is known which of them are asked for.
func (o *observing) firstLooks(connections []*wire.Connection) error {
	o.tellStep("first look")
	o.each("first look", func(at int) error {
		kept := func(folder string) *observe.Kept { return o.keptOf(connections[at].Device, folder) }
		device, err := observe.Begin(context.Background(), connections[at], kept, o.found)
		if err != nil {
			connections[at].Close()
			return err
		}
		o.mutex.Lock()
		defer o.mutex.Unlock()
		o.devices[at] = device
		return nil
	})
	if err := o.choose(); err != nil {
		o.closeAll(connections)
		return err
	}
	defer o.startProgress()()
	o.each("first look", func(at int) error {
		defer connections[at].Close()
		if err := o.devices[at].Read(context.Background(), connections[at], o.wants(at), func(bytes int64) { o.read.Add(bytes) }); err != nil {
			return err
		}
		o.mutex.Lock()
		defer o.mutex.Unlock()
		o.first = time.Now()
		o.looks[o.devices[at].ID] = o.lookSince(o.devices[at])
		return nil
	})
	return nil
}

// endFirstLooks gives the first looks their id, and waits for what was to come after them.
func (o *observing) endFirstLooks() (err error) {
	if o.lookID, err = looks.NewID(); err != nil {
		return err
	}
	return o.waitForDisks()
}

// again makes the second look at a device.
func (o *observing) again(at int) error {
	connection, err := o.connect(at)
	if err != nil {
		return err
	}
	defer connection.Close()
	if err := o.devices[at].End(context.Background(), connection); err != nil {
		return err
	}
	return o.devices[at].Compare(context.Background(), connection, o.walked[at])
}

// mostLacking is how many devices are named that aren't asked.
const mostLacking = 10

// checkAll refuses devices that share the folder and aren't asked, before any byte is read. Where parts are written alone, 'check' does so.
func (o *observing) checkAll(connections []*wire.Connection) error {
	if len(o.failed) == len(o.addresses) {
		return errNothingSeen
	}
	if o.asked.Into != "" || o.asked.Consent().Has(part.Absent) {
		return nil
	}
	lacking := map[string]bool{}
	for _, connection := range connections {
		if connection == nil {
			continue
		}
		for _, folder := range connection.Folders {
			for _, sharing := range folder.Devices {
				if sharing.Device != o.observer.ID && !o.isAsked(sharing.Device) {
					lacking[fmt.Sprintf("%s (%s)", sharing.Name, sharing.Device)] = true
				}
			}
		}
	}
	if len(o.failed) == 0 && len(lacking) == 0 {
		return nil
	}
	if len(lacking) == 0 {
		return fmt.Errorf("refused: not all devices could be asked: --%s leaves out those that couldn't", "leave-out "+part.Absent)
	}
	names := []string{}
	for name := range lacking {
		names = append(names, name)
	}
	if sort.Strings(names); len(names) > mostLacking { // a device may say any number
		names = append(names[:mostLacking], fmt.Sprintf("%d more", len(names)-mostLacking))
	}
	return fmt.Errorf("refused: %s share the folder, and aren't asked: name them as ID@tcp://HOST:PORT, or leave them out with --leave-out %s",
		strings.Join(names, ", "), part.Absent)
}

// isAsked says whether a device is one of those that are asked.
func (o *observing) isAsked(id protocol.DeviceID) bool {
	for _, address := range o.addresses {
		if address.id == id {
			return true
		}
	}
	return false
}
