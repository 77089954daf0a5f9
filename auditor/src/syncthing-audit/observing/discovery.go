package observing

import (
	"context"
	"errors"
	"fmt"
	"sync"
	"time"

	"github.com/syncthing/syncthing/lib/protocol"
	"syncthing-audit/discover"
	"syncthing-audit/wire"
)

// timeToAnnounce is how long a device's announcement is awaited: Syncthing makes one each 30 s. Tests have less time.
var timeToAnnounce = 45 * time.Second

// discovering hears where devices are, once somebody asks for one.
type discovering struct {
	port     int // of announcements
	begin    sync.Once
	listener *discover.Listener
	failed   error
	mutex    sync.Mutex
	found    map[protocol.DeviceID]discover.Heard
	news     chan struct{} // closed once something is heard
}

// listen begins to hear.
func (d *discovering) listen() error {
	d.begin.Do(func() {
		d.found, d.news = map[protocol.DeviceID]discover.Heard{}, make(chan struct{})
		if d.listener, d.failed = discover.Listen(d.port); d.failed == nil {
			go d.collect()
		}
	})
	return d.failed
}

// mostFound is of how many devices it is kept where they are: whoever is in the network may announce any.
const mostFound = 10000

// collect keeps what is heard.
func (d *discovering) collect() {
	for {
		heard, err := d.listener.Next()
		if err != nil {
			return
		}
		d.mutex.Lock()
		if _, had := d.found[heard.Device]; had || len(d.found) < mostFound {
			d.found[heard.Device] = heard
			close(d.news)
			d.news = make(chan struct{})
		}
		d.mutex.Unlock()
	}
}

// where gives the addresses that a device announces, once it does.
func (d *discovering) where(ctx context.Context, id protocol.DeviceID) ([]string, error) {
	if err := d.listen(); err != nil {
		return nil, err
	}
	for {
		d.mutex.Lock()
		heard, is := d.found[id]
		news := d.news
		d.mutex.Unlock()
		if is {
			return heard.Addresses, nil
		}
		select {
		case <-news:
		case <-ctx.Done():
			return nil, errors.New("it doesn't announce itself in this network")
		}
	}
}

// close ends the hearing.
func (d *discovering) close() {
	if d.listener != nil {
		d.listener.Close()
	}
}

// isElsewhere says whether an error means that a device isn't where it was.
func isElsewhere(err error) bool {
	return errors.Is(err, wire.Unreached) || errors.Is(err, wire.AnotherDevice) || errors.Is(err, wire.NotSyncthing)
}

// mostTries is how often a busy device is tried: it takes connections one after another, and may close one that was just made.
const mostTries = 3

var pauseOfTries = 2 * time.Second

// isBusy says whether an error may be that of a busy device.
func isBusy(err error) bool {
	return errors.Is(err, wire.TooLate) || errors.Is(err, wire.Closed) || errors.Is(err, wire.NotSyncthing)
}

// dialAt connects to a device at an address.
func (o *observing) dialAt(address *address, where string, look wire.Look) (*wire.Connection, error) {
	for try := 1; ; try++ {
		connection, err := o.observer.Dial(context.Background(), where, address.id, look, wire.Usual)
		if err == nil || try == mostTries || !isBusy(err) {
			return connection, err
		}
		time.Sleep(pauseOfTries)
	}
}

// dial connects to a device where it was reached before, or else where it announces that it is.
func (o *observing) dial(at int) (*wire.Connection, error) {
	address := &o.addresses[at]
	look := o.lookAt(address.id)
	var first error
	if address.where != "" {
		connection, err := o.dialAt(address, address.where, look)
		if err == nil || !address.isKept || !isElsewhere(err) {
			return connection, err
		}
		first = err
	}
	o.tellStep("waiting until %s announces itself in this network", address.id)
	ctx, cancel := context.WithTimeout(context.Background(), timeToAnnounce)
	defer cancel()
	found, err := o.discovering.where(ctx, address.id)
	if err != nil && first == nil {
		first = fmt.Errorf("%w: %v", wire.Unreached, err)
	}
	for _, where := range found {
		connection, err := o.dialAt(address, where, look)
		if err == nil || !isElsewhere(err) {
			address.where = where
			return connection, err
		}
		first = err
	}
	return nil, first
}
