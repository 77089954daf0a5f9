package observing

import (
	"errors"
	"sync"
	"time"

	"github.com/syncthing/syncthing/lib/protocol"
	"golang.org/x/exp/slices"
	"syncthing-audit/commandline"
	"syncthing-audit/outside"
	"syncthing-audit/part"
	"syncthing-audit/rest"
	"syncthing-audit/shell"
)

// asking is what devices' own Syncthings say by their REST APIs.
type asking struct {
	mutex sync.Mutex
	out   map[int]bool                    // places of devices of which nothing is asked any more
	told  map[int]map[string]*part.Folder // by the devices' places, and by folder: nothing of one at which asking failed
}

// remote gives the REST API of a device; nothing where none is named, or where it failed.
func (o *observing) remote(at int) *rest.Remote {
	o.asking.mutex.Lock()
	defer o.asking.mutex.Unlock()
	if o.asking.out[at] {
		return nil
	}
	return o.asked.APIs[o.addresses[at].id]
}

// eachRemote does something for each device that has a REST API, and that hasn't failed, for all at once.
func (o *observing) eachRemote(do func(at int, remote *rest.Remote)) {
	var all sync.WaitGroup
	for at := range o.addresses {
		if remote := o.remote(at); remote != nil && !o.hasFailed(at) {
			all.Add(1)
			go func(at int) {
				defer all.Done()
				do(at, remote)
			}(at)
		}
	}
	all.Wait()
}

// keyOfRest is how news of a device's REST API is told apart from news of the device.
func (o *observing) keyOfRest(at int) string { return o.addresses[at].given + " --rest" }

// dropRest tells why nothing is known by a device's REST API. That costs the device nothing else.
func (o *observing) dropRest(at int, what string, err error) {
	o.asking.mutex.Lock()
	o.asking.out[at] = true
	o.asking.mutex.Unlock()
	o.mutex.Lock()
	defer o.mutex.Unlock()
	if o.news.fails(o.keyOfRest(at), what, err) {
		outside.Printf(o.log, "syncthing-audit: %s: --rest: %s: %v; what the wire doesn't show of it isn't known\n", o.addresses[at].given, what, err)
	}
}

// errNoRemotes says that a file has none of the devices.
var errNoRemotes = commandline.WrongUse("--rest names none of the devices that are asked")

// beginAsking sees whether the devices' REST APIs are theirs, and has them scan, if that is asked for.
func (o *observing) beginAsking() error {
	o.asking.out, o.asking.told = map[int]bool{}, map[int]map[string]*part.Folder{}
	if len(o.asked.APIs) > 0 && slices.IndexFunc(o.addresses, func(address address) bool { return o.asked.APIs[address.id] != nil }) < 0 {
		return errNoRemotes
	}
	o.eachRemote(func(at int, remote *rest.Remote) {
		if err := remote.Check(o.addresses[at].id.String()); err != nil {
			o.dropRest(at, "not asked", err)
		} else if err := o.rescan(remote); err != nil {
			o.dropRest(at, "not scanned", err)
		}
	})
	return nil
}

// rescan has a device scan the folders that it shares with the observer, if that is asked for.
func (o *observing) rescan(remote *rest.Remote) error {
	if !o.asked.Rescan {
		return nil
	}
	all, err := remote.Folders()
	if err != nil {
		return err
	}
	for place := range all {
		folder := &all[place]
		isAsked := len(o.asked.Folders) == 0 || slices.Contains(o.asked.Folders, folder.ID)
		if !isAsked || folder.Paused || !folder.IsSharedWith(o.observer.ID.String()) {
			continue
		}
		o.tellStep("scanning folder %s", shell.Quoted(folder.ID))
		if err := remote.Scan(folder.ID); err != nil {
			return err
		}
	}
	return nil
}

// ask asks the devices' Syncthings of each folder that is looked at, between both looks: once the first one is over, and before the second one begins.
func (o *observing) ask(when string) {
	o.eachRemote(func(at int, remote *rest.Remote) {
		for _, folder := range o.devices[at].Folders {
			err := o.askOf(at, remote, folder.ID())
			if err == nil {
				err = folder.AskLocal(o.idsOfAll(), remote.Local)
			}
			if err != nil {
				o.dropRest(at, "not asked at the "+when, err)
				return
			}
		}
	})
}

// idsOfAll gives the ids of all devices that are asked.
func (o *observing) idsOfAll() []protocol.DeviceID {
	ids := []protocol.DeviceID{}
	for _, device := range o.addresses {
		ids = append(ids, device.id)
	}
	return ids
}

// errOtherwise says that what is configured isn't what it was.
var errOtherwise = errors.New("the folder's kind changed between the looks")

// askOf asks of a folder, until Syncthing is idle with it or --still is over.
func (o *observing) askOf(at int, remote *rest.Remote, folder string) error {
	said, err := askUntilAtRest(remote, folder, time.Now().Add(o.asked.Stillness()))
	if err != nil {
		return err
	}
	if said.Configured.IsEncrypted() { // with its password it is seen as others have it
		return nil
	}
	about := &part.Folder{ID: folder, Rest: &said.Rest}
	if err := said.Configured.Tell(about, said.Devices); err != nil {
		return err
	}
	about.Options = about.Options.WithoutPath()
	o.asking.mutex.Lock()
	defer o.asking.mutex.Unlock()
	if o.asking.told[at] == nil {
		o.asking.told[at] = map[string]*part.Folder{}
	}
	if had := o.asking.told[at][folder]; had != nil {
		if had.Kind != about.Kind {
			return errOtherwise
		}
		about.Rest = about.Rest.Worse(had.Rest)
	}
	o.asking.told[at][folder] = about
	return nil
}

// askUntilAtRest asks a Syncthing of a folder, and anew where it isn't at rest, until a time.
func askUntilAtRest(remote *rest.Remote, folder string, end time.Time) (*rest.AskedOf, error) {
	for {
		said, err := remote.Ask(folder)
		if err != nil || said.Rest.IsAtRest() || !time.Now().Before(end) {
			return said, err
		}
		time.Sleep(rest.TimeBetweenQuestions)
	}
}

// endAsking gives what the Syncthings said to what was seen of their devices.
func (o *observing) endAsking() {
	o.eachRemote(func(at int, _ *rest.Remote) {
		o.asking.mutex.Lock()
		told := o.asking.told[at]
		o.asking.mutex.Unlock()
		if err := o.devices[at].Tell(told); err != nil {
			o.dropRest(at, "not as seen over the wire", err)
			return
		}
		o.mutex.Lock()
		defer o.mutex.Unlock()
		if told := o.news.works(o.keyOfRest(at)); told != "" {
			outside.Printf(o.log, "syncthing-audit: %s: --rest: it answers again, after it failed at %s\n", o.addresses[at].given, told)
		}
	})
}
