// Package observing looks twice at running devices over the wire, as a device of its own that keeps no files, and has them audited.
package observing

import (
	"errors"
	"fmt"
	"io"
	"os"
	"path/filepath"
	"regexp"
	"strings"

	"github.com/syncthing/syncthing/lib/protocol"
	"syncthing-audit/answering"
	"syncthing-audit/ask"
	"syncthing-audit/commandline"
	"syncthing-audit/discover"
	"syncthing-audit/exit"
	"syncthing-audit/fault"
	"syncthing-audit/leftover"
	"syncthing-audit/observe"
	"syncthing-audit/outside"
	"syncthing-audit/terminal"
	"syncthing-audit/unsynced"
	"syncthing-audit/wire"
)

// Run asks devices over the wire, and answers; or makes the observer.
func Run(asked commandline.Options, output, log io.Writer) (int, error) {
	if err := checkObserve(&asked); err != nil {
		return 0, err
	}
	if asked.Init {
		return exit.Done, initObserver(asked, output, log)
	}
	observer, err := wire.Open(asked.Homes[0])
	if err != nil {
		return 0, fmt.Errorf("refused: %w: 'syncthing-audit observe --init' makes it", err)
	}
	program := ask.Program{Path: asked.Program}
	if asked.Into == "" {
		if err := program.Find(); err != nil {
			return 0, err
		}
	}
	news := newNews()
	look := func() (int, error) { return lookOverWire(asked, observer, program, news, output, log) }
	if asked.Every == 0 {
		return look()
	}
	return systemClock.repeat(asked.Every, look, log)
}

// checkObserve says what is wrong with the words of 'observe'.
func checkObserve(o *commandline.Options) error {
	if len(o.Homes) == 0 {
		home, err := commandline.HomeOfObserver()
		if err != nil {
			return err
		}
		o.Homes = []string{home}
	}
	switch {
	case len(o.Homes) > 1:
		return commandline.WrongUse("an observer has one --home")
	case o.Init && len(o.Folders)+len(o.Parts) > 0:
		return commandline.WrongUse("--init makes the observer's home, and asks no device")
	case o.Init:
		return nil
	case o.Still < 0:
		return commandline.WrongUse("--still is at least 0")
	case o.Rescan && len(o.APIs) == 0:
		return commandline.WrongUse("--rescan asks the devices that --rest names to scan")
	case o.History != "" && o.Into != "":
		return commandline.WrongUse("--into writes parts in place of an answer: give --history to the 'check' of these")
	}
	for _, check := range []func(*commandline.Options) error{checkBudget, checkDisks} {
		if err := check(o); err != nil {
			return err
		}
	}
	return answering.CheckForm(*o)
}

// initObserver makes the observer's key, and tells its device id. A key that is there stays.
func initObserver(asked commandline.Options, output, log io.Writer) error {
	home := asked.Homes[0]
	if err := os.MkdirAll(filepath.Dir(home), 0o700); err != nil {
		return fault.Of(err)
	}
	observer, err := wire.Create(home)
	if err != nil {
		return fmt.Errorf("refused: %w", err)
	}
	outside.Print(log, "syncthing-audit: this is the observer's device id. On each device: 'Add Remote Device' with this id, and share the folders with it "+
		"(no encryption password). Then ask: syncthing-audit observe DEVICE-ID .., with the ids of these devices\n")
	terminal.ShowCode(log, observer.ID.String())
	return outside.Printf(fault.Writer{To: output}, "%s\n", observer.ID)
}

// address is of a device: who it is, and where it listens; nothing where it is to connect by itself.
type address struct {
	id    protocol.DeviceID
	where string
	given string

	isKept bool // whether it is where the device was reached last
}

// formOfAddress is a device's id with the address at which it listens.
var formOfAddress = regexp.MustCompile(`^([A-Za-z0-9-]+)(?:@(?:tcp[46]?://)?([^/@]+:[0-9]+))?$`)

// addressesOf reads where devices are. Of one that is given by its id alone it is where it was reached last, or where it announces that it is; without any,
// all that were asked of one of the folders before are.
func addressesOf(asked commandline.Options, kept *observe.Addresses) ([]address, error) {
	addresses, words := []address{}, asked.Parts
	if len(words) == 0 {
		words = kept.Of(asked.Folders)
	}
	if len(words) == 0 {
		return nil, commandline.WrongUse("no device is given: its id and address as ID@tcp://HOST:22000, or its id alone if it is in this network")
	}
	for _, given := range words {
		found := formOfAddress.FindStringSubmatch(given)
		if found == nil {
			return nil, commandline.WrongUse(fmt.Sprintf("%q is no device with its address: ID@tcp://HOST:PORT", given))
		}
		id, err := protocol.DeviceIDFromString(found[1])
		if err != nil {
			return nil, commandline.WrongUse(fmt.Sprintf("%q is no device id: %v", found[1], err))
		}
		for _, other := range addresses {
			if other.id == id {
				return nil, commandline.WrongUse(fmt.Sprintf("device %s is given twice", id))
			}
		}
		isKept := found[2] == "" && asked.Listen == ""
		if isKept {
			found[2] = kept.Devices[id.String()]
		}
		addresses = append(addresses, address{id, found[2], given, isKept})
	}
	return addresses, nil
}

// lookOverWire looks at devices, and tells the answer or writes the parts.
func lookOverWire(asked commandline.Options, observer *wire.Observer, program ask.Program, news *news, output, log io.Writer) (int, error) {
	kept, err := observe.OpenAddresses(asked.Homes[0])
	if err != nil {
		return 0, fmt.Errorf("refused: the addresses that are kept in %s: %w", asked.Homes[0], err)
	}
	addresses, err := addressesOf(asked, kept)
	if err != nil {
		return 0, err
	}
	room := asked.Into
	if room != "" {
		if err := unsynced.CheckFile(filepath.Join(room, "part"), nil); err != nil {
			return 0, err
		}
	} else if room, err = leftover.Directory(); err != nil {
		return 0, err
	} else {
		defer leftover.Remove(room)
	}
	observing := &observing{asked: asked, observer: observer, addresses: addresses, room: room, news: news, log: log, progress: terminal.ProgressOf(log)}
	observing.discovering.port = portOfAnnouncements
	if err := observing.listen(); err != nil {
		return 0, err
	}
	defer observing.close()
	if err := observing.look(); err != nil {
		return 0, err
	}
	files, err := observing.write()
	if err != nil {
		return 0, err
	}
	status := exit.Done
	switch {
	case asked.Into == "":
		status, err = observing.answer(program, files, output)
	case len(observing.failed) > 0:
		status = exit.Partial
	}
	for _, keep := range []func() error{observing.finish, func() error { return observing.keepAddresses(kept) }} { // also where no answer came
		if kept := keep(); err == nil {
			err = kept
		}
	}
	return status, err
}

// portOfAnnouncements is where devices announce themselves. Tests have another one.
var portOfAnnouncements = discover.UsualPort

// errNothingSeen says that no device was looked at twice.
var errNothingSeen = errors.New("refused: no device could be looked at")

// portOf gives an address to listen at as the system's calls have it.
func portOf(given string) string { return strings.TrimPrefix(given, "tcp://") }
