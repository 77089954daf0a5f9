package commandline

import (
	"errors"
	"flag"
	"os"
	"path/filepath"

	"syncthing-audit/part"
	"syncthing-audit/wire"
)

// observerID is the flag of devices that keep no files.
type observerID struct{ read *Options }

func (o observerID) String() string { return "" }

// Set adds a device.
func (o observerID) Set(value string) error {
	if part.Number(value) == 0 {
		return errors.New("it is no device id")
	}
	o.read.Observers = append(o.read.Observers, value)
	return nil
}

// ObserverFlag is the flag of commands that ask for the parts of all devices.
func ObserverFlag(flags *flag.FlagSet, read *Options) {
	flags.Var(observerID{read}, "observer", "")
}

// KnownObservers gives the devices that are known to be observers: those that are named, and that of this machine and user.
func (o *Options) KnownObservers() []string {
	ids := append([]string{}, o.Observers...)
	home, err := HomeOfObserver()
	if err != nil {
		return ids
	}
	if observer, err := wire.Open(home); err == nil {
		ids = append(ids, observer.ID.String())
	}
	return ids
}

// HomeOfObserver gives the directory with the observer's key where none is named.
func HomeOfObserver() (string, error) {
	state := os.Getenv("XDG_STATE_HOME")
	if !filepath.IsAbs(state) {
		user, err := os.UserHomeDir()
		if err != nil {
			return "", err
		}
		state = filepath.Join(user, ".local/state")
	}
	return filepath.Join(state, "syncthing-audit", "observer"), nil
}
