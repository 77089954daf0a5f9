package observe

import (
	"encoding/json"
	"errors"
	"fmt"
	"io/fs"
	"path/filepath"
	"sort"

	"golang.org/x/exp/slices"
	"syncthing-audit/leftover"
	"syncthing-audit/regular"
)

// Addresses are where devices were reached last, by their ids, and which of them share which folder. They stand in the observer's home.
type Addresses struct {
	path    string
	Devices map[string]string          `json:"devices"` // HOST:PORT
	Folders map[string]map[string]bool `json:"folders"` // by their ids the devices that were asked
}

// nameOfAddresses is the file with them.
const nameOfAddresses = "addresses.json"

// mostAddresses is how many devices are kept: more than any Syncthing has.
const (
	mostAddresses        = 10000
	mostBytesOfAddresses = 64 << 20
)

// OpenAddresses reads the addresses in a home; there are none before the first run.
func OpenAddresses(home string) (*Addresses, error) {
	addresses := &Addresses{path: filepath.Join(home, nameOfAddresses)}
	text, _, err := regular.Read(addresses.path, mostBytesOfAddresses)
	if err == nil {
		if err := json.Unmarshal(text, addresses); err != nil {
			return nil, fmt.Errorf("%s is damaged (%w): take it away, and give the devices with their addresses once", nameOfAddresses, err)
		}
	}
	if err != nil && !errors.Is(err, fs.ErrNotExist) {
		return nil, err
	}
	if addresses.Devices == nil {
		addresses.Devices = map[string]string{}
	}
	if addresses.Folders == nil {
		addresses.Folders = map[string]map[string]bool{}
	}
	return addresses, nil
}

// Of gives the devices that were asked of one of these folders or, without any, of whichever, rising.
func (a *Addresses) Of(folders []string) []string {
	ids := []string{}
	for folder, devices := range a.Folders {
		if len(folders) > 0 && !slices.Contains(folders, folder) {
			continue
		}
		for device := range devices {
			if !slices.Contains(ids, device) {
				ids = append(ids, device)
			}
		}
	}
	sort.Strings(ids)
	return ids
}

// Add keeps where a device was reached, and that it was asked of a folder. Of one that connected by itself there is no address.
func (a *Addresses) Add(folder, device, address string) {
	if len(a.Devices) >= mostAddresses {
		return
	}
	if a.Folders[folder] == nil {
		a.Folders[folder] = map[string]bool{}
	}
	a.Folders[folder][device] = true
	if address != "" {
		a.Devices[device] = address
	}
}

// Keep writes them: the file is there whole or as it was.
func (a *Addresses) Keep() error {
	text, err := json.MarshalIndent(a, "", "  ")
	if err != nil {
		return err
	}
	return leftover.Write(a.path, append(text, '\n'))
}
