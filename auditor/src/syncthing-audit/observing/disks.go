package observing

import (
	"errors"
	"fmt"
	"io"
	"os"
	"path/filepath"
	"strconv"
	"time"

	"github.com/syncthing/syncthing/lib/protocol"
	"syncthing-audit/commandline"
	"syncthing-audit/looks"
	"syncthing-audit/observe"
	"syncthing-audit/outside"
	"syncthing-audit/part"
	"syncthing-audit/regular"
	"syncthing-audit/shell"
)

// timeBetweenWaits is how often the observer looks whether a part of disks is there.
var timeBetweenWaits = time.Second

// checkDisks refuses a file that is there before the first look: a walk before that look isn't what this run waits for.
func checkDisks(o *commandline.Options) error {
	seen := map[string]bool{}
	for _, path := range o.Disks {
		if seen[path] {
			return commandline.WrongUse(fmt.Sprintf("--disk %s is given for two devices", path))
		}
		seen[path] = true
		if _, err := os.Lstat(path); err == nil {
			return fmt.Errorf("refused: --disk %s is there already, and the walk comes after the first look: take it away, or name another file", shell.Quoted(path))
		} else if !errors.Is(err, os.ErrNotExist) {
			return err
		}
	}
	return nil
}

// waitForDisks tells how the parts of disks are made, and waits until all are there. They are of walks that began after the first looks: they know the id
// of these, which is told here for the first time.
func (o *observing) waitForDisks() error {
	waiting := []int{}
	for at := range o.addresses {
		if o.asked.Disks[at] == "" || o.hasFailed(at) {
			continue
		}
		waiting = append(waiting, at)
		if err := o.tellCommand(at); err != nil {
			return err
		}
	}
	for _, at := range waiting {
		half, err := o.waitForDisk(at)
		if err != nil {
			return err
		}
		o.devices[at].Half = half
		if o.walked[at], err = walkedIn(o.asked.Disks[at], o.devices[at]); err != nil {
			return err
		}
	}
	return nil
}

// walkedIn gives the files of a part of a device's disks that have other bytes than recorded.
func walkedIn(path string, device *observe.Device) ([]*observe.Walked, error) {
	file, _, err := regular.Open(path)
	if err != nil {
		return nil, err
	}
	defer file.Close()
	reader, err := part.NewReader(file)
	if err != nil {
		return nil, err
	}
	walked, in := []*observe.Walked{}, (*observe.Folder)(nil)
	for {
		line, err := reader.Next()
		if errors.Is(err, io.EOF) {
			return walked, nil
		}
		switch {
		case err != nil:
			return nil, err
		case line.Begin != nil:
			in = device.Folder(line.Begin.Folder)
			walked = append(walked, &observe.Walked{Folder: line.Begin.Folder})
		case line.Name != nil && in != nil:
			if err := walked[len(walked)-1].Walk(in, line.Name); err != nil {
				return nil, err
			}
		}
	}
}

// halves gives the files of the disks of all devices that were looked at twice.
func (o *observing) halves() []string {
	paths := []string{}
	for at, device := range o.devices {
		if device != nil && device.Half != "" {
			paths = append(paths, o.asked.Disks[at])
		}
	}
	return paths
}

// tellCommand tells a person what to call on a device.
func (o *observing) tellCommand(at int) error {
	device := o.devices[at]
	found, err := device.OtherBlockSizes()
	if err != nil {
		return err
	}
	sizes := []string{}
	for _, size := range found {
		sizes = append(sizes, strconv.FormatInt(size, 10))
	}
	path, folders, directory := o.asked.Disks[at], []string{}, "the folder's directory"
	for _, folder := range device.Folders {
		folders = append(folders, folder.ID())
	}
	if len(folders) > 1 {
		directory = "each folder's directory"
	}
	command := commandOfHalf(looks.Token(device.ID.String(), o.lookID), folders, filepath.Base(path), sizes, o.asked.Names.Flags())
	outside.Printf(o.log, "syncthing-audit: now on %s, with %s in place of DIR:\n  %s\nsyncthing-audit: waiting for that file at %s\n",
		shell.Device(device.Hello.Name, device.ID.String()), directory, command, shell.Quoted(path))
	return nil
}

// waitForDisk waits until the part of a device's disks is there as a whole, and gives the id of its walk. A file that is being copied isn't whole yet. One
// that is another's is told, and may be put right.
func (o *observing) waitForDisk(at int) (string, error) {
	path, told := o.asked.Disks[at], ""
	for {
		id, err := readHalf(path, o.devices[at].ID, o.lookID)
		switch {
		case err == nil:
			return id, nil
		case errors.Is(err, errOtherHalf) && err.Error() != told:
			told = err.Error()
			outside.Printf(o.log, "syncthing-audit: %s: %v; waiting for another file there\n", shell.Quoted(path), err)
		}
		time.Sleep(timeBetweenWaits)
	}
}

// errOtherHalf says that a part isn't the one that is awaited.
var errOtherHalf = errors.New("it isn't what this run waits for")

// readHalf reads a part of a device's disks to its end, and gives the id of its walk.
func readHalf(path string, device protocol.DeviceID, look string) (string, error) {
	file, _, err := regular.Open(path)
	if err != nil {
		return "", err
	}
	defer file.Close()
	reader, err := part.NewReader(file)
	if err != nil {
		return "", err
	}
	half := reader.Head().Half
	switch {
	case half == nil:
		return "", fmt.Errorf("%w: it is no part of disks alone", errOtherHalf)
	case reader.Head().Device != device.String():
		return "", fmt.Errorf("%w: it is of device %s", errOtherHalf, reader.Head().Device)
	case half.After != look:
		return "", fmt.Errorf("%w: its walk came after another look than this run's", errOtherHalf)
	}
	for err == nil {
		_, err = reader.Next()
	}
	if !errors.Is(err, io.EOF) {
		return "", err
	}
	return half.ID, nil
}

// commandOfHalf gives the command that makes the part of a device's disks.
func commandOfHalf(token string, folders []string, file string, blockSizes []string, names []string) string {
	words := []string{"syncthing-audit-disk", "--after", token}
	for _, size := range blockSizes {
		words = append(words, "--block-size", size)
	}
	line := shell.Words(append(append(words, names...), "-o", file))
	for _, id := range folders {
		line += " " + shell.Words([]string{id + "=DIR"})
	}
	return line
}
