package ownpart

import (
	"errors"
	"fmt"
	"io"
	"strings"

	"github.com/syncthing/syncthing/lib/config"
	"golang.org/x/exp/slices"
	"syncthing-audit/amount"
	"syncthing-audit/commandline"
	"syncthing-audit/device"
	"syncthing-audit/gather"
	"syncthing-audit/inputs"
	"syncthing-audit/join"
	"syncthing-audit/outside"
	"syncthing-audit/part"
	"syncthing-audit/shell"
	"syncthing-audit/target"
	"syncthing-audit/unsynced"
)

// Write writes the part of a device that is stopped.
func Write(asked commandline.Options, write target.Writing, log io.Writer) error {
	from, err := openSource(device.Open, asked, log)
	if err != nil {
		return err
	}
	defer from.Close()
	from.tellDoubts(log)
	for _, other := range inputs.Others(from.home, asked.Folders, true) {
		if other.Away != "" && (len(asked.Folders) == 0 || slices.Contains(asked.Folders, other.ID)) {
			outside.Printf(log, "syncthing-audit: the part is without folder %s: %s\n", shell.Folder(other.ID, other.Label), join.WhyAway(other))
		}
	}
	defer from.StartProgress(log, asked)()
	return write(func(to io.Writer) error { return writeLines(to, log, from.read, asTheyAre) })
}

// source is the home of which a part is made.
type source struct {
	*inputs.Inputs
	home *device.Home
	read *gather.Device
}

// tellDoubts says what may be amiss with the index.
func (s *source) tellDoubts(log io.Writer) {
	for _, why := range s.home.Doubts() {
		outside.Printf(log, "syncthing-audit: %s\n", why)
	}
}

// openSource opens the home, and those of its folders that are asked for, or all.
func openSource(open func(dir, data string, maps ...device.Map) (*device.Home, error), asked commandline.Options, log io.Writer) (*source, error) {
	home, err := open(asked.Homes[0], asked.Data[0], asked.Maps[0]...)
	if err != nil {
		return nil, err
	}
	from := &source{Inputs: inputs.OfHome(home, asked.Jobs), home: home}
	if err = CheckFolders(home, asked.Folders, log); err == nil {
		err = checkThere(home, asked)
	}
	if err == nil {
		from.read, err = from.DeviceOf(home, asked)
	}
	if err == nil {
		err = checkOutput(asked, home.Config.Folders)
	}
	if err != nil {
		from.Close()
		return nil, err
	}
	return from, nil
}

// checkOutput says whether what 'part' writes would be in a folder of Syncthing.
func checkOutput(o commandline.Options, folders []config.FolderConfiguration) error {
	if o.Output == "" {
		return nil
	}
	err := unsynced.CheckFile(o.Output, folders)
	if err != nil && o.IsStandard {
		return fmt.Errorf("%w. It is there already, since the shell made it: take it away", err)
	}
	return err
}

// CheckFolders says whether a home has no folder, or none of those that are asked for. Who has other folders on other devices names all of
// them on each, so those that this one lacks are told, and the part is made.
func CheckFolders(home *device.Home, wanted []string, log io.Writer) error {
	if len(home.Config.Folders) == 0 {
		return errors.New("refused: the device has no folder")
	}
	labels, lacking := inputs.FolderLabels([]*device.Home{home}, nil), []string{}
	for _, id := range wanted {
		if err := join.CheckWanted(labels, []string{id}); err != nil {
			lacking = append(lacking, err.Error())
		}
	}
	if len(lacking) > 0 && len(lacking) == len(wanted) {
		return fmt.Errorf("refused: %s", strings.Join(lacking, "; "))
	}
	for _, why := range lacking {
		outside.Printf(log, "syncthing-audit: %s. The part is without it\n", why)
	}
	return nil
}

// writeLines writes a part whose lines go through something else first, and says of one without names that it has none, and of
// what its disk fails to give how much that is.
func writeLines(to, log io.Writer, read *gather.Device, through func(part.Sink) part.Sink) error {
	head := read.Head()
	writer, err := part.NewWriter(to, head)
	if err != nil {
		return err
	}
	names, damaged := 0, 0
	err = read.Run(head, through(func(line part.Line) error {
		if line.Name != nil {
			names++
		}
		if line.Name != nil && line.Name.IsDamaged() {
			damaged++
		}
		return writer.Take(line)
	}))
	if err != nil {
		return err
	}
	if names == 0 && !read.Names.IsAll() {
		outside.Printf(log, "syncthing-audit: %s, on the disk or in the index: the part has none\n", read.Names.None(" here"))
	}
	if damaged > 0 {
		outside.Printf(log, "syncthing-audit: the disk here fails to give what it has of %s: see the system's log; 'check' tells which these are\n",
			amount.Of(damaged, "name"))
	}
	return writer.Close()
}

// asTheyAre gives a sink as it is.
func asTheyAre(sink part.Sink) part.Sink { return sink }
