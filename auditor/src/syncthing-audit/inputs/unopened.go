package inputs

import (
	"fmt"
	"io"
	"strings"

	"syncthing-audit/commandline"
	"syncthing-audit/device"
	"syncthing-audit/join"
	"syncthing-audit/outside"
	"syncthing-audit/part"
	"syncthing-audit/shell"
)

// openHome opens a home. One that can't be opened is left out where others go on without it: nothing is given then.
func (i *Inputs) openHome(asked commandline.Options, place int) (*device.Home, error) {
	dir := asked.Homes[place]
	home, err := device.Open(dir, asked.Data[place], asked.Maps[place]...)
	if err != nil {
		return nil, i.orLeaveOut(asked, dir, asked.Maps[place], err)
	}
	i.closers = append(i.closers, home.Close)
	i.Homes = append(i.Homes, home)
	return home, nil
}

// orLeaveOut leaves a home out, or gives its error where the audit is strict.
func (i *Inputs) orLeaveOut(asked commandline.Options, dir string, maps device.Maps, err error) error {
	if err == nil || !asked.Consent().Has(part.Absent) {
		return err
	}
	left := Left{Called: dir, Device: device.IDOf(dir), Why: strings.TrimPrefix(strings.TrimPrefix(err.Error(), "refused:"), " ")}
	if id, about, unread := device.About(dir, maps...); unread == nil {
		i.Homes = append(i.Homes, &device.Home{Dir: dir, ID: id, Config: about}) // nothing is written into its folders
	}
	i.Left = append(i.Left, left)
	if i.failed == nil {
		i.failed = err
	}
	return nil
}

// TellLeft tells which homes are left out before the others are read, which may take long.
func (i *Inputs) TellLeft(log io.Writer) {
	for _, left := range i.Left {
		outside.Printf(log, "syncthing-audit: %s: %s. It is left out\n", shell.Printable(left.Called), shell.Printable(left.Why))
	}
}

// checkWanted says which folder that is wanted is neither in these homes nor in these parts.
func (i *Inputs) checkWanted(homes []*device.Home, wanted []string) error {
	labels := FolderLabels(homes, i.Devices)
	if err := i.checkInParts(labels, wanted); err != nil {
		return err
	}
	err := join.CheckWanted(labels, wanted)
	if err != nil && i.failed != nil {
		return fmt.Errorf("refused: %w, and a home is left out: %v", err, i.failed)
	} else if err != nil {
		return fmt.Errorf("refused: %w", err)
	}
	return nil
}
