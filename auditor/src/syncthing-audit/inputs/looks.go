package inputs

import (
	"fmt"
	"os"

	"syncthing-audit/looks"
	"syncthing-audit/part"
	"syncthing-audit/signature"
)

// lookInputs opens parts, and keeps those of two looks until both are there.
type lookInputs struct {
	*Inputs
	first, second map[string]opened // by their devices
	wire, disks   map[string]opened // halves, by their devices
	signers       *signature.Signers
}

// opened is a part that is read.
type opened struct {
	stream part.Stream
	path   string
}

// openPart opens a part.
func (i *lookInputs) openPart(path string) error {
	file, err := os.Open(path)
	if err != nil {
		return err
	}
	i.closers = append(i.closers, func() { file.Close() })
	if about, err := file.Stat(); err == nil {
		if about.IsDir() {
			return fmt.Errorf("%w but a directory: a device's home stands behind --home", part.ErrNone)
		}
		i.Work.ToRead += about.Size()
	}
	read, err := i.reader(file, path)
	if err != nil {
		return err
	}
	ahead := part.NewAhead(read)
	i.closers = append(i.closers, ahead.Close)
	if is, err := i.takeHalf(ahead, path); is || err != nil {
		return err
	}
	look := read.Head().Look
	if look == nil || read.Head().IsOverWire() {
		i.take(ahead, path)
		return nil
	}
	to := i.second
	if look.IsFirst() {
		to = i.first
	}
	if had, is := to[read.Head().Device]; is {
		return fmt.Errorf("refused: it is of the same look at the same device as %s: give one of them", had.path)
	}
	to[read.Head().Device] = opened{ahead, path}
	return nil
}

// join joins the two looks at each device.
func (i *lookInputs) join() error {
	ids, err := devicesOfBoth(i.first, i.second, "refused: %s is of a first look, and the second one at that device isn't given: 'part --end' makes it",
		"refused: %s is of a second look, and the first one at that device isn't given")
	if err != nil {
		return err
	}
	if err := i.joinHalves(); err != nil {
		return err
	}
	for _, id := range ids {
		joined, err := looks.Join(i.first[id].stream, i.second[id].stream)
		if err != nil {
			return fmt.Errorf("refused: %s, %s: %w", i.first[id].path, i.second[id].path, err)
		}
		i.take(joined, i.first[id].path)
	}
	return nil
}
