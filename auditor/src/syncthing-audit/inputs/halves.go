package inputs

import (
	"fmt"

	"syncthing-audit/halves"
	"syncthing-audit/part"
)

// takeHalf keeps a part that is one half of a device's until the other one is there, and says whether it is one.
func (i *lookInputs) takeHalf(stream part.Stream, path string) (bool, error) {
	head, to := stream.Head(), i.disks
	switch {
	case head.Half != nil:
	case head.Wire != nil && head.Wire.Half != "":
		to = i.wire
	default:
		return false, nil
	}
	if had, is := to[head.Device]; is {
		return true, fmt.Errorf("refused: it is of the same half of the same device as %s: give one of them", had.path)
	}
	to[head.Device] = opened{stream, path}
	return true, nil
}

// joinHalves joins the halves of each device.
func (i *lookInputs) joinHalves() error {
	ids, err := devicesOfBoth(i.wire, i.disks, "refused: %s has no disks, and the part of that device's disks isn't given: the observer waited for it",
		"refused: %s is of disks alone, and no part over the wire is given that waited for it: 'observe' with that device and --disk makes it")
	if err != nil {
		return err
	}
	for _, id := range ids {
		joined, err := halves.Join(i.wire[id].stream, i.disks[id].stream)
		if err != nil {
			return fmt.Errorf("refused: %s, %s: %w", i.wire[id].path, i.disks[id].path, err)
		}
		i.take(joined, i.wire[id].path)
	}
	return nil
}
