package observe

import (
	"sort"

	"syncthing-audit/bep"
	"syncthing-audit/device"
)

// OtherBlockSizes gives the sizes of the blocks in which the device's indexes have files that are cut otherwise than new ones of their length, rising. A
// walk of its disks cuts files into these, too: it knows no index.
func (d *Device) OtherBlockSizes() ([]int64, error) {
	has := map[int64]bool{}
	for _, folder := range d.Folders {
		if err := folder.addBlockSizes(has); err != nil {
			return nil, err
		}
	}
	sizes := []int64{}
	for size := range has {
		sizes = append(sizes, size)
	}
	sort.Slice(sizes, func(a, b int) bool { return sizes[a] < sizes[b] })
	return sizes, nil
}

// addBlockSizes adds those of a folder.
func (f *Folder) addBlockSizes(to map[int64]bool) error {
	return f.index.Each(func(entry device.Entry) error {
		if entry.Record == nil || entry.Record.Content == nil {
			return nil
		}
		content := entry.Record.Content
		usual := bep.BlockSize(content.Size)
		if content.BlockSize != usual && bep.IsBlockSize(content.BlockSize) && (content.Size > content.BlockSize || content.Size > usual) {
			to[content.BlockSize] = true
		}
		return nil
	})
}
