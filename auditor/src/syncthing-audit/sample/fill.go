package main

import (
	"bytes"
	"context"
	"math/rand"
	"os"
	"path/filepath"
	"time"

	"github.com/syncthing/syncthing/lib/protocol"
	"github.com/syncthing/syncthing/lib/scanner"
	"syncthing-audit/adapt"
)

// batchLength is how many entries go into an index at once.
const batchLength = 500

// fill puts the same files on all devices and into all indexes.
func (p *plan) fill(devices []*device) error {
	random := rand.New(rand.NewSource(1))
	var batch []protocol.FileInfo
	last := ""
	for number := 0; number < p.files; number++ {
		name := nameOf(number)
		if directory := filepath.Dir(name); directory != last {
			last = directory
			entry, err := putDirectory(devices, directory)
			if err != nil {
				return err
			}
			batch = append(batch, entry)
		}
		entry, err := put(devices, name, p.bytes, random)
		if err != nil {
			return err
		}
		batch = append(batch, entry)
		if len(batch) >= batchLength {
			record(devices, batch)
			batch = batch[:0]
		}
	}
	record(devices, batch)
	for _, device := range devices {
		for _, other := range devices {
			if other != device {
				device.set.SetIndexID(other.id, other.set.IndexID(protocol.LocalDeviceID))
			}
		}
	}
	for _, device := range devices {
		if err := device.backend.Close(); err != nil {
			return err
		}
	}
	return nil
}

var modified = time.Unix(1700000000, 123456789)

// putDirectory puts a directory on all devices.
func putDirectory(devices []*device, name string) (protocol.FileInfo, error) {
	for _, device := range devices {
		if err := os.MkdirAll(filepath.Join(device.files, name), 0o755); err != nil {
			return protocol.FileInfo{}, err
		}
	}
	return protocol.FileInfo{Name: name, Type: protocol.FileInfoTypeDirectory, Permissions: 0o755, ModifiedS: modified.Unix(),
		ModifiedBy: devices[0].id.Short(), Version: protocol.Vector{}.Update(devices[0].id.Short())}, nil
}

// put puts a file of random bytes on all devices.
func put(devices []*device, name string, size int64, random *rand.Rand) (protocol.FileInfo, error) {
	data := make([]byte, size)
	random.Read(data)
	for _, device := range devices {
		path := filepath.Join(device.files, name)
		if err := os.WriteFile(path, data, 0o644); err != nil {
			return protocol.FileInfo{}, err
		}
		if err := os.Chtimes(path, modified, modified); err != nil {
			return protocol.FileInfo{}, err
		}
	}
	blockSize := protocol.BlockSize(size)
	blocks, err := scanner.Blocks(context.Background(), bytes.NewReader(data), blockSize, size, nil, true)
	fileInfo := protocol.FileInfo{Name: name, Size: size, Permissions: 0o644, ModifiedS: modified.Unix(), ModifiedBy: devices[0].id.Short(),
		Version: protocol.Vector{}.Update(devices[0].id.Short()), Blocks: blocks, BlocksHash: protocol.BlocksHash(blocks)}
	adapt.SetNumber(&fileInfo.ModifiedNs, modified.Nanosecond())
	adapt.SetNumber(&fileInfo.RawBlockSize, blockSize)
	return fileInfo, err
}

// record puts entries into each device's own index and into what each knows of the others.
func record(devices []*device, batch []protocol.FileInfo) {
	for _, device := range devices {
		before := device.set.Sequence(protocol.LocalDeviceID)
		device.set.Update(protocol.LocalDeviceID, batch)
		seen := append([]protocol.FileInfo(nil), batch...)
		for place := range seen {
			seen[place].Sequence = before + int64(place) + 1
		}
		for _, other := range devices {
			if other != device {
				other.set.Update(device.id, seen)
			}
		}
	}
}
