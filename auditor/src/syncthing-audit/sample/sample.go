// Command sample makes the homes and folders of Syncthing devices that are in step, or their parts alone, so that an
// audit of them can be measured. It writes indexes by Syncthing's own packages.
package main

import (
	"flag"
	"fmt"
	"os"
	"path/filepath"
)

// plan is what is made.
type plan struct {
	room    string
	devices int
	files   int
	bytes   int64 // of each file
	parts   bool
	each    string // of parts: what is wrong with each name on the last device, by the words of faults
}

func main() {
	asked := plan{}
	flag.IntVar(&asked.devices, "devices", 2, "how many devices")
	flag.IntVar(&asked.files, "files", 800, "how many files")
	flag.Int64Var(&asked.bytes, "bytes", 4<<20, "the bytes of each file")
	flag.BoolVar(&asked.parts, "parts", false, "parts alone: no homes, no files")
	flag.StringVar(&asked.each, "each", "", "of parts: what each name is on the last device: rotten, permissions, concurrent, unscanned, long")
	flag.Parse()
	if flag.NArg() != 1 || asked.each != "" && (!asked.parts || faults[asked.each] == nil) {
		fmt.Fprintln(os.Stderr, "usage: sample [--devices N] [--files N] [--bytes N] [--parts [--each FAULT]] DIR")
		os.Exit(3)
	}
	asked.room = flag.Arg(0)
	if err := asked.make(); err != nil {
		fmt.Fprintln(os.Stderr, "sample:", err)
		os.Exit(1)
	}
}

// make makes the devices.
func (p *plan) make() error {
	if p.parts {
		return p.makeParts()
	}
	devices := make([]*device, p.devices)
	for place := range devices {
		room := filepath.Join(p.room, fmt.Sprintf("device%d", place+1))
		next, err := newDevice(room)
		if err != nil {
			return err
		}
		devices[place] = next
	}
	for _, device := range devices {
		if err := device.configure(devices); err != nil {
			return err
		}
	}
	return p.fill(devices)
}

// nameOf gives the name of a file: a hundred stand in each directory.
func nameOf(number int) string { return fmt.Sprintf("%05d/%02d.bin", number/100, number%100) }
