package worlds

import (
	"fmt"
	"sort"
	"strconv"
	"strings"

	"syncthing-audit/forecast"
)

// firstClock is when the first devices run, and clockStep how much later the next ones do.
const (
	firstClock = 1000000
	clockStep  = 1000
)

var kinds = map[string]forecast.Kind{"sendreceive": forecast.SendReceive, "sendonly": forecast.SendOnly, "receiveonly": forecast.ReceiveOnly}

// player plays a history in the model.
type player struct {
	of    *World
	names []string // of the devices
	world forecast.World
	clock int64
}

// Play gives the world that a history leads to on devices of a release, before all of them run.
func (w *World) Play(release forecast.Release) (forecast.World, error) {
	p := &player{of: w, clock: firstClock}
	for name := range w.Devices {
		p.names = append(p.names, name)
	}
	sort.Strings(p.names)
	for place, name := range p.names {
		device, err := w.device(name, uint64(place+1), release)
		if err != nil {
			return forecast.World{}, err
		}
		p.world.Devices = append(p.world.Devices, device)
	}
	for _, step := range w.History {
		if err := p.take(step); err != nil {
			return forecast.World{}, fmt.Errorf("%v: %w", step, err)
		}
	}
	return p.world, nil
}

// device gives a device, which at first sends and receives.
func (w *World) device(name string, number uint64, release forecast.Release) (forecast.Device, error) {
	device := forecast.Device{Release: release, Number: number, MaxConflicts: 10}
	for option, value := range w.Options[name] {
		switch option {
		case "maxConflicts":
			most, err := strconv.Atoi(value)
			if err != nil {
				return device, err
			}
			device.MaxConflicts = most
		case "versioning":
			device.Versions = forecast.VersionsKept
		case "ignorePerms":
			device.IgnorePermissions = value == "true"
		case "ignoreDelete":
			device.IgnoreDelete = value == "true"
		default:
			return device, fmt.Errorf("no option %q", option)
		}
	}
	return device, nil
}

func (p *player) take(step []interface{}) error {
	words := make([]string, len(step))
	for place, word := range step {
		words[place] = fmt.Sprint(word)
	}
	switch words[0] {
	case "kinds":
		return p.setKinds()
	case "up":
		return p.up(words[1:])
	}
	at := sort.SearchStrings(p.names, words[0])
	if at == len(p.names) || p.names[at] != words[0] || len(words) < 3 {
		return fmt.Errorf("no step")
	}
	return p.change(p.disk(at), words[1], words[2], words[3:])
}

// disk gives a device's disk, on which changes come after all that was done before.
func (p *player) disk(device int) disk {
	return disk{&p.world, device, (p.clock + clockStep/2) * second}
}

func (p *player) setKinds() error {
	for place, name := range p.names {
		kind, is := kinds[p.of.Devices[name]]
		if !is {
			return fmt.Errorf("no kind %q", p.of.Devices[name])
		}
		p.world.Devices[place].Kind = kind
	}
	return nil
}

// up has devices run until nothing changes any more.
func (p *player) up(words []string) error {
	var running []int
	var commands []forecast.Command
	for _, word := range words {
		command, name, is := strings.Cut(word, " ")
		if !is {
			name = word
		}
		at := sort.SearchStrings(p.names, name)
		if at == len(p.names) || p.names[at] != name {
			return fmt.Errorf("no device %q", name)
		}
		if is {
			commands = append(commands, forecast.Command{Device: at, IsOverride: command == "override"})
		} else {
			running = append(running, at)
		}
	}
	p.clock += clockStep
	p.world = forecast.Settle(p.world, running, p.clock, commands...)
	return nil
}

// change changes what stands on a disk.
func (p *player) change(d disk, verb, name string, more []string) error {
	switch {
	case verb == "rot" || verb == "touch" || verb == "mode":
		return alter(d, verb, name, more)
	case verb == "move":
		d.move(name, more[0])
		return nil
	case verb == "copy":
		other := sort.SearchStrings(p.names, more[0])
		what := p.disk(other).at(name)
		if what == nil {
			return fmt.Errorf("%s has no %s", more[0], name)
		}
		d.remove(name)
		d.put(name, *what)
		return nil
	}
	d.remove(name)
	switch {
	case verb == "write" && len(more) > 0:
		d.put(name, forecast.Node{Type: forecast.File, Time: timeOf(more[1:]), Content: contentOf(more[0]), Mode: usualMode})
	case verb == "directory":
		d.put(name, d.directory())
	case verb == "link":
		d.put(name, forecast.Node{Type: forecast.Symlink, Target: more[0], Mode: forecast.NoMode})
	case verb != "delete":
		return fmt.Errorf("no step")
	}
	return nil
}

// alter changes something of what stands at a name.
func alter(d disk, verb, name string, more []string) error {
	what := d.at(name)
	if what == nil {
		return fmt.Errorf("there is no %s", name)
	}
	changed := *what
	switch verb {
	case "rot":
		changed.Content = contentOf(more[0])
	case "touch":
		changed.Time = timeOf(more)
	case "mode":
		if _, err := fmt.Sscanf(more[0], "%o", &changed.Mode); err != nil {
			return err
		}
	}
	d.put(name, changed)
	return nil
}

func timeOf(words []string) int64 {
	if len(words) == 0 {
		return 0
	}
	var seconds float64
	fmt.Sscan(words[0], &seconds)
	return int64(seconds) * second
}
