// Command cmd foretells the ends of a folder for the tests on real devices: it reads the parts of all devices, and writes JSON.
package main

import (
	"encoding/json"
	"flag"
	"fmt"
	"os"

	"syncthing-audit/forecast"
	"syncthing-audit/forecast/read"
	"syncthing-audit/part"
)

func main() {
	folder := flag.String("folder", "docs", "the folder's id")
	states := flag.Int("states", forecast.Usual.States, "up to so many states all orders are tried")
	walks := flag.Int("walks", forecast.Usual.Walks, "beyond that so many in random order")
	group := flag.String("group", "", "only the names that hang together with this one, and their world")
	captured := flag.String("world", "", "a world that --group wrote, in place of parts")
	seed := flag.Int64("plans", 0, "a plan for a goal drawn with this seed, too, for each group of names")
	act := flag.String("choose", "", "what is chosen for the whole folder on a device: revert, override or send-and-receive")
	device := flag.Int("device", 0, "that device's place")
	flag.Parse()
	budget := forecast.Budget{States: *states, Walks: *walks, Total: forecast.Usual.Total}
	world, err := worldOf(*captured, *folder, flag.Args())
	if err == nil && *act != "" {
		err = json.NewEncoder(os.Stdout).Encode(map[string]interface{}{"answers": chosen(world, budget, *act, *device)})
	} else if err == nil {
		err = json.NewEncoder(os.Stdout).Encode(told(world, *group, budget, *seed))
	}
	if err != nil {
		fmt.Fprintln(os.Stderr, err)
		os.Exit(2)
	}
}

// told gives what is written.
func told(world forecast.World, group string, budget forecast.Budget, seed int64) map[string]interface{} {
	made := map[string]interface{}{}
	if group != "" {
		world = groupOf(world, group)
		made["world"] = world
	}
	made["answers"] = forecast.New(budget).Of(world)
	if seed != 0 {
		made["plans"] = plans(world, seed)
	}
	return made
}

// chosen gives what comes of a choice for each group of names.
func chosen(world forecast.World, budget forecast.Budget, act string, device int) []forecast.Answer {
	forecaster, commands := forecast.New(budget), []forecast.Command{{Device: device, IsOverride: act == "override"}}
	if act == "send-and-receive" {
		world.Devices[device].Kind, commands = forecast.SendReceive, nil
	}
	var made []forecast.Answer
	for _, group := range world.Groups() {
		made = append(made, forecaster.OfGroup(group.Devices, group.Names, commands...))
	}
	return made
}

// groupOf gives the world of the names that hang together with one.
func groupOf(world forecast.World, name string) forecast.World {
	for _, group := range world.Groups() {
		for place := range group.Names {
			if group.Names[place].Name == name {
				return group
			}
		}
	}
	return forecast.World{Devices: world.Devices}
}

// worldOf reads a world, or makes it of parts.
func worldOf(captured, folder string, paths []string) (forecast.World, error) {
	if captured == "" {
		return worldOfParts(folder, paths)
	}
	text, err := os.ReadFile(captured)
	var read struct{ World forecast.World }
	if err == nil {
		err = json.Unmarshal(text, &read)
	}
	return read.World, err
}

func worldOfParts(folder string, paths []string) (forecast.World, error) {
	var parts []part.Stream
	for _, path := range paths {
		file, err := os.Open(path)
		if err != nil {
			return forecast.World{}, err
		}
		defer file.Close()
		one, err := part.NewReader(file)
		if err != nil {
			return forecast.World{}, fmt.Errorf("%s: %w", path, err)
		}
		parts = append(parts, one)
	}
	return read.World(parts, folder)
}
