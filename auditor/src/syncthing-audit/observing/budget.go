package observing

import (
	"context"
	"fmt"
	"io"
	"path/filepath"
	"strconv"

	"syncthing-audit/amount"
	"syncthing-audit/answering"
	"syncthing-audit/budget"
	"syncthing-audit/commandline"
	"syncthing-audit/fault"
	"syncthing-audit/history"
	"syncthing-audit/observe"
	"syncthing-audit/outside"
	"syncthing-audit/part"
	"syncthing-audit/shell"
)

// nameOfHistory is the history of looks that read so many bytes each, in the observer's home where none is named.
const nameOfHistory = "history"

// choose chooses the names whose bytes are asked for, where not all are: those that were asked for longest ago, by the history.
func (o *observing) choose() error {
	if o.asked.Budget == 0 {
		return nil
	}
	kept, err := history.Open(o.asked.History)
	if err != nil {
		return fault.Of(err)
	}
	defer kept.Close()
	watch, err := kept.Watch()
	if err != nil {
		return fault.Of(err)
	}
	o.chosen, err = budget.Make(context.Background(), kept, o.placesOf(), budget.Asked{Bytes: o.asked.Budget, IsFault: watch.WasAtFault, Room: o.found})
	return fault.Of(err)
}

// placesOf gives the folders of all devices that are looked at.
func (o *observing) placesOf() []budget.Place {
	places := []budget.Place{}
	o.eachFolder(func(folder *observe.Folder) { places = append(places, folder.Place(o.asked.Names)) })
	return places
}

// eachFolder gives the folders of all devices that are looked at.
func (o *observing) eachFolder(take func(*observe.Folder)) {
	for _, device := range o.devices {
		if device == nil {
			continue
		}
		for _, folder := range device.Folders {
			take(folder)
		}
	}
}

// tellWaiting has the history say what isn't read yet.
func (o *observing) tellWaiting(kept *answering.Remembering) {
	if o.chosen == nil {
		return
	}
	names := map[uint64]string{}
	for _, device := range o.devices {
		if device != nil {
			names[part.Number(device.ID.String())] = device.ID.String()
		}
	}
	for _, waiting := range o.chosen.Waiting {
		if waiting.Device = names[waiting.Number]; waiting.Device != "" {
			kept.Waiting = append(kept.Waiting, waiting)
		}
	}
}

// keepChosen keeps which names were asked for, once the answer was told, of those devices that were looked at twice.
func (o *observing) keepChosen(kept *answering.Remembering) error {
	if o.chosen == nil || kept.History == nil {
		return nil
	}
	isOf := map[uint64]map[string]bool{}
	o.eachFolder(func(folder *observe.Folder) {
		place := folder.Place(o.asked.Names)
		if isOf[place.Device] == nil {
			isOf[place.Device] = map[string]bool{}
		}
		isOf[place.Device][place.Folder] = true
	})
	return fault.Of(o.chosen.Keep(kept.History, o.first.Unix(), func(folder string, device uint64) bool { return isOf[device][folder] }))
}

// printWaiting tells a person what isn't read yet.
func (o *observing) printWaiting(output io.Writer) error {
	if o.chosen == nil {
		return nil
	}
	to := fault.Writer{To: output}
	for _, waiting := range o.chosen.Waiting {
		if err := outside.Printf(to, "not read this time: %s on %s: %s\n", shell.Folder(waiting.Folder, ""), o.called(waiting.Number), wordsOfWaiting(waiting)); err != nil {
			return err
		}
	}
	if len(o.chosen.Waiting) == 0 {
		return outside.Printf(to, "all files were read this time: they have fewer bytes than --budget\n")
	}
	return nil
}

// called names a device for a person.
func (o *observing) called(number uint64) string {
	for _, device := range o.devices {
		if device != nil && part.Number(device.ID.String()) == number {
			return shell.Device(device.Hello.Name, device.ID.String())
		}
	}
	return strconv.FormatUint(number, 10)
}

// wordsOfWaiting says how much waits, and for how long.
func wordsOfWaiting(waiting history.Waiting) string {
	words := fmt.Sprintf("%s (%s)", amount.Of(int(waiting.Files), "file"), amount.Bytes(waiting.Bytes))
	if waiting.Never > 0 {
		words += fmt.Sprintf(", of which %s (%s) never yet", amount.Of(int(waiting.Never), "file"), amount.Bytes(waiting.NeverBytes))
	}
	if waiting.Oldest != nil {
		words += fmt.Sprintf("; the one that waits longest was read %s", waiting.Oldest.Format("2006-01-02 15:04:05 UTC"))
	}
	return words
}

// checkBudget says what doesn't go with looks that go on, or that read so many bytes each, and says where their history is.
func checkBudget(o *commandline.Options) error {
	switch {
	case o.Budget == 0 && o.Every == 0:
		return nil
	case o.Into != "":
		return commandline.WrongUse("--budget and --every answer each time, and --into writes parts in place of an answer")
	case len(o.Disks) > 0:
		return commandline.WrongUse("--budget and --every ask devices over the wire alone: --disk waits for a person")
	case o.Budget > 0 && o.Records:
		return commandline.WrongUse("--budget says how many bytes are read, and --records reads none")
	}
	if o.History == "" {
		o.History = filepath.Join(o.Homes[0], nameOfHistory)
	}
	return nil
}
