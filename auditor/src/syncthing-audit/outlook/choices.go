package outlook

import (
	"reflect"
	"sort"

	"syncthing-audit/damage"
	"syncthing-audit/forecast"
	"syncthing-audit/lists"
	"syncthing-audit/part"
)

// What may be chosen for the whole folder on a device that doesn't send and receive.
const (
	Revert   Act = "revert"           // 'Revert Local Changes', once all have come to rest
	Override Act = "override"         // 'Override Changes', once all have come to rest
	Both     Act = "send-and-receive" // the folder is made one that sends and receives
)

// Choice is what may be done for the whole folder on a device, and what comes of it as things stand now.
type Choice struct {
	Act     Act    `json:"act"`
	Device  string `json:"device"`
	Names   int64  `json:"names"`                   // that come to another end by it
	Alike   int64  `json:"alike_then"`              // of these: all devices have one thing then
	Loses   []Loss `json:"loses"`                   // what is lost by it alone, by names: the first MostListed
	Lost    int64  `json:"names_that_lose"`         // of how many names that is
	Goes    []Loss `json:"goes,omitempty"`          // what else stands on a disk now, stays if nobody does anything and goes by it, since a recorded change or deletion replaces it: the first MostListed
	Gone    int64  `json:"names_that_go,omitempty"` // of how many names that is
	Unknown int64  `json:"not_known"`               // of how many names nobody knows what it does
	IsAll   bool   `json:"all_orders"`
}

// Loss is what is lost of a name, where it stands now.
type Loss struct {
	Name  part.Bytes `json:"name"`
	Loses []Thing    `json:"loses"`
}

// choices finds what may be chosen, group by group.
type choices struct {
	forecaster *forecast.Forecaster
	damage     map[string][]damage.Kind
	all        lists.Grouped[chosen, Choice]
}

// chosen is what is chosen on a device.
type chosen struct {
	act    Act
	member int
}

func newChoices(forecaster *forecast.Forecaster, damaged map[string][]damage.Kind) *choices {
	return &choices{forecaster: forecaster, damage: damaged}
}

// take takes a group with what becomes of its names if nobody does anything.
func (c *choices) take(group *forecast.World, told []Name, before *judge) {
	for member, device := range group.Devices {
		switch {
		case device.Kind == forecast.ReceiveOnly && hasLocals(group, told, member):
			c.add(group, told, before, chosen{Revert, member})
			c.add(group, told, before, chosen{Both, member})
		case device.Kind == forecast.SendOnly && keeps(told, device.ID, forecast.OnlySends):
			c.add(group, told, before, chosen{Override, member})
			c.add(group, told, before, chosen{Both, member})
		}
	}
}

// hasLocals says whether a device that only receives has something of its own, or comes to have it.
func hasLocals(group *forecast.World, told []Name, member int) bool {
	for place := range group.Names {
		if own := group.Names[place].Own[member]; own != nil && own.Flag == forecast.LocalChange || isUnscanned(own, group.Names[place].Disk[member]) {
			return true
		}
	}
	device := group.Devices[member].ID
	return keeps(told, device, forecast.KeepsLocalChange) || keeps(told, device, forecast.HasLocalChanges)
}

// isUnscanned says whether a disk isn't as recorded in a way that a scan sees.
func isUnscanned(own *forecast.Record, what *forecast.Node) bool {
	isThere := own != nil && !own.Deleted
	switch {
	case what == nil || !isThere:
		return isThere || what != nil
	case own.Type != what.Type || own.Type == forecast.File && own.Time != what.Time:
		return true
	}
	return own.Target != what.Target
}

func keeps(told []Name, device string, why forecast.Why) bool {
	isKept := func(kept Kept) bool { return kept.Device == device && kept.Why == why }
	return lists.Has(told, func(name Name) bool { return lists.Has(name.Kept, isKept) })
}

// add counts what a choice does to a group.
func (c *choices) add(group *forecast.World, told []Name, before *judge, step chosen) {
	choice := c.all.Of(step)
	if choice.Act == "" {
		*choice = Choice{Act: step.act, Device: group.Devices[step.member].ID, Loses: []Loss{}, IsAll: true}
	}
	answer := c.after(group, step)
	if answer.IsOver || len(answer.Ends) == 0 || answer.Endless > 0 {
		choice.Unknown += int64(len(told))
		return
	}
	judge := newJudge(group, &answer, c.damage)
	for place := range told {
		name := &group.Names[place]
		choice.take(&told[place], judge.name(name), len(group.Devices))
		choice.takeReplaced(name, before, judge)
	}
}

// after gives what comes of a choice.
func (c *choices) after(group *forecast.World, step chosen) forecast.Answer {
	switch step.act {
	case Revert, Override:
		return c.forecaster.OfGroup(group.Devices, group.Copied().Names, forecast.Command{Device: step.member, IsOverride: step.act == Override})
	}
	devices := append([]forecast.Device{}, group.Devices...)
	devices[step.member].Kind = forecast.SendReceive
	return c.forecaster.OfGroup(devices, group.Copied().Names)
}

// take counts what becomes of a name.
func (c *Choice) take(before *Name, after Name, devices int) {
	if reflect.DeepEqual(before.Ends, after.Ends) {
		return
	}
	c.Names++
	c.IsAll = c.IsAll && after.IsAll
	if !lists.Has(after.Ends, func(end []Thing) bool { return !isOne(end, devices) }) {
		c.Alike++
	}
	loses := lists.Where(after.Loses, func(thing Thing) bool { return !isAmong(before.Loses, thing) })
	note(&c.Loses, &c.Lost, after.Name, loses)
}

// takeReplaced counts what goes by a choice since something recorded replaces it.
func (c *Choice) takeReplaced(name *forecast.Name, before, after *judge) {
	goes := filesOf(after.goesBy(name, byRecord, byUnscanned))
	note(&c.Goes, &c.Gone, part.Bytes(name.Name), lists.Where(goes, func(thing Thing) bool { return before.survives(name.Name, thing) }))
}

// note counts a name of which something goes, and lists it if it is one of the first.
func note(listed *[]Loss, count *int64, name part.Bytes, goes []Thing) {
	if len(goes) == 0 {
		return
	}
	if *count++; len(*listed) < MostListed {
		*listed = append(*listed, Loss{name, goes})
	}
}

// byDevices gives them in the order of their devices.
func (c *choices) byDevices() []*Choice {
	sort.SliceStable(c.all.Keys, func(a, b int) bool { return c.all.Keys[a].member < c.all.Keys[b].member })
	return lists.Where(c.all.All(), func(choice *Choice) bool { return choice.Names+choice.Unknown > 0 })
}
