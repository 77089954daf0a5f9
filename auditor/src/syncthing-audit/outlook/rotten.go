package outlook

import (
	"syncthing-audit/advice"
	"syncthing-audit/forecast"
	"syncthing-audit/lists"
)

// losesOthers says whether a plan of these names loses bytes that stand under other names alone, and stay if nobody does anything; and under which names
// other bytes than recorded stand, that no scan sees, of which that is so. These may go once they are saved.
func losesOthers(group *forecast.World, hands []hand, taken []forecast.Content, lost map[forecast.Content]bool) (rotten []rottenAt, is bool) {
	own := advice.OnDisks(lists.Each(hands, func(hand hand) forecast.Name { return group.Names[hand.place] }))
	for _, content := range taken {
		if own[content] || lost[content] {
			continue
		}
		at := rottenWith(group, content)
		if at == nil {
			return nil, true
		}
		rotten = append(rotten, *at)
	}
	return rotten, false
}

// rottenAt is a name, by its place, and a device on which other bytes than recorded stand under it, that no scan sees.
type rottenAt struct {
	place  int
	device string
}

// rottenWith gives where these bytes stand so; nothing where they stand otherwise, too.
func rottenWith(group *forecast.World, content forecast.Content) *rottenAt {
	var found *rottenAt
	for place := range group.Names {
		name := &group.Names[place]
		for member, what := range name.Disk {
			switch {
			case what == nil || what.Content != content:
			case !isRot(name.Own[member], what):
				return nil
			default:
				found = &rottenAt{place, group.Devices[member].ID}
			}
		}
	}
	return found
}

// saveRotten gives names whose rotten bytes a plan of another one loses steps that save them, where they have none.
func saveRotten(plans map[int]*Plan, rotten []rottenAt) {
	for _, at := range rotten {
		step := Step{Act: Save, Device: at.device}
		switch plan := plans[at.place]; {
		case plan == nil:
			plans[at.place] = &Plan{Steps: []Step{step}, IsAll: true}
		case !plan.does(Save, at.device):
			plan.Steps = append([]Step{step}, plan.Steps...)
		}
	}
}
