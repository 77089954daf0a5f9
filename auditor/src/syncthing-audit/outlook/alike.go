package outlook

import (
	"syncthing-audit/advice"
	"syncthing-audit/forecast"
	"syncthing-audit/lists"
)

// fewHands is for how many names of a group each one's plan is searched by itself, before the same is tried for all of them.
const fewHands = 4

// planAlike tries to do the same for all of these names, since many names that hang together mostly need the same: as those of a disk that rots, or
// of a directory that is gone. It gives nothing where no such way leads to all goals.
func (p *planner) planAlike(group *forecast.World, hands []hand, lost map[forecast.Content]bool) map[int]*Plan {
	for _, way := range []func(*forecast.World, advice.Goal) []advice.Step{touches, copies} {
		world, tried := group.Copied(), append([]hand{}, hands...)
		for at := range tried {
			tried[at].steps = way(&world, tried[at].goal)
			for _, step := range tried[at].steps {
				step.On(&world, p.search.Present)
			}
		}
		goals, steps := together(tried)
		found, _ := p.search.Together(group.Copied(), goals, steps)
		if found == nil {
			continue
		}
		if rotten, isLoss := losesOthers(group, tried, found.Costs, lost); !isLoss {
			plans := p.plansOf(group, tried, found)
			saveRotten(plans, rotten)
			return plans
		}
	}
	return nil
}

// touches gives what is wanted a new time where it stands: on a device that only receives that isn't sent.
func touches(world *forecast.World, goal advice.Goal) []advice.Step {
	return lists.AtMost(1, lists.Where(advice.StepsTo(world, goal), func(step advice.Step) bool {
		return step.Act == advice.Touch && world.Devices[step.Device].Kind != forecast.ReceiveOnly
	}))
}

// copies copies what is wanted to all that don't have it.
func copies(world *forecast.World, goal advice.Goal) []advice.Step {
	return lists.Where(advice.StepsTo(world, goal), func(step advice.Step) bool { return step.Act == advice.Copy })
}
