package advice

import (
	"syncthing-audit/forecast"
	"syncthing-audit/lists"
)

// Check gives the plan of these steps if each of its ends is the goal, and it is safe from the top; nothing if not.
func (s Search) Check(world forecast.World, goal Goal, steps []Step) *Plan {
	t := task{Search: s, world: world, goal: goal, before: OnDisks(world.Names), unavoidable: Contents{}}
	t.before.lostIn(s.answer(world).Ends, t.unavoidable)
	for _, step := range steps {
		if !t.mayTake(step) {
			return nil
		}
	}
	plan := t.leads(steps)
	if plan == nil || !t.isSafe(steps, plan.Lost) {
		return nil
	}
	return plan
}

// mayTake says whether there is what a step touches or copies.
func (t *task) mayTake(step Step) bool {
	switch step.Act {
	case Touch:
		return t.world.At(step.Device, step.Name) != nil
	case Copy:
		return t.world.At(step.From, step.Name) != nil && t.world.HasRoom(step.Device, step.Name)
	}
	return true
}

// Together gives the plan of these steps if each of its ends is all these goals, and it is safe from the top. Else it gives the goals that aren't
// reached at some end; none where it is for another reason.
func (s Search) Together(world forecast.World, goals []Goal, steps []Step) (*Plan, []Goal) {
	t := task{Search: s, world: world, before: OnDisks(world.Names), unavoidable: Contents{}}
	plan := t.comesOf(steps)
	if plan == nil {
		return nil, nil
	}
	missed := lists.Where(goals, func(goal Goal) bool { return !goal.isReachedAtAll(plan.Answer.Ends) })
	if len(missed) > 0 {
		return nil, missed
	}
	t.before.lostIn(s.answer(world).Ends, t.unavoidable)
	if !t.isSafe(steps, plan.Lost) {
		return nil, nil
	}
	plan.Costs = lists.Where(plan.Lost, func(content forecast.Content) bool { return !t.unavoidable[content] })
	return plan, nil
}
