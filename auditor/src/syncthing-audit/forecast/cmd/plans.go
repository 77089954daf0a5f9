package main

import (
	"math/rand"
	"time"

	"syncthing-audit/advice"
	"syncthing-audit/forecast"
)

// plan is a plan of a goal that was drawn; without steps and answer if none was found.
type plan struct {
	Goal  advice.Goal
	Found bool
	Plan  advice.Plan
}

// budgetOfPlans is that of each step of a search.
var budgetOfPlans = forecast.Budget{States: 1500, Walks: 40, Total: 3000000}

// plans draws a goal for each group of names, and finds a plan: that what some device has at a name stands on all, or that it stays away.
func plans(world forecast.World, seed int64) []plan {
	random := rand.New(rand.NewSource(seed))
	search := advice.Search{Forecaster: forecast.New(budgetOfPlans), Present: time.Now().UnixNano()}
	var made []plan
	for _, group := range world.Groups() {
		goal := drawn(group, random)
		if goal == nil {
			continue
		}
		found := search.Plans(group, *goal)
		one := plan{Goal: *goal}
		if len(found) > 0 {
			one.Found, one.Plan = true, found[random.Intn(len(found))]
		}
		made = append(made, one)
	}
	return made
}

// drawn draws a goal: what stands at one of the names on one of the devices, if all that stands there are files.
func drawn(group forecast.World, random *rand.Rand) *advice.Goal {
	name := group.Names[random.Intn(len(group.Names))]
	goal := &advice.Goal{Name: name.Name, Node: name.Disk[random.Intn(len(name.Disk))]}
	for _, what := range name.Disk {
		if what != nil && what.Type != forecast.File {
			return nil
		}
	}
	return goal
}
