package script

import (
	"fmt"
	"math/rand"
	"reflect"
	"regexp"
	"strings"
	"testing"
	"time"

	"syncthing-audit/outlook"
	"syncthing-audit/part"
)

// isRelated says whether two names are one, or one of them stands above the other.
func isRelated(a, b string) bool {
	return a == b || strings.HasPrefix(a, b+"/") || strings.HasPrefix(b, a+"/")
}

// plainRound gives the first round that a step may be of, behind all before it: not before one that has to do with its name on its device, and behind
// one that copies what it changes, or changes what it copies.
func plainRound(next *step, before []step) int {
	round := 1
	for at := range before {
		had, least := &before[at], 0
		if !isRelated(had.name, next.name) {
			continue
		}
		if had.device == next.device {
			least = had.round
		}
		if had.act == outlook.Copy && had.from == next.device && next.act != outlook.Save || next.act == outlook.Copy && next.from == had.device && had.act != outlook.Save {
			least = had.round + 1
		}
		if least > round {
			round = least
		}
	}
	return round
}

// plansOfNames draws plans of names that stand above one another, whatever is on the disks.
func plansOfNames(random *rand.Rand) []*outlook.Plan {
	acts := []outlook.Act{outlook.Save, outlook.Touch, outlook.Copy, outlook.Copy, outlook.Delete}
	var plans []*outlook.Plan
	for count := 1 + random.Intn(4); count > 0; count-- {
		plan := &outlook.Plan{}
		if random.Intn(2) == 0 {
			plan.Goal = &outlook.Thing{Devices: ids[:1]}
		}
		for _, name := range []string{"a", "a/b", "a/b/c", "ab", "d", "d/e"} {
			if random.Intn(3) == 0 {
				plan.Names = append(plan.Names, part.Bytes(name))
			}
		}
		for steps := 1 + random.Intn(3); steps > 0; steps-- {
			device := random.Intn(len(ids))
			next := outlook.Step{Act: acts[random.Intn(len(acts))], Device: ids[device]}
			if next.Act == outlook.Copy {
				next.From, next.Over = ids[(device+1+random.Intn(len(ids)-1))%len(ids)], random.Intn(2) == 0
			}
			plan.Steps = append(plan.Steps, next)
		}
		plans = append(plans, plan)
	}
	return plans
}

// Each step is of the first round that what comes before it leaves to it, as a plain reading of all steps says.
func TestRoundsOfSteps(t *testing.T) {
	most := 0
	for seed := int64(1); seed <= 400; seed++ {
		plans := plansOfNames(rand.New(rand.NewSource(seed)))
		steps, at := stepsOf(plans), 0
		for _, plan := range plans {
			for _, told := range plan.Steps {
				for _, name := range plan.Names {
					is := &steps[at]
					if is.act != told.Act || is.device != told.Device || is.from != told.From || is.over != told.Over || is.name != string(name) || is.plan != plan {
						t.Fatalf("seed %d: %+v, not %+v of %s", seed, is, told, name)
					}
					if due := plainRound(is, steps[:at]); is.round != due {
						t.Fatalf("seed %d: %+v is of round %d, behind %+v", seed, is, due, steps[:at])
					}
					if at++; is.round > most {
						most = is.round
					}
				}
			}
		}
		if at != len(steps) {
			t.Fatalf("seed %d: %d steps, not %d", seed, len(steps), at)
		}
	}
	if most < 4 {
		t.Errorf("no script is of a round behind %d", most)
	}
}

// stepLine is a step's line in a script: what it does, and its number.
var stepLine = regexp.MustCompile(`^(save|renew|take|fetch) (\d+) `)

// Steps are numbered over all scripts, from 1. A script says to what a plan leads before the first of its steps that come together.
func TestStepsAreNumbered(t *testing.T) {
	verbs := map[outlook.Act]string{outlook.Save: "save", outlook.Touch: "renew", outlook.Copy: "fetch", outlook.Delete: "take"}
	for seed := int64(1); seed <= 60; seed++ {
		plans := plansOfNames(rand.New(rand.NewSource(seed)))
		due, last := map[string][]string{}, map[string]*outlook.Plan{}
		for at, step := range stepsOf(plans) {
			script := fmt.Sprintf("%d %.7s", step.round, step.device)
			if last[script] != step.plan {
				last[script] = step.plan
				due[script] = append(due[script], map[bool]string{true: "# What stands there may go once Syncthing starts: it is kept.", false: "# So all devices then have"}[step.plan.Goal == nil])
			}
			due[script] = append(due[script], fmt.Sprint(verbs[step.act], " ", at+1))
		}
		scripts := Of(summaryOf(plans), time.Unix(0, 0))
		for _, file := range scripts {
			_, steps, _ := strings.Cut(file.Text, "\nprepare\n")
			var is []string
			for _, line := range strings.Split(steps, "\n") {
				if found := stepLine.FindStringSubmatch(line); found != nil {
					is = append(is, found[1]+" "+found[2])
				} else if strings.HasPrefix(line, "# So all devices then have ") {
					is = append(is, "# So all devices then have")
				} else if strings.HasPrefix(line, "# ") {
					is = append(is, line)
				}
			}
			words := strings.Split(strings.TrimSuffix(file.Name, ".sh"), "-")
			script := words[0] + " " + words[len(words)-1]
			if !reflect.DeepEqual(is, due[script]) {
				t.Fatalf("seed %d, %s: %q, not %q", seed, script, is, due[script])
			}
		}
		if len(scripts) != len(due) {
			t.Fatalf("seed %d: %d scripts, not %d", seed, len(scripts), len(due))
		}
	}
}
