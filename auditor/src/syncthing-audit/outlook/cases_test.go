package outlook

import (
	"bufio"
	"encoding/json"
	"fmt"
	"os"
	"regexp"
	"strings"
	"testing"

	"syncthing-audit/forecast"
	"syncthing-audit/forecast/read"
	"syncthing-audit/join"
	"syncthing-audit/part"
)

// worldOfCase is a world of testdata/cases.jsonl: what devices of these kinds have of some names. Each line was a case of an advice that was told by
// cases.
type worldOfCase struct {
	Test  string
	Kinds []string
	Rows  []*join.Row
}

var shortHash = regexp.MustCompile(`"hash":"([0-9a-f]*)"`)

// cases gives all of them. Hashes stand there without the zeros at their ends.
func cases(t *testing.T) []worldOfCase {
	file, err := os.Open("testdata/cases.jsonl")
	if err != nil {
		t.Fatal(err)
	}
	defer file.Close()
	var made []worldOfCase
	lines := bufio.NewScanner(file)
	lines.Buffer(nil, 1<<20)
	for lines.Scan() {
		text := shortHash.ReplaceAllStringFunc(lines.Text(), func(found string) string {
			hash := shortHash.FindStringSubmatch(found)[1]
			return `"hash":"` + hash + strings.Repeat("0", 64-len(hash)) + `"`
		})
		var one worldOfCase
		if err := json.Unmarshal([]byte(text), &one); err != nil {
			t.Fatal(err)
		}
		made = append(made, one)
	}
	if err := lines.Err(); err != nil {
		t.Fatal(err)
	}
	return made
}

// foretold gives what is foretold of a case on devices of this version, and its groups of names.
func (w *worldOfCase) foretold(runs string) (*Outlook, []forecast.World) {
	kinds := append([]string{}, w.Kinds...)
	for place := range kinds {
		if kinds[place] == "" {
			kinds[place] = "send-receive"
		}
	}
	folder := folderOf(kinds...)
	for _, member := range folder.Members {
		member.Head.Runs = runs
	}
	from, again := read.NewRows(folder), read.NewRows(folder)
	for _, row := range w.Rows {
		for _, at := range row.At {
			if at == nil {
				continue
			}
			if at.Name = part.Bytes(row.Name); at.Own != nil {
				at.Own.Sequence = 20 // above what the others have heard of
			}
		}
		from.Take(row)
		again.Take(row)
	}
	return NewForeteller(forecast.Budget{States: 400, Walks: 6, Total: 1000000}, presentOfPlans).Of(from), again.World().Groups()
}

// What was a case of an advice is told by what is foretold: each name that isn't at rest has a fate, each name that loses something has steps, the
// steps lead where they say, and they may be left after each of them.
func TestCases(t *testing.T) {
	counts, led := map[Fate]int64{}, 0
	for at, example := range cases(t) {
		made, groups := example.foretold([]string{"v1.19.2", "v1.29.5"}[at%2])
		told := map[string]*Name{}
		for place := range made.Listed {
			name := &made.Listed[place]
			told[string(name.Name)] = name
			counts[name.Fate]++
			if name.Fate == Lost && (name.Plan == nil || len(name.Plan.Steps) == 0 && name.Plan.by == "" && name.Plan.Goal == nil) {
				t.Errorf("case %d, %s: %s is lost, and has no steps", at, example.Test, name.Name)
			}
		}
		for place := range groups {
			led += follow(t, fmt.Sprintf("case %d, %s", at, example.Test), &groups[place], told)
		}
	}
	if led < 50 || counts[Unknown] > counts[Lost] {
		t.Errorf("%d names had a plan with a goal; %v", led, counts)
	}
}

// follow makes the steps of a group from the top, and gives how many names have a plan with a goal. After each step nothing may be lost but what was
// saved before, and what is lost if nobody does anything.
func follow(t *testing.T, why string, group *forecast.World, told map[string]*Name) (led int) {
	forecaster, world, saved := forecast.New(forecast.Budget{States: 1500, Walks: 40, Total: 300000}), group.Copied(), map[forecast.Content]bool{}
	lostAt := func(world *forecast.World) map[forecast.Content]bool {
		answer := forecaster.OfGroup(world.Devices, world.Copied().Names)
		contents := map[forecast.Content]bool{}
		for place := range answer.Ends {
			left := answer.Ends[place].Contents()
			for at := range group.Names {
				for _, thing := range thingsNow(anyDevices, &group.Names[at]) {
					if thing.Content.Size > 0 && !left[thing.Content] {
						contents[thing.Content] = true
					}
				}
			}
		}
		return contents
	}
	before := lostAt(&world)
	for place := range group.Names {
		name := told[group.Names[place].Name]
		if name == nil || name.Plan == nil {
			continue
		}
		for _, step := range name.Plan.Steps {
			if what := world.At(memberOf(step.Device), string(name.Name)); step.Act == Save && what != nil {
				saved[what.Content] = true
				continue
			}
			carryOut(&world, string(name.Name), &Plan{Steps: []Step{step}})
			for content := range lostAt(&world) {
				if !before[content] && !saved[content] {
					t.Errorf("%s: %s: once %+v is made, %v is lost", why, name.Name, step, content)
				}
			}
		}
	}
	answer := forecaster.OfGroup(world.Devices, world.Copied().Names)
	for place := range group.Names {
		if name := told[group.Names[place].Name]; name != nil && name.Plan != nil && name.Plan.Goal != nil {
			led++
			for at := range answer.Ends {
				if !standsOnAll(&answer.Ends[at], string(name.Name), name.Plan.Goal) {
					t.Errorf("%s: %s: %+v doesn't lead to %+v", why, name.Name, name.Plan.Steps, name.Plan.Goal)
				}
			}
		}
	}
	return led
}
