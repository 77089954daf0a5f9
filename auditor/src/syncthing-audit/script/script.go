// Package script writes the steps of an answer's plans as shell scripts: one for each device in each round. It runs none of them. A script names no path
// by itself, deletes nothing, and makes each step once.
package script

import (
	_ "embed"
	"fmt"
	"sort"
	"strings"
	"time"

	"syncthing-audit/outlook"
	"syncthing-audit/print"
	"syncthing-audit/shell"
	"syncthing-audit/summary"
)

//go:embed prelude.sh
var prelude string

// File is a script.
type File struct {
	Name string
	Text string
}

// Of gives the scripts of an answer, those first that are to be run first. The time tells the audit's own steps from those of another one.
func Of(told *summary.Summary, now time.Time) []File {
	all := &writing{called: told.Called(), chosen: map[string]string{}, first: len(told.First), audit: now.UTC().Format("20060102T150405Z"), scripts: map[of]*script{}}
	for _, device := range told.Devices {
		all.chosen[device.ID] = device.Name
	}
	for _, folder := range told.Folders {
		if folder.Outlook == nil {
			continue
		}
		steps := stepsOf(folder.Outlook.Plans)
		if len(steps) > 0 {
			all.note(folder.Outlook)
		}
		for place := range steps {
			all.take(folder, &steps[place])
		}
	}
	var files []File
	for _, at := range all.places() {
		files = append(files, File{all.nameOf(at), all.text(at)})
	}
	return files
}

// of says of which device a script is, and of which round.
type of struct {
	round  int
	device string
}

// writing are the scripts of an answer.
type writing struct {
	called  print.Names
	chosen  map[string]string // the name that each device has chosen, if any
	audit   string
	scripts map[of]*script
	number  int   // of the last step
	rounds  int   // of all steps
	first   int   // what the answer says is to be done first
	without int64 // names that no step puts right
	decided int64 // names that a start has all devices change or delete
	unknown int64 // names of which it isn't known what a start does
	hidden  int64 // names that no plan lists
}

// script is what one has by its folders and steps.
type script struct {
	folders []*summary.Folder
	sources []source
	steps   strings.Builder
	plan    *outlook.Plan // of the last step
}

// source is a folder on another device.
type source struct {
	folder *summary.Folder
	device string
}

// note notes what no script of a folder does.
func (w *writing) note(told *outlook.Outlook) {
	w.without += told.WithoutSteps
	w.decided += told.ToDecide
	w.unknown += told.NotKnown
	for _, plan := range told.Plans {
		w.hidden += plan.Count - int64(len(plan.Names))
	}
}

// take writes a step into its script.
func (w *writing) take(folder *summary.Folder, next *step) {
	at := of{next.round, next.device}
	if w.scripts[at] == nil {
		w.scripts[at] = &script{}
	}
	to := w.scripts[at]
	w.number, w.rounds = w.number+1, max(w.rounds, next.round)
	if to.plan != next.plan {
		to.plan = next.plan
		fmt.Fprintf(&to.steps, "\n# %s\n", w.aim(next.plan))
	}
	word := to.wordOf(next.name, w.number)
	said := fmt.Sprintf(`%d "$folder_%d" %s`, w.number, placeOf(&to.folders, folder), word)
	switch next.act {
	case outlook.Save:
		fmt.Fprintf(&to.steps, "save %s\n", said)
	case outlook.Touch:
		fmt.Fprintf(&to.steps, "renew %s\n", said)
	case outlook.Delete:
		fmt.Fprintf(&to.steps, "take %s\n", said)
	case outlook.Copy:
		what := "new"
		if next.over {
			what = "over"
		}
		fmt.Fprintf(&to.steps, "fetch %s \"$source_%d\" %s\n", said, placeOf(&to.sources, source{folder, next.from}), what)
	}
}

// placeOf gives where something stands in a list, from 1, and puts it there if it isn't.
func placeOf[T comparable](list *[]T, item T) int {
	for place, had := range *list {
		if had == item {
			return place + 1
		}
	}
	*list = append(*list, item)
	return len(*list)
}

// wordOf gives a name as a word of the script. One that can't be typed is made by a line of its own, so that no terminal shows it raw.
func (s *script) wordOf(name string, number int) string {
	if shell.CanBeTyped(name) {
		return shell.Exact(name)
	}
	fmt.Fprintf(&s.steps, "name_%d=$(printf '%%b.' '%s') # %s\nname_%d=${name_%d%%.}\n", number, octal(name), shell.Quoted(name), number, number)
	return fmt.Sprintf(`"$name_%d"`, number)
}

// aim says to what a plan leads.
func (w *writing) aim(plan *outlook.Plan) string {
	if leads := print.Leads(plan, w.called); leads != "" {
		return "So " + leads + "."
	}
	return "What stands there may go once Syncthing starts: it is kept."
}

// places gives of which devices and rounds there are scripts, in the order in which they are run.
func (w *writing) places() []of {
	var all []of
	for at := range w.scripts {
		all = append(all, at)
	}
	sort.Slice(all, func(a, b int) bool {
		if all[a].round != all[b].round {
			return all[a].round < all[b].round
		}
		return w.nameOf(all[a]) < w.nameOf(all[b])
	})
	return all
}

// nameOf gives a script's name: its round, and the device's name as far as it can stand there, with the beginning of its id.
func (w *writing) nameOf(at of) string {
	isOther := func(letter rune) rune {
		if letter < 128 && (letter == '-' || letter >= '0' && letter <= '9' || letter >= 'A' && letter <= 'Z' || letter >= 'a' && letter <= 'z') {
			return letter
		}
		return '_'
	}
	name := w.chosen[at.device]
	if name == "" {
		name = w.called(at.device)
	}
	return fmt.Sprintf("%d-%.40s-%.7s.sh", at.round, strings.Map(isOther, name), at.device)
}

// octal gives a text byte by byte, as printf reads it.
func octal(text string) string {
	var made strings.Builder
	for place := 0; place < len(text); place++ {
		fmt.Fprintf(&made, `\0%03o`, text[place])
	}
	return made.String()
}
