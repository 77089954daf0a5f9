package script

import (
	"fmt"
	"strings"

	"syncthing-audit/part"
	"syncthing-audit/print"
	"syncthing-audit/shell"
	"syncthing-audit/summary"
)

// text gives a script as a whole.
func (w *writing) text(at of) string {
	script := w.scripts[at]
	var text strings.Builder
	line := func(format string, values ...any) { fmt.Fprintf(&text, format+"\n", values...) }
	line("#!/bin/sh")
	line("# Steps on %s, of an audit at %s.", w.called(at.device), w.audit)
	line("#")
	line("# Read it, and fill in what follows. Run it by sh, as the user who runs Syncthing there, while Syncthing is stopped on all devices of the folder.")
	line("# It deletes nothing: what it takes away goes to $aside. Each step is made once, so it may be run again.")
	for _, note := range w.notes(at) {
		line("# %s", note)
	}
	line("")
	line("stopped=no # yes, once Syncthing is stopped on all devices")
	line("aside=     # a directory outside of all folders of Syncthing, best on the same disk")
	for place, folder := range script.folders {
		line("folder_%d=  # where %s is on this device", place+1, folderOf(folder))
	}
	for place, source := range script.sources {
		line("source_%d=  # where %s is: a path here, or HOST:/PATH, which rsync reaches by ssh", place+1, w.sourceOf(source))
	}
	line("audit=%s", w.audit)
	line("")
	text.WriteString(prelude)
	line("")
	line("check_all")
	for place, folder := range script.folders {
		line("check_folder \"$folder_%d\" %s %s", place+1, shell.Exact(folderOf(folder)), markerOf(folder, at.device))
	}
	for place, source := range script.sources {
		line("check_source \"$source_%d\" %s", place+1, shell.Exact(w.sourceOf(source)))
	}
	line("prepare")
	text.WriteString(script.steps.String())
	line("")
	line("printf '%%s\\n' %s", shell.Exact(w.next(at)))
	return text.String()
}

// markerOf gives a word for the name in the folder's directory on a device by which Syncthing knows it.
func markerOf(folder *summary.Folder, device string) string {
	marker := part.UsualMarker
	for _, member := range folder.Devices {
		if member.Device == device && member.Marker != "" {
			marker = member.Marker
		}
	}
	if shell.CanBeTyped(marker) {
		return shell.Exact(marker)
	}
	return `"$(printf '%b' '` + octal(marker) + `')"`
}

func folderOf(folder *summary.Folder) string { return shell.Folder(folder.ID, folder.Label) }

func (w *writing) sourceOf(source source) string {
	return folderOf(source.folder) + " of " + w.called(source.device)
}

// notes say in what order scripts are run, and what none of them does.
func (w *writing) notes(at of) []string {
	var lines []string
	if w.rounds > 1 {
		lines = append(lines, fmt.Sprintf("Run all scripts whose names begin with 1- on their devices, then those with 2-, and so on up to %d-. This one is of round %d.", w.rounds, at.round))
	}
	if w.hidden > 0 {
		lines = append(lines, print.Counted(w.hidden, "more name needs", "more names need")+" such steps, and no script has them: audit again after these.")
	}
	return append(lines, w.rest()...)
}

// rest says what is to be done beside the scripts, before Syncthing starts.
func (w *writing) rest() []string {
	var lines []string
	if w.first > 0 {
		lines = append(lines, "The answer begins with what is to be done before Syncthing starts: "+print.Counted(int64(w.first), "line.", "lines."))
	}
	if w.without > 0 {
		lines = append(lines, "The answer's entries say what to do before Syncthing starts, for "+print.Counted(w.without, "name that no script puts right.", "names that no script puts right."))
	}
	if w.decided > 0 {
		lines = append(lines, "A start has all devices change or delete "+print.Counted(w.decided, "name", "names")+": see first whether that is wanted.")
	}
	if w.unknown > 0 {
		lines = append(lines, "It isn't known what a start does to "+print.Counted(w.unknown, "name: see to it first.", "names: see to them first."))
	}
	return lines
}

// next says what comes after a script.
func (w *writing) next(at of) string {
	said := "All steps of this script are made."
	switch {
	case at.round < w.rounds:
		return said + fmt.Sprintf(" Once all scripts of round %d are through, those of round %d are next.", at.round, at.round+1)
	case w.hidden > 0:
		return said + " Audit again, before Syncthing starts, for the steps that no script has."
	}
	return strings.Join(append([]string{said}, append(w.rest(), "Once all scripts are through, start Syncthing on all devices.")...), " ")
}
