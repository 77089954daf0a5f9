// Package night makes a night's audit, as a configuration of 'watch' says, and tells what is new.
package night

import (
	"errors"
	"fmt"
	"io"
	"os"
	"path/filepath"
	"runtime/debug"
	"strings"
	"time"

	"syncthing-audit/answering"
	"syncthing-audit/choice"
	"syncthing-audit/commandline"
	"syncthing-audit/device"
	"syncthing-audit/exit"
	"syncthing-audit/inputs"
	"syncthing-audit/observing"
	"syncthing-audit/outside"
	"syncthing-audit/part"
	"syncthing-audit/places"
	"syncthing-audit/shell"
	"syncthing-audit/summary"
	"syncthing-audit/watch"
)

// stateOfWatch is the directory, in the user's home, with what one night leaves to the next, and with the history.
const stateOfWatch = ".local/state/syncthing-audit/watch"

// readBudget reads how many bytes of observed devices are read each night.
func readBudget(config *watch.Config, to *commandline.Options) error {
	for _, budget := range config.Budget {
		if err := commandline.SetBudget(to, budget.Bytes); err != nil {
			return fmt.Errorf("<budget bytes=%q>: %w", budget.Bytes, err)
		}
	}
	return nil
}

// night is one night's audit.
type night struct {
	config *watch.Config
	asked  commandline.Options
	home   string
	began  time.Time
	output io.Writer
	log    io.Writer
	state  *watch.State
	due    choice.Names

	isUnkept bool // whether nothing can be kept for the next night: then the history isn't written either, or what is new tonight would be old tomorrow
	audits   []audited
	faults   []string // of the night itself
	news     []string
}

// audited is one audit of a night: of all devices that are looked at in one way.
type audited struct {
	name   string
	status int
	told   string // the answer for a person or, without one, why there is none
	answer *summary.Summary
}

// path gives a path of the configuration.
func (n *night) path(path string) string { return watch.Expand(n.home, path) }

// run makes the audits and tells; it gives the status. A fault of this program itself is told, too: nobody would hear of a night without an answer.
func (n *night) run() (status int) {
	defer func() {
		if fault := recover(); fault != nil {
			status = n.fail("no answer, a fault of the nightly audit", tracesOf(fault))
		}
	}()
	state, err := watch.OpenState(n.directory())
	if errors.Is(err, watch.ErrRuns) {
		return n.fail("no audit", outside.Sprintf("%v: it has the lock of %s\n", err, shell.Quoted(n.directory())))
	} else if err != nil {
		return n.fail("no audit", outside.Sprintf("what the last night left can't be read: %v\n", err))
	}
	defer state.Close()
	n.state = state
	if state.Lost != nil {
		n.news = append(n.news, outside.Sprintf("what the night before left is lost, so some of what is told below may have been told before: %v", state.Lost))
	}
	if state.Untold {
		n.news = append(n.news, "the night before ended before it told what is new, or couldn't note that it had: all that lasts is told below")
	}
	state.Untold = true
	if err := state.Save(); err != nil {
		n.isUnkept = true
		n.faults = append(n.faults, outside.Sprintf("nothing can be kept for the next night, so it isn't known what is new, and it is told again: %v", err))
	}
	n.due = n.config.Due(n.began.Unix())
	n.auditAll()
	return n.tell()
}

// tracesOf gives a fault of the program with its traces, line by line.
func tracesOf(fault interface{}) string {
	text := outside.Sprintf("%v\n", fault)
	for _, line := range strings.Split(string(debug.Stack()), "\n") {
		text += outside.Sprintf("%s\n", line)
	}
	return text
}

// fail tells that there is no answer, prints why, and gives the status.
func (n *night) fail(subject, text string) int {
	outside.Print(n.log, "syncthing-audit: ")
	outside.Print(n.log, text)
	n.measure(exit.Refused)
	for _, err := range n.config.Tell(subject, text, n.log) {
		outside.Printf(n.log, "syncthing-audit: %v\n", err)
	}
	return exit.Refused
}

// auditAll makes the audits, one for each way to look at devices.
func (n *night) auditAll() {
	if len(n.config.Devices) > 0 {
		n.audit("run", places.Run, n.optionsOfRun())
	}
	if len(n.config.Parts) > 0 {
		n.audit("parts", answering.Check, n.optionsOfParts())
	}
	for _, folder := range n.config.Folders {
		if len(n.config.Observed) > 0 {
			n.audit("observe "+folder.ID, observing.Run, n.optionsOfObserve(folder.ID))
		}
	}
}

// options gives what each audit is asked.
func (n *night) options(name string, folders []watch.Folder) commandline.Options {
	options := commandline.Options{Program: n.asked.Program, Jobs: n.asked.Jobs, HasJobs: n.asked.HasJobs, Names: n.due, LeaveOut: map[string]bool{}, Data: map[int]string{}, Maps: map[int]device.Maps{},
		Still: n.asked.Still, HasStill: n.asked.HasStill, History: filepath.Join(n.directory(), "history of "+name)}
	for _, folder := range folders {
		options.Folders = append(options.Folders, folder.ID)
	}
	return options
}

func (n *night) optionsOfRun() commandline.Options {
	options := n.options("run", n.config.Folders)
	for at, device := range n.config.Devices {
		options.Parts = append(options.Parts, n.path(device.Place))
		if device.Data != "" {
			options.Data[at] = device.Data
			if places.HostOf(device.Place) == "" {
				options.Data[at] = n.path(device.Data)
			}
		}
		options.Maps[at], _ = device.Maps() // what is wrong with them was told before
	}
	return options
}

func (n *night) optionsOfObserve(folder string) commandline.Options {
	options := n.options("observe", []watch.Folder{{ID: folder}})
	options.Budget = n.asked.Budget
	for _, device := range n.config.Observed {
		options.Parts = append(options.Parts, device.ID+"@"+device.Address)
	}
	return options
}

// optionsOfParts also notes which parts are old, of another slice, or no files.
func (n *night) optionsOfParts() commandline.Options {
	options, from := n.options("parts", n.config.Folders), n.config.Parts[0]
	options.Signers = n.path(from.Signers)
	found := partsIn(n.path(from.Directory))
	n.faults = append(n.faults, found.others...)
	for _, path := range found.paths {
		head, err := inputs.HeadOf(path)
		switch {
		case err != nil: // of one that can't be read, the audit tells
			options.Parts = append(options.Parts, path)
		case head.Names != n.due:
			n.faults = append(n.faults, outside.Sprintf("the part of %s has %s, and tonight's audit is of %s: %s", calledOf(head), head.Names.Words(), n.due.Words(),
				shell.Quoted(path)))
		default:
			options.Parts = append(options.Parts, path)
			if age := n.began.Sub(head.Made).Hours(); age > from.Hours {
				n.faults = append(n.faults, outside.Sprintf("the part of %s is %.0f hours old: %s", calledOf(head), age, shell.Quoted(path)))
			} else if -age > part.MostAhead.Hours() {
				n.faults = append(n.faults, outside.Sprintf("the part of %s says that it was made %.0f hours from now, so how old it is isn't known: set the device's clock: %s", calledOf(head), -age, shell.Quoted(path)))
			}
		}
	}
	return options
}

// audit makes one audit, keeps its answer, and finds what is new in it.
func (n *night) audit(name string, auditing func(commandline.Options, io.Writer, io.Writer) (int, error), asked commandline.Options) {
	audit := audited{name: name}
	var told, said strings.Builder
	asked.Take = func(answer *summary.Summary) { audit.answer = answer }
	if n.isUnkept && asked.Budget == 0 { // by its history a budget chooses
		asked.History = ""
	}
	status, err := auditing(asked, &told, io.MultiWriter(n.log, &said))
	if err != nil {
		audit.answer = nil
		status = exit.Of(err, &told, io.MultiWriter(n.log, &said))
		told.WriteString(said.String())
	}
	audit.status, audit.told = status, told.String()
	if audit.answer != nil {
		news, limits := watch.News(audit.answer, name == "parts", n.state.Limits[name])
		n.news = append(n.news, news...)
		n.state.Limits[name] = limits
	}
	n.audits = append(n.audits, audit)
}

// Run makes a night's audit as a configuration says, and tells what is new.
func Run(asked commandline.Options, output, log io.Writer) (int, error) {
	home, err := os.UserHomeDir()
	if err != nil {
		return 0, err
	}
	config, err := watch.Read(asked.Parts[0])
	if err == nil {
		err = readBudget(config, &asked)
	}
	tonight := &night{config: config, asked: asked, home: home, began: time.Now(), output: output, log: log}
	if err != nil {
		return tonight.fail("no audit", outside.Sprintf("%s: %v\n", shell.Quoted(asked.Parts[0]), err)), nil
	}
	return tonight.run(), nil
}

// Directory gives the directory with what nights leave.
func Directory(config *watch.Config, home string) string {
	return (&night{config: config, home: home}).directory()
}

// directory gives the directory of the state.
func (n *night) directory() string {
	for _, place := range n.config.State {
		return n.path(place.Path)
	}
	return filepath.Join(n.home, stateOfWatch)
}
