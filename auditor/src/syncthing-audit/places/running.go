// Package places runs both looks at devices where they are, here and by ssh elsewhere, and has them audited.
package places

import (
	"errors"
	"fmt"
	"io"
	"os"
	"path/filepath"
	"regexp"
	"strings"
	"sync"
	"time"

	"syncthing-audit/amount"
	"syncthing-audit/answering"
	"syncthing-audit/ask"
	"syncthing-audit/commandline"
	"syncthing-audit/exit"
	"syncthing-audit/finding"
	"syncthing-audit/inputs"
	"syncthing-audit/leftover"
	"syncthing-audit/looks"
	"syncthing-audit/outside"
	"syncthing-audit/part"
	"syncthing-audit/terminal"
)

// secondsOfPatience is how long a machine may be silent before it is told that it is awaited.
const secondsOfPatience = 10

// Run makes both looks at devices, and answers.
func Run(asked commandline.Options, output, log io.Writer) (int, error) {
	if err := checkRun(asked); err != nil {
		return 0, err
	}
	places, err := placesOf(asked)
	if err != nil {
		return 0, err
	}
	if asked.DryRun {
		return exit.Done, tellCommands(output, places, asked)
	}
	program := ask.Program{Path: asked.Program}
	if err := program.Find(); err != nil {
		return 0, err
	}
	known, err := knownAt(places)
	if err != nil {
		return 0, err
	}
	room, err := leftover.Directory()
	if err != nil {
		return 0, err
	}
	defer leftover.Remove(room)
	run := &running{asked: asked, places: places, known: known, room: room, log: log, progress: terminal.ProgressOf(log), patience: secondsOfPatience * time.Second}
	if err := run.look(); err != nil {
		return 0, err
	}
	return run.answer(program, output)
}

// checkRun says what is wrong with the words of 'run'.
func checkRun(o commandline.Options) error {
	switch {
	case len(o.Parts) == 0:
		return commandline.WrongUse("no device is given: 'laptop:' or 'laptop:DIR' by ssh, or a home on this machine")
	case o.Still < 0:
		return commandline.WrongUse("--still is at least 0")
	}
	return answering.CheckForm(o)
}

// running is a run of both looks at all devices.
type running struct {
	asked  commandline.Options
	places []*place
	known  *knownDevices
	room   string
	log    io.Writer
	tokens string
	mutex  sync.Mutex     // of the log, and of what is out
	out    map[int]string // the places that are left out, with why
	began  time.Time      // before the first second look began
	tally  terminal.Tally // of the first looks

	progress io.Writer     // the log, where a person reads it
	patience time.Duration // after which it is told who is awaited, and after twice as long again, and so on
}

// file gives where a look at a place is kept.
func (r *running) file(at int, look string) string {
	return filepath.Join(r.room, fmt.Sprintf("%s-%d.part", look, at))
}

// look asks all devices what they share, makes the first look at all of them, and the second one once all of these are over.
func (r *running) look() error {
	if err := r.ask(); err != nil {
		return err
	}
	r.tellStep("first look at %s, hashing all files", amount.Of(len(r.places), "device"))
	if err := r.firstLooks(); err != nil {
		return err
	}
	if err := r.checkPresent(); err != nil {
		return err
	}
	var tokens strings.Builder
	for _, at := range r.present() {
		head, err := inputs.HeadOf(r.file(at, "begin"))
		if err != nil {
			return fmt.Errorf("%s: %w", r.places[at].called(), r.places[at].hint(err))
		}
		if head.Look == nil {
			return fmt.Errorf("%s: its part isn't of a first look: is the program of this version there?", r.places[at].called())
		}
		if err := r.meet(at, head.Device); err != nil {
			return err
		}
		fmt.Fprintln(&tokens, looks.Token(head.Device, head.Look.ID))
	}
	r.keepKnown()
	for _, observer := range r.asked.KnownObservers() { // second looks ask for a token of each device that shares a folder
		fmt.Fprintln(&tokens, looks.Token(observer, strings.Repeat("0", 32)))
	}
	r.tokens = tokens.String()
	if left := time.Until(r.lastLook().Add(time.Duration(r.asked.Still * float64(time.Second)))); left > 0 {
		r.tellStep("second look in %.0f s", left.Seconds())
		time.Sleep(left)
	}
	r.began = time.Now()
	if err := r.all("second look", r.end); err != nil {
		return err
	}
	return r.checkPresent()
}

// all does something at all places at once that aren't left out, tells which ones are awaited, and gives the error that isn't told yet; one that
// says that it was told where it was. A place whose command gives nothing is left out from then on, where the others go on without it.
func (r *running) all(what string, do func(at int) error) error {
	errs := make([]error, len(r.places))
	ended := make(chan int)
	present := r.present()
	for _, at := range present {
		go func(at int) {
			errs[at] = do(at)
			var gone *endedCommand
			if errors.As(errs[at], &gone) && r.goesOn() {
				r.leaveOut(at, what, errs[at])
				errs[at] = nil
			}
			ended <- at
		}(at)
	}
	return r.await(what, ended, errs, len(present))
}

// await waits until so many places have ended. A place that failed is told at once: there will be no answer. The last one is the error.
func (r *running) await(what string, ended <-chan int, errs []error, left int) error {
	var failed error
	began, next := time.Now(), r.patience
	isOver := make([]bool, len(r.places))
	for at := range r.places {
		isOver[at] = r.isOut(at)
	}
	told := time.NewTimer(next)
	defer told.Stop()
	for left > 0 {
		select {
		case at := <-ended:
			isOver[at] = true
			left--
			if errs[at] != nil && left == 0 {
				failed = errs[at]
			} else if errs[at] != nil {
				r.tellFailed(what, errs[at])
				failed = exit.ErrTold
			}
		case <-told.C:
			next *= 2
			told.Reset(next)
			r.tellAwaited(what, time.Since(began), isOver)
		}
	}
	return failed
}

// tellFailed tells that there will be no answer, while other places are awaited.
func (r *running) tellFailed(what string, err error) {
	r.mutex.Lock()
	defer r.mutex.Unlock()
	outside.Printf(r.log, "syncthing-audit: %s: %v. There will be no answer; the other devices are awaited, Ctrl-C ends that\n", what, err)
}

// tellAwaited tells which places haven't ended.
func (r *running) tellAwaited(what string, spent time.Duration, isOver []bool) {
	names := []string{}
	for at, place := range r.places {
		if !isOver[at] {
			names = append(names, place.given)
		}
	}
	r.mutex.Lock()
	defer r.mutex.Unlock()
	outside.Printf(r.log, "syncthing-audit: %s: waiting for %s for %.0f s\n", what, strings.Join(names, ", "), spent.Seconds())
}

// firstLooks makes the first look at all devices, and shows a person how far they are.
func (r *running) firstLooks() error {
	r.asked.Steps = terminal.Is(r.log)
	defer terminal.Start(r.log, r.tally.Line)()
	return r.all("first look", r.begin)
}

// begin makes the first look at a device.
func (r *running) begin(at int) error {
	number := r.tally.Add(r.places[at].called())
	defer r.tally.End(number)
	limits := boundsOfBegin
	limits.Step = func(line string) bool { return r.tally.Take(number, line) }
	input, open, err := os.Pipe()
	if err != nil {
		return err
	}
	defer input.Close()
	defer open.Close() // once it has ended, or by the end of this program
	began := time.Now()
	told, err := r.places[at].run(r.places[at].begin(r.asked), input, r.file(at, "begin"), limits)
	if err != nil {
		return err
	}
	r.places[at].looked = time.Now().Add(-looks.AgeOf(told))
	r.retell(at, told)
	r.tellStep("%s: first look done in %.0f s", r.places[at].called(), time.Since(began).Seconds())
	return nil
}

// end makes the second look at a device.
func (r *running) end(at int) error {
	began := time.Now()
	told, err := r.places[at].run(r.places[at].end(r.asked), strings.NewReader(r.tokens), r.file(at, "end"), boundsOfEnd(r.asked.Still))
	if err != nil {
		return err
	}
	r.retell(at, told)
	r.tellStep("%s: second look done in %.0f s", r.places[at].called(), time.Since(began).Seconds())
	return nil
}

// tellStep tells a person how far the run is.
func (r *running) tellStep(format string, words ...interface{}) {
	r.mutex.Lock()
	defer r.mutex.Unlock()
	outside.Printf(r.progress, "syncthing-audit: "+format+"\n", words...)
}

// retell tells what was said at a place, but for what is for this program alone.
func (r *running) retell(at int, told string) {
	r.mutex.Lock()
	defer r.mutex.Unlock()
	for _, line := range strings.Split(told, "\n") {
		if said := strings.TrimPrefix(line, "syncthing-audit: "); said != line && !isForRun.MatchString(line) {
			outside.Printf(r.log, "syncthing-audit: %s: %s\n", r.places[at].called(), said)
		}
	}
}

// isForRun are lines of a look that nobody has to read: how long it has been over and, of a program of 0.9.0 or before, what the copy of
// the index took.
var isForRun = regexp.MustCompile(`^syncthing-audit: (the first look was over .* ago|the index of .* is copied.*: [0-9]+ bytes)$`)

// answer joins what was seen at all devices, and tells the answer.
func (r *running) answer(program ask.Program, output io.Writer) (int, error) {
	read := r.asked.OfLooks()
	names := map[string]string{}
	for _, at := range r.present() {
		place := r.places[at]
		for _, look := range []string{"begin", "end"} {
			path := r.file(at, look)
			read.Parts = append(read.Parts, path)
			names[path] = place.given
		}
	}
	opened, err := inputs.Open(read)
	if err != nil {
		return 0, answering.Renamed(err, names)
	}
	defer opened.Close()
	kept, err := answering.Remember(r.asked.History, opened)
	if err != nil {
		return 0, err
	}
	defer kept.Close()
	for _, device := range opened.Devices {
		device.From, device.IsUnsigned = names[device.From], false // ssh brought them from the machines themselves
		if len(r.asked.Folders) == 0 && device.Head.Others == nil {
			device.Head.Others = []part.Other{} // an older program made it, of all folders
		}
	}
	if read.Lines {
		inputs.TellDevices(r.log, opened.Devices)
	}
	opened.Left = r.left()
	answer, err := opened.Audited(read, r.log, func() (*finding.Answer, error) { return answering.Of(opened, read, program) })
	if err != nil {
		return 0, answering.Renamed(err, names)
	}
	r.time(answer)
	return kept.Tell(output, r.log, read, answer)
}

// time says by this machine's clock how long the cluster was still: the devices' clocks may differ.
func (r *running) time(answer *finding.Answer) {
	for _, folder := range answer.Folders {
		if folder.Live != nil {
			folder.Live.SetStill(r.began.Sub(r.lastLook()))
		}
	}
}

// lastLook gives a time at which all first looks were over.
func (r *running) lastLook() time.Time {
	last := r.places[0].looked
	for _, place := range r.places {
		if place.looked.After(last) {
			last = place.looked
		}
	}
	return last
}
