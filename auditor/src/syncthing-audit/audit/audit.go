// Package audit goes through all names of the folders and tells what is found; what is to be asked of them goes to those who answer it.
package audit

import (
	"fmt"
	"sync/atomic"
	"time"

	"golang.org/x/exp/slices"
	"syncthing-audit/finding"
	"syncthing-audit/forecast"
	"syncthing-audit/forecast/read"
	"syncthing-audit/join"
	"syncthing-audit/limits"
	"syncthing-audit/outlook"
	"syncthing-audit/part"
	"syncthing-audit/rows"
	"syncthing-audit/shell"
)

// Options say how an audit goes.
type Options struct {
	Consent   Consent       // what may be left out
	WithBytes bool          // documents with bytes in place of stand-ins
	AsRows    bool          // streams of rows in place of documents
	ByNames   bool          // whether the names were asked for by how they begin
	Refused   func()        // called once there is something without which no answer is given
	Joined    *atomic.Int64 // counts the names; not needed
}

// Collect goes through the folders of a plan. Each piece of their names is given to take, as long as nothing was refused.
func Collect(plan *join.Plan, options Options, take func(*rows.Piece) error) (*finding.Answer, error) {
	to := &collector{plan: plan, options: options, take: take, foretells: outlook.NewForeteller(budget, time.Now().UnixNano()), answer: &finding.Answer{IsByName: plan.IsByName, ByNames: options.ByNames}}
	to.refusePlan()
	for _, observer := range plan.Observers {
		if slices.IndexFunc(plan.Folders, func(folder *join.Folder) bool { return folder.ID == observer.Folder }) >= 0 {
			to.answer.Observers = append(to.answer.Observers, observer)
		}
	}
	for _, device := range plan.Devices {
		to.answer.Devices = append(to.answer.Devices, finding.Device{ID: device.Head.Device, Number: device.Number, Name: device.Head.Name,
			Runs: device.Head.Runs, Made: device.Head.Made, From: device.From, Index: device.Head.Index, Newer: device.Head.Newer, ToRepair: device.Head.ToRepair, IsUnsigned: device.IsUnsigned, Unasked: unaskedOf(plan, device), IsSilent: device.Head.Others == nil, OverWire: device.Head.IsOverWire()})
	}
	for _, folder := range plan.Folders {
		if err := to.folder(folder); err != nil {
			return nil, err
		}
	}
	for _, device := range plan.Devices {
		if err := device.Whole(); err != nil {
			return nil, err
		}
	}
	return to.answer, to.checkSomething()
}

// Refused gives what of a plan isn't audited, before any of its names is read.
func Refused(plan *join.Plan, consent Consent) *finding.Answer {
	to := &collector{plan: plan, options: Options{Consent: consent}, answer: &finding.Answer{}}
	to.refusePlan()
	return to.answer
}

// refusePlan notes what of the plan isn't audited.
func (c *collector) refusePlan() {
	for _, refusal := range c.plan.Refusals {
		c.refuse(refusalOf(refusal))
	}
	for _, refusal := range c.plan.LeftOut {
		c.answer.LeftOut = append(c.answer.LeftOut, refusalOf(refusal))
	}
	for _, refusal := range c.plan.Earlier {
		if c.options.Consent.Has(refusal.Kind) {
			c.answer.Earlier = append(c.answer.Earlier, refusalOf(refusal))
		} else {
			c.refuse(refusalOf(refusal))
		}
	}
}

// refusalOf says why something of a plan isn't audited, as it is told.
func refusalOf(refusal join.Refusal) finding.Refusal {
	return finding.Refusal{Kind: refusal.Kind, Folder: refusal.Folder, Label: refusal.Label, Device: label(refusal), ID: refusal.Device, Why: refusal.Why, WentBack: refusal.WentBack}
}

// label names the device of a refusal for a person.
func label(refusal join.Refusal) string {
	if refusal.Name == "" {
		return refusal.Device
	}
	return shell.Printable(refusal.Name)
}

// collector goes through the folders.
type collector struct {
	plan      *join.Plan
	options   Options
	take      func(*rows.Piece) error
	answer    *finding.Answer
	pieces    int
	names     int64
	audited   int64 // names that pieces have, or that are told to have no winner
	room      finding.Room
	foretells *outlook.Foreteller
}

// refuse notes what isn't audited.
func (c *collector) refuse(refusal finding.Refusal) {
	if refusal.Kind != "" && c.options.Consent.Has(refusal.Kind) {
		c.answer.LeftOut = append(c.answer.LeftOut, refusal)
		return
	}
	if len(c.answer.Refusals) == 0 && c.options.Refused != nil {
		c.options.Refused()
	}
	if len(c.answer.Refusals) < finding.MostListed {
		c.answer.Refusals = append(c.answer.Refusals, refusal)
		return
	}
	if c.answer.Unlisted == nil {
		c.answer.Unlisted = map[string]int64{}
	}
	c.answer.Unlisted[refusal.Kind]++
}

// checkSomething says whether anything was audited.
func (c *collector) checkSomething() error {
	if c.audited > 0 || len(c.answer.Refusals) > 0 {
		return nil
	}
	moving := int64(0)
	for _, folder := range c.answer.Folders {
		if folder.Live != nil {
			moving += folder.Live.Moving
		}
	}
	if moving > 0 {
		return nothingIsStill(moving, c.answer.Folders)
	}
	for _, device := range c.plan.Devices {
		if !device.Head.Names.IsAll() && c.names == 0 {
			return fmt.Errorf("refused: %s", device.Head.Names.None(""))
		}
	}
	return Nothing(c.answer)
}

// folder goes through the names of a folder.
func (c *collector) folder(folder *join.Folder) error {
	next := &names{collector: c, folder: folder, found: &finding.Folder{ID: folder.ID, Label: folder.Label, Own: folder.Own, IsOut: folder.IsOut, Members: folder.Members,
		Live: liveOf(folder), Rows: map[string]*join.Row{}}, filled: c.filled(folder)}
	foretold := read.NewRows(folder)
	c.answer.Folders = append(c.answer.Folders, next.found)
	var err error
	if next.found.Bytes, err = folder.Rows(func(row *join.Row) error {
		foretold.Take(row)
		return next.row(row)
	}); err != nil {
		return err
	}
	if err := next.give(next.filled.Take()); err != nil { // without names, too
		return err
	}
	if len(c.answer.Refusals) == 0 {
		next.found.Outlook = c.foretells.Of(foretold)
	}
	return nil
}

// filled is what is filled with names: streams of rows, or documents.
type filled interface {
	Add(row *join.Row) (*rows.Piece, *part.LeftOut)
	Take() *rows.Piece
}

// bytesOfOne is how long a document of stand-ins grows: small enough that several are in memory at once.
const bytesOfOne = 4 << 20

// filled begins to fill what is asked of a folder.
func (c *collector) filled(folder *join.Folder) filled {
	switch {
	case c.options.AsRows:
		return rows.NewStream(folder)
	case c.options.WithBytes:
		return rows.NewDocuments(folder, true, limits.MostBytes)
	}
	return rows.NewDocuments(folder, false, bytesOfOne)
}

// budget is that of what is foretold of all folders together: some 10 s of one core.
var budget = forecast.Budget{States: forecast.Usual.States, Walks: forecast.Usual.Walks, Total: forecast.Usual.Total, Most: 1000000}
