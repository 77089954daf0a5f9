package places

import (
	"encoding/json"
	"errors"
	"fmt"
	"io"
	"os/exec"
	"strings"

	"syncthing-audit/amount"
	"syncthing-audit/audit"
	"syncthing-audit/commandline"
	"syncthing-audit/exit"
	"syncthing-audit/join"
	"syncthing-audit/outside"
	"syncthing-audit/part"
	"syncthing-audit/regular"
	"syncthing-audit/release"
	"syncthing-audit/report"
)

// ask asks all devices what they share, and refuses what can't be audited by that, before any file is hashed: that a device
// isn't named, say, or can't be reached.
func (r *running) ask() error {
	r.tellStep("asking %s what is shared", amount.Of(len(r.places), "device"))
	if err := r.all("asking what is shared", r.about); err != nil {
		return err
	}
	if err := r.checkPresent(); err != nil {
		return err
	}
	devices := []*join.Device{}
	for _, at := range r.present() {
		place := r.places[at]
		if place.isOlder {
			outside.Printf(r.log, "syncthing-audit: %s: the syncthing-audit there is older, and doesn't say what is shared before it hashes: "+
				"whether all devices are named is seen after that\n", place.called())
			return nil
		}
		text, _, err := regular.Read(r.file(at, "about"), mostOfAbout)
		if err != nil {
			return err
		}
		read, err := readAbout(text, place.given)
		if err != nil {
			return fmt.Errorf("%s: %w", place.called(), place.hint(err))
		}
		if err := r.meet(at, read.Head.Device); err != nil {
			return err
		}
		place.choose(read)
		if r.goesOn() {
			r.leaveOutAway(at, read)
		}
		devices = append(devices, read)
	}
	if err := r.checkWanted(devices); err != nil {
		return err
	}
	plan, err := join.NewPlan(devices, r.asked.Folders, r.asked.KnownObservers()...)
	if err != nil {
		return err
	}
	answer := audit.Refused(plan, r.asked.Consent())
	if len(answer.Refusals) > 0 {
		report.Refusals(r.log, answer)
		return exit.ErrTold
	}
	if len(plan.Folders) == 0 {
		return audit.Nothing(answer)
	}
	return r.checkChosen()
}

// checkWanted says which folder that is asked for no device has, by what all of them said.
func (r *running) checkWanted(devices []*join.Device) error {
	labels := map[string]string{}
	for _, device := range devices {
		for _, folder := range device.Head.Folders {
			labels[folder.ID] = folder.Label
		}
		for _, other := range device.Head.Others {
			labels[other.ID] = other.Label
		}
	}
	if err := join.CheckWanted(labels, r.asked.Folders); err != nil {
		return fmt.Errorf("refused: %w", err)
	}
	return nil
}

// choose says of which folders a device is asked: those of the wanted ones that it has, by what it said. It keeps what else that tells of the program there.
func (p *place) choose(said *join.Device) {
	p.waits, p.tells = said.Head.Waits, said.Head.Tells
	for _, folder := range said.Head.Folders {
		p.folders = append(p.folders, folder.ID)
	}
}

// checkChosen refuses a device that has none of the wanted folders.
func (r *running) checkChosen() error {
	for _, at := range r.present() {
		place := r.places[at]
		if len(r.asked.Folders) > 0 && len(place.folders) == 0 {
			return fmt.Errorf("refused: %s has none of the folders that are asked for: run this without it", place.called())
		}
	}
	return nil
}

// lacks gives the flag that is to be given to a program which doesn't have it, by what it said.
func (p *place) lacks(asked commandline.Options, said string) string {
	switch {
	case p.data != "" && (p.isOlder || strings.Contains(said, "no flag --data")):
		return "--data"
	case asked.Paths && (p.isOlder || strings.Contains(said, "no flag --paths")):
		return "--paths"
	case asked.Names.IsOfSlice() && (p.isOlder || strings.Contains(said, "no flag --slice")):
		return "--slice"
	}
	return ""
}

// about asks a device. A program of 0.8.0 or before doesn't know the question, one of 0.10.0 or before no slice, and one of 0.11.0 or before no
// directory of the database.
func (r *running) about(at int) error {
	place := r.places[at]
	told, err := place.run(place.about(r.asked), strings.NewReader(""), r.file(at, "about"), boundsOfAbout)
	var ended *exec.ExitError
	if errors.As(err, &ended) && ended.ExitCode() == exit.Usage {
		place.isOlder = strings.Contains(err.Error(), "-about")
		if flag := place.lacks(r.asked, err.Error()); flag != "" {
			return fmt.Errorf("refused: %s: the syncthing-audit there is older, and has no %s: bring it to the version here, %s", place.called(), flag, release.Version)
		}
		if place.isOlder {
			return nil
		}
	}
	r.retell(at, told)
	return err
}

// headAlone is a part without lines.
type headAlone struct{ head *part.Head }

func (h headAlone) Head() *part.Head         { return h.head }
func (h headAlone) Next() (part.Line, error) { return part.Line{}, io.EOF }

// readAbout reads what a device said of itself.
func readAbout(text []byte, from string) (*join.Device, error) {
	head := &part.Head{}
	if err := json.Unmarshal(text, head); err != nil {
		return nil, fmt.Errorf("%w: %v", part.ErrNone, err)
	}
	if part.Number(head.Device) == 0 {
		return nil, fmt.Errorf("%w: its device %q is no device id", part.ErrNone, head.Device)
	}
	if err := head.Arrange(); err != nil {
		return nil, fmt.Errorf("%w: %v", part.ErrNone, err)
	}
	return join.NewDevice(headAlone{head}, from), nil
}
