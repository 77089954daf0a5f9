// Package inputs has the homes and parts of which an audit is: opened, checked, joined, and left out where they can't be.
package inputs

import (
	"fmt"
	"io"
	"sort"

	"golang.org/x/exp/slices"
	"syncthing-audit/audit"
	"syncthing-audit/choice"
	"syncthing-audit/commandline"
	"syncthing-audit/device"
	"syncthing-audit/disk"
	"syncthing-audit/exit"
	"syncthing-audit/fault"
	"syncthing-audit/finding"
	"syncthing-audit/gather"
	"syncthing-audit/join"
	"syncthing-audit/outside"
	"syncthing-audit/report"
	"syncthing-audit/shell"
	"syncthing-audit/terminal"
)

// Inputs are the homes and parts that are read, to be closed.
type Inputs struct {
	Devices []*join.Device
	Homes   []*device.Home // those that are left out, too, as far as their configuration is read
	pool    *disk.Pool
	indexes []*device.Index
	Work    terminal.Work
	closers []func()

	Left   []Left // homes and machines that are left out
	failed error  // why the first home is left out
}

// skip has no bytes read from now on.
func (i *Inputs) skip() {
	if i.pool != nil {
		i.pool.Skip()
	}
}

// Options say how what was opened is audited.
func (i *Inputs) Options(asked commandline.Options) audit.Options {
	return audit.Options{Consent: asked.Consent(), WithBytes: asked.Bytes, ByNames: !asked.Names.IsAll(), Refused: i.skip, Joined: &i.Work.Joined}
}

// StartProgress begins to tell how far the work is, where somebody reads that; what it gives ends that.
func (i *Inputs) StartProgress(log io.Writer, asked commandline.Options) func() {
	if !asked.Steps && !terminal.Is(log) {
		return func() {}
	}
	if i.pool != nil {
		i.Work.Hashed, i.Work.ToHash = i.pool.Hashed, i.recorded(asked)
	}
	if !asked.Steps || i.pool == nil {
		return terminal.Start(log, i.Work.Line)
	}
	return terminal.StartSteps(log, i.pool.Hashed, i.Work.ToHash)
}

// recorded gives how many bytes the homes' own records have of what is asked for; 0 where an index doesn't tell that.
func (i *Inputs) recorded(asked commandline.Options) int64 {
	sum := int64(0)
	for _, index := range i.indexes {
		bytes, err := index.Bytes(asked.Names)
		if err != nil {
			return 0
		}
		sum += bytes
	}
	return sum
}

// Audited has what was opened audited, and tells the log how far that is and what is refused.
func (i *Inputs) Audited(asked commandline.Options, log io.Writer, answering func() (*finding.Answer, error)) (*finding.Answer, error) {
	endProgress := i.StartProgress(log, asked)
	answer, err := answering()
	endProgress()
	if err == nil && len(answer.Refusals) > 0 {
		report.Refusals(log, answer)
		err = exit.ErrTold
	}
	return answer, err
}

// Close closes all that is open.
func (i *Inputs) Close() {
	for place := len(i.closers) - 1; place >= 0; place-- {
		i.closers[place]()
	}
}

// Open opens all homes and parts; nothing stays open on an error.
func Open(asked commandline.Options) (*Inputs, error) {
	opened := &Inputs{}
	if len(asked.Homes) > 0 {
		opened.pool = disk.NewPool(asked.Jobs)
		opened.closers = append(opened.closers, opened.pool.Close)
	}
	if err := opened.open(asked); err != nil {
		opened.Close()
		return nil, err
	}
	return opened, nil
}

// OfHome gives what is open where a home is.
func OfHome(home *device.Home, jobs int) *Inputs {
	pool := disk.NewPool(jobs)
	return &Inputs{pool: pool, closers: []func(){home.Close, pool.Close}}
}

func (i *Inputs) open(asked commandline.Options) error {
	homes := []*device.Home{}
	places := map[*device.Home]int{}
	for place := range asked.Homes {
		home, err := i.openHome(asked, place)
		if err != nil {
			return err
		}
		if home != nil {
			homes, places[home] = append(homes, home), place
		}
	}
	if err := i.openParts(asked.Parts, asked.Signers); err != nil {
		return err
	}
	if len(homes)+len(i.Devices) == 0 {
		return i.failed
	}
	if err := i.checkNames(asked.Names); err != nil {
		return err
	}
	if err := i.checkWanted(homes, asked.Folders); err != nil {
		return err
	}
	asked.Paths = true // they are homes of this machine
	for _, home := range homes {
		if err := i.addHome(asked, home, asked.Maps[places[home]]); err != nil {
			return err
		}
	}
	if len(i.Devices) == 0 {
		return i.failed
	}
	return nil
}

// addHome adds the device of a home, unless its indexes can't be opened.
func (i *Inputs) addHome(asked commandline.Options, home *device.Home, maps device.Maps) error {
	read, err := i.DeviceOf(home, asked)
	if err != nil {
		return i.orLeaveOut(asked, home.Dir, maps, err)
	}
	stream := read.Stream()
	i.closers = append(i.closers, stream.Close)
	of := join.NewDevice(stream, home.Dir)
	of.IsHome = true
	i.Devices = append(i.Devices, of)
	return nil
}

// FolderLabels gives the labels of all folders of these homes and of what was read of parts, by the folders' ids.
func FolderLabels(homes []*device.Home, devices []*join.Device) map[string]string {
	labels := map[string]string{}
	for _, home := range homes {
		for _, folder := range home.Config.Folders {
			labels[folder.ID] = folder.Label
		}
	}
	for _, read := range devices {
		for _, folder := range read.Head.Folders {
			labels[folder.ID] = folder.Label
		}
	}
	return labels
}

// checkInParts says which folder that is wanted no part has, where a device shares it: CheckWanted knows of those alone that are there.
func (i *Inputs) checkInParts(labels map[string]string, wanted []string) error {
	for _, read := range i.Devices {
		for _, other := range read.Head.Others {
			_, there := labels[other.ID]
			if there || !slices.Contains(wanted, other.ID) {
				continue
			}
			if other.Away != "" {
				return fmt.Errorf("refused: no part has folder %s; of %s: %s", shell.Folder(other.ID, other.Label), read.Label(), join.WhyAway(other))
			}
			return fmt.Errorf("refused: no part has folder %s, which %s has: make the parts without --folder, or with it for this one, too",
				shell.Folder(other.ID, other.Label), read.Label())
		}
	}
	return nil
}

// checkNames says whether a part has other names than those that were asked for; without a word it is asked for what parts have.
func (i *Inputs) checkNames(wanted choice.Names) error {
	for _, read := range i.Devices {
		if has := read.Head.Names; !wanted.IsAll() && has != wanted {
			return fmt.Errorf("refused: %s has %s: make it anew with %s", read.From, has.Words(), wanted.Command())
		}
	}
	return nil
}

// openParts opens parts; of a device that was looked at twice both are joined.
func (i *Inputs) openParts(paths []string, signers string) error {
	opening := &lookInputs{Inputs: i, first: map[string]opened{}, second: map[string]opened{}, wire: map[string]opened{}, disks: map[string]opened{}}
	if err := opening.openSigners(signers); err != nil {
		return err
	}
	for _, path := range paths {
		if err := opening.openPart(path); fault.IsOfFile(err, path) {
			return err
		} else if err != nil {
			return fmt.Errorf("%s: %w", path, err)
		}
	}
	return opening.join()
}

// DeviceOf opens the indexes of a home's folders: those that are wanted, or all.
func (i *Inputs) DeviceOf(home *device.Home, asked commandline.Options) (*gather.Device, error) {
	gathered := &gather.Device{ID: home.ID.String(), Name: home.Name(), Runs: home.Syncthing, Index: home.State, Newer: home.Newer, ToRepair: home.ToRepair,
		Names: asked.Names, Bytes: asked.Bytes, Paths: asked.Paths, Pool: i.pool, Others: Others(home, asked.Folders, asked.Paths)}
	folders := Chosen(home.Config, asked.Folders)
	sort.Slice(folders, func(a, b int) bool { return folders[a].ID < folders[b].ID })
	for _, folder := range folders {
		index, err := home.Index(folder)
		if err == nil {
			i.closers = append(i.closers, index.Close)
			_, err = index.Patterns() // before anything is hashed
		}
		if err != nil {
			return nil, fmt.Errorf("%s: %w", home.Dir, shell.Labelled(err, folder.ID, folder.Label))
		}
		i.indexes = append(i.indexes, index)
		gathered.Folders = append(gathered.Folders, index)
	}
	return gathered, nil
}

// TellDevices tells whose homes and parts these are.
func TellDevices(log io.Writer, devices []*join.Device) {
	for _, device := range devices {
		outside.Printf(log, "syncthing-audit: device %d is %s (%s)\n", device.Number, device.Head.Device, device.From)
	}
}
