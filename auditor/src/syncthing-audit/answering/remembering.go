package answering

import (
	"errors"
	"fmt"
	"io"
	"sort"
	"strings"
	"syscall"
	"time"

	"syncthing-audit/commandline"
	"syncthing-audit/fault"
	"syncthing-audit/finding"
	"syncthing-audit/history"
	"syncthing-audit/inputs"
	"syncthing-audit/part"
	"syncthing-audit/unsynced"
)

// Remembering keeps what an audit reads and finds in a history, where one was asked for.
type Remembering struct {
	History *history.History
	in      string // its directory
	watch   *history.Watch
	tees    []*history.Tee
	Waiting []history.Waiting // what isn't read yet
	unkept  error             // why there is no history: nothing can be written there
}

// Remember opens the history that was asked for, and has it see what is read of the devices; nothing without one.
func Remember(directory string, read *inputs.Inputs) (*Remembering, error) {
	if directory == "" {
		return nil, nil
	}
	if err := unsynced.CheckDirectory(directory, "the history", read.Devices, read.Homes); err != nil {
		return nil, err
	}
	kept, err := history.Open(directory)
	if isWithoutRoom(err) { // what was read is answered all the same
		return &Remembering{unkept: err}, nil
	}
	if err != nil {
		return nil, fault.Of(err)
	}
	watch, err := kept.Watch()
	if err != nil {
		kept.Close()
		return nil, fault.Of(err)
	}
	remembering := &Remembering{History: kept, in: directory, watch: watch}
	for _, device := range read.Devices {
		tee := kept.Tee(device.Stream, watch)
		device.Stream = tee
		remembering.tees = append(remembering.tees, tee)
	}
	return remembering, nil
}

// isWithoutRoom says whether nothing can be written to a disk, and the rest of the program isn't concerned.
func isWithoutRoom(err error) bool {
	return errors.Is(err, syscall.ENOSPC) || errors.Is(err, syscall.EDQUOT) || errors.Is(err, syscall.EROFS)
}

// Close closes the history. What was read up to then is kept, also where no answer came.
func (r *Remembering) Close() {
	if r == nil || r.History == nil {
		return
	}
	for _, tee := range r.tees {
		tee.End()
	}
	r.History.Close()
}

// keep keeps what was found, and says what the history has beside the answer.
func (r *Remembering) keep(answer *finding.Answer, now time.Time) (*history.Since, error) {
	if r == nil {
		return nil, nil
	}
	if r.History == nil {
		return history.NotKept(r.unkept), nil
	}
	unkept, isOld := []string{}, map[string]bool{}
	for _, tee := range r.tees {
		if err := tee.End(); err != nil {
			unkept = append(unkept, err.Error())
		}
		for _, folder := range sortedKeys(tee.Newer()) {
			isOld[folder] = true
			unkept = append(unkept, olderPart(tee, folder))
		}
	}
	audited := history.Audited{At: now, Found: faultsOf(answer), Folders: map[string][]uint64{}, Sharing: map[string][]uint64{}, IDs: map[uint64]string{},
		IsThere: r.watch.IsThere, Stayed: map[string]int64{}}
	for _, tee := range r.tees {
		tee.AddStayed(audited.Stayed)
	}
	for _, folder := range answer.Folders {
		for _, member := range folder.Members {
			audited.Folders[folder.ID] = append(audited.Folders[folder.ID], member.Number)
			for _, other := range member.About.Sharing {
				number := part.Number(other.Device)
				audited.Sharing[folder.ID] = append(audited.Sharing[folder.ID], number)
				audited.IDs[number] = other.Device
			}
		}
	}
	for _, device := range answer.Devices {
		audited.IDs[device.Number] = device.ID
	}
	isAsked := func(folder, name string) bool {
		for _, told := range answer.Folders {
			if told.ID == folder && !isOld[folder] && told.Asked().Has(folder, name) {
				return true
			}
		}
		return false
	}
	audited.Names = func(folder, name string) bool { return isAsked(folder, name) && r.watch.IsClear(folder, name) }
	audited.IsUnread = func(fault history.Fault) bool { return isAsked(fault.Folder, fault.Name) && r.watch.IsUnread(fault) }
	since, err := r.History.Since(audited)
	if isWithoutRoom(err) {
		return history.NotKept(err), nil
	}
	if err != nil {
		return nil, fault.Of(err)
	}
	since.Unkept, since.Waiting, since.Directory = strings.Join(unkept, "; "), r.Waiting, r.in
	return since, nil
}

// olderPart says that a part is older than what was read of its device.
func olderPart(tee *history.Tee, folder string) string {
	const layout = "2006-01-02 15:04:05 UTC"
	head := tee.Head()
	return fmt.Sprintf("the part of %s is of %s, and %s was read there at %s: it says nothing of how that is now, and somebody may have brought it back. "+
		"Take a new part of the device", head.Name+" ("+head.Device+")", head.Made.UTC().Format(layout), folder, tee.Newer()[folder].UTC().Format(layout))
}

// sortedKeys gives the folders, rising.
func sortedKeys(of map[string]time.Time) []string {
	folders := []string{}
	for folder := range of {
		folders = append(folders, folder)
	}
	sort.Strings(folders)
	return folders
}

// Tell keeps what was found, and tells the answer with what the history has beside it.
func (r *Remembering) Tell(output, log io.Writer, asked commandline.Options, answer *finding.Answer) (int, error) {
	since, err := r.keep(answer, time.Now())
	if err != nil {
		return 0, err
	}
	return Tell(output, log, asked, answer, since)
}

// faultsOf gives all that fails, by name and device. What fails for another's fault, such as the view of a device that is behind, isn't told apart.
func faultsOf(answer *finding.Answer) []history.Fault {
	faults := []history.Fault{}
	for _, folder := range answer.Folders {
		folder.EachFailure(func(failure *finding.Failure) {
			faults = append(faults, history.Fault{Folder: folder.ID, Name: failure.Name, Device: failure.Device, Cause: failure.Reason})
		})
	}
	return faults
}
