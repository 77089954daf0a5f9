package night

import (
	"fmt"
	"os"
	"path/filepath"
	"sort"
	"strings"
	"time"

	"syncthing-audit/amount"
	"syncthing-audit/exit"
	"syncthing-audit/outside"
	"syncthing-audit/part"
	"syncthing-audit/print"
	"syncthing-audit/shell"
	"syncthing-audit/summary"
	"syncthing-audit/watch"
)

// foundParts are the parts of a directory, and lines on what is none.
type foundParts struct{ paths, others []string }

// partsIn finds the parts that are files, there or in a device's own directory: nobody knows when a pipe ends. A directory that can't be read is told.
func partsIn(directory string) foundParts {
	found := foundParts{}
	for _, path := range found.read(directory) {
		switch about, err := os.Stat(path); {
		case err == nil && about.IsDir() && !isPart(path):
			for _, below := range found.read(path) {
				found.add(below)
			}
		default:
			found.add(path)
		}
	}
	sort.Strings(found.paths)
	return found
}

// isPart says whether a file is called so.
func isPart(path string) bool { return strings.HasSuffix(path, ".part") }

// read gives the paths in a directory.
func (f *foundParts) read(directory string) []string {
	entries, err := os.ReadDir(directory)
	if err != nil {
		f.others = append(f.others, outside.Sprintf("%s can't be read: %v", shell.Quoted(directory), err))
	}
	paths := []string{}
	for _, entry := range entries {
		paths = append(paths, filepath.Join(directory, entry.Name()))
	}
	return paths
}

// add adds what is called a part.
func (f *foundParts) add(path string) {
	if !isPart(path) {
		return
	}
	if about, err := os.Stat(path); err != nil || !about.Mode().IsRegular() {
		f.others = append(f.others, outside.Sprintf("%s is no file, so it isn't read", shell.Quoted(path)))
		return
	}
	f.paths = append(f.paths, path)
}

// calledOf gives what a person calls the device of a part.
func calledOf(head *part.Head) string {
	if head.Name == "" {
		return head.Device
	}
	return shell.Printable(head.Name)
}

// status gives that of the night: that of an audit without an answer, else the worst. What went wrong with the night itself is never 0.
func (n *night) status() int {
	worst := exit.Done
	for _, audit := range n.audits {
		switch {
		case audit.answer == nil:
			return audit.status
		case audit.status == exit.NotSettled || worst == exit.Done:
			worst = audit.status
		}
	}
	if worst == exit.Done && len(n.faults) > 0 {
		return exit.Refused
	}
	return worst
}

// subjects says in a word how all is.
var subjects = map[int]string{exit.Done: "in step", exit.NotSettled: "NOT in step", exit.Partial: "in step as far as audited"}

// subject says in a line how the night went.
func (n *night) subject(status int) string {
	words := subjects[status]
	if words == "" || n.lacksAnswer() {
		words = fmt.Sprintf("no answer, status %d", status)
	}
	if status == exit.Refused && !n.lacksAnswer() {
		words = subjects[exit.Done] + ", and the night itself has a fault"
	}
	if gone := n.gone(); gone > 0 {
		words = print.Counted(gone, "FILE IS GONE", "FILES ARE GONE") + ", else " + words
	}
	if n.due.IsOfSlice() {
		words += ", " + n.due.Words()
	}
	return words
}

// gone counts the files of folders from which most went at once.
func (n *night) gone() int64 {
	files := int64(0)
	for _, audit := range n.audits {
		if audit.answer != nil && audit.answer.Since != nil {
			files += audit.answer.Since.Gone()
		}
	}
	return files
}

// lacksAnswer says whether an audit has no answer.
func (n *night) lacksAnswer() bool {
	for _, audit := range n.audits {
		if audit.answer == nil {
			return true
		}
	}
	return false
}

// tell prints the answer, measures it, and tells what is new; gives the status. Once a month it tells how all is, so that silence means something.
func (n *night) tell() int {
	status, errs := n.status(), []error{}
	if err := n.measure(status); err != nil {
		n.faults = append(n.faults, outside.Sprintf("the metrics can't be written: %v", err))
		status = n.status()
	}
	n.keepNight(status)
	status = n.status()
	subject, text := n.subject(status), n.text()
	outside.Print(n.output, text)
	month := n.began.Format("2006-01")
	isMonthly := n.state.Month != month
	isLoud := len(n.news)+len(n.faults) > 0 || n.lacksAnswer()
	telling := []error{}
	switch {
	case isLoud:
		telling = n.config.Tell(subject+n.withNews(), text, n.log)
	case isMonthly:
		telling = n.config.Tell(n.calm()+subject, n.size()+text, n.log)
	}
	if !n.lacksAnswer() { // after what is new: a ping that hangs keeps nothing back
		errs = append(errs, n.config.PingAll(n.log)...)
	}
	if len(telling) == 0 { // else all of it is told again
		n.state.Untold = false
		if isLoud || isMonthly {
			n.state.Month = month
		}
	}
	if err := n.state.Save(); err != nil {
		errs = append(errs, fmt.Errorf("what is new can't be kept for the next night: %w", err))
	}
	for _, err := range append(errs, telling...) {
		outside.Printf(n.log, "syncthing-audit: %v\n", err)
		if status == exit.Done {
			status = exit.Refused
		}
	}
	return status
}

// calm begins the subject of a night without news: of the first one nobody knows how all was before.
func (n *night) calm() string {
	if n.state.IsFirst {
		return "first night: "
	}
	return "all is as before: "
}

// withNews ends a subject.
func (n *night) withNews() string {
	if len(n.news) == 0 {
		return ""
	}
	return ", with news"
}

// text gives what is told: what is new first, then what went wrong with the night, and then the answers.
func (n *night) text() string {
	text := ""
	for _, line := range append(append([]string{}, n.news...), n.faults...) {
		text += line + "\n"
	}
	for _, audit := range n.audits {
		if text != "" {
			text += "\n"
		}
		if len(n.audits) > 1 {
			text += "== " + audit.name + "\n"
		}
		text += audit.told
	}
	return text
}

// size says how much was read tonight, of how many devices.
func (n *night) size() string {
	devices, bytes := map[string]bool{}, int64(0)
	for _, audit := range n.audits {
		for _, device := range audit.answer.Devices {
			devices[device.ID] = true
		}
		for _, folder := range audit.answer.Folders {
			bytes += folder.Bytes
		}
	}
	return fmt.Sprintf("%s, %s read\n", amount.Of(len(devices), "device"), amount.Bytes(bytes))
}

// measure writes the metrics, where they are wanted.
func (n *night) measure(status int) error {
	measured := watch.Measured{Status: status, Ended: time.Now(), Due: n.due, Answers: []*summary.Summary{}}
	for _, audit := range n.audits {
		if audit.answer != nil {
			measured.Answers = append(measured.Answers, audit.answer)
		}
	}
	for _, place := range n.config.Metrics {
		if err := watch.WriteWhole(n.path(place.Path), measured.Text(), 0o644); err != nil {
			return err
		}
	}
	return nil
}
