package summary

import (
	"fmt"
	"strings"
	"time"

	"syncthing-audit/history"
	"syncthing-audit/lists"
	"syncthing-audit/print"
	"syncthing-audit/shell"
)

// mostNews is how many names the text lists of each kind; --json has more.
const mostNews = 5

// Remember adds what a history says beside the answer. Names of which an audit before found other bytes, and which nobody read since, count as wrong. Where
// bytes changed under one time and are recorded so, that comes before all steps: these take it for an edit.
func (s *Summary) Remember(since *history.Since) {
	s.Since = since
	if since == nil {
		return
	}
	s.rememberOff()
	for _, folder := range s.Folders {
		if folder.Unread = since.UnreadIn[folder.ID]; folder.Unread > 0 {
			folder.Wrong += folder.Unread
			folder.Verdict, s.Verdict = NotInStep, NotInStep
		}
	}
	if since.Takes == 0 {
		return
	}
	on := []string{}
	for _, file := range since.Taken {
		for _, device := range file.Devices {
			on = print.AddOnce(on, device)
		}
	}
	from := s.Called().All(on)
	s.First = append([]First{{Why: isChanged, Devices: on, Names: since.Takes, Text: "first, on all devices but " + from + ": copy elsewhere what the history names above (" + counted(since.Takes, "file", "files") + "), " +
		"unless somebody changed that on " + from + ": the steps below take it for an edit, and send the new bytes from there"}}, s.First...)
}

// history says what is new, and what no comparison of devices shows.
func (p *printer) history(s *Summary) {
	since := s.Since
	if since == nil {
		return
	}
	p.changed(s, since.Count, since.Changed, "on all devices that have it, under one time and size. No comparison of devices shows that", func(find, day, _, older string) string {
		return ". If nobody changed it, look for its bytes in DIR, a backup or " + older + " of before " + day + ": " + find
	})
	// Whatever takes them from where they are recorded so loses the bytes before.
	p.changed(s, since.Takes, since.Taken, "where it is recorded so, under one time and size, and devices that lack it take it. The answer below takes it for an edit", func(find, _, devices, older string) string {
		return ", and are recorded there. If nobody changed it, first copy it elsewhere from a device that has the bytes before, or from a backup or " + older + " in DIR (" + find +
			"), and take no step below that sends it from " + devices
	})
	p.unread(since)
	switch {
	case since.Before != nil:
		p.news(s)
	case since.Unkept == "":
		p.Line("history: this is the first audit that it has")
	}
	for _, read := range since.Read {
		p.read(read)
	}
	if since.Unkept != "" {
		p.Line("not kept in the history: %s", since.Unkept)
	}
}

// unread tells of names of which an audit before found other bytes, and which nobody read since.
func (p *printer) unread(since *history.Since) {
	places := placesOf(since.Unread.First)
	if len(places) == 0 {
		return
	}
	p.Line("not read again: what stands on a disk was other than recorded when it was read last, so it counts as wrong until it is read and right. The next looks " +
		"ask for it first, as far as --budget goes; one without --budget and --records reads all")
	listed(p, mostNews, int64(len(places)), places, "--json has the first "+thousands(history.MostListed), func(place *history.Told) string {
		return fmt.Sprintf("%s in %s%s: found with other bytes on %s, not read again since (%s)", shell.Quoted(string(place.Name)), place.Folder, p.onDevice(place.Device), p.day(place.Last), place.Reason)
	})
}

// changed tells of files whose bytes changed under one time, and what to do if nobody changed them.
func (p *printer) changed(s *Summary, count int64, all []history.Changed, on string, toDo func(find, since, devices, older string) string) {
	if count == 0 {
		return
	}
	p.Line("%s %s", counted(count, "file has other bytes than before", "files have other bytes than before, each"), on)
	listed(p, mostNews, count, all, "--json has "+thousands(int64(len(all)))+" of them", func(file history.Changed) string {
		devices, name := p.Called.All(file.Devices), shell.Path(string(file.Name))
		find := s.onHistory("find", file.Folder) + " " + name + " DIR"
		return fmt.Sprintf("%s in %s: its bytes changed between %s and %s on %s%s. A program that puts a file's time back after it wrote looks the same", shell.Quoted(string(file.Name)),
			file.Folder, p.day(file.Before), p.day(file.Since), devices, toDo(find, p.day(file.Since), devices, versions(p.Called, s.folder(file.Folder))))
	})
}

// news says what is new since the audit before.
func (p *printer) news(s *Summary) {
	since := s.Since
	told := []string{counted(since.New.Count, "fault is new", "faults are new"), counted(since.Mended.Count, "is mended", "are mended"),
		counted(since.Lasting.Count, "lasts", "last")}
	if since.Deleted.Count > 0 {
		told = append(told, counted(since.Deleted.Count, "is of a name that is deleted since", "are of names that are deleted since"))
	}
	if since.Unread.Count > 0 {
		told = append(told, counted(since.Unread.Count, "wasn't read again", "weren't read again"))
	}
	if since.Unasked.Count > 0 {
		told = append(told, counted(since.Unasked.Count, "wasn't looked at", "weren't looked at"))
	}
	p.Line("since the audit of %s: %s", p.day(*since.Before), strings.Join(told, ", "))
	for _, list := range []struct {
		word string
		list history.List
	}{{"new", since.New}, {"deleted since", since.Deleted}, {"mended", since.Mended}, {"lasts", since.Lasting}, {"not looked at", since.Unasked}} {
		places := placesOf(list.list.First)
		for _, place := range lists.AtMost(mostNews, places) {
			p.Line("  %s: %s in %s%s (%s), since %s%s", list.word, shell.Quoted(string(place.Name)), place.Folder, p.onDevice(place.Device), place.Reason, p.day(place.First), s.WordsOfHeld(place, p.Zone))
		}
		if more := len(places) - mostNews; more > 0 {
			p.Line("  %s: %s more (--json has the first %s)", list.word, counted(int64(more), "name", "names"), thousands(history.MostListed))
		}
	}
}

// placesOf gives the faults of each name at each device as one, with all their reasons and since when the first of them is found.
func placesOf(faults []history.Told) []*history.Told {
	places := lists.Grouped[[3]string, history.Told]{}
	for _, fault := range faults {
		place := places.Of([3]string{fault.Folder, string(fault.Name), fault.Device})
		if place.Reason == "" {
			*place = fault
			continue
		}
		place.Reason += ", " + fault.Reason
		if fault.First.Before(place.First) {
			place.First = fault.First
		}
	}
	return places.All()
}

// read says how old the oldest reading is.
func (p *printer) read(read history.Read) {
	if read.Files == 0 {
		return
	}
	p.Line("read of %s on %s: %s, %s; the oldest reading is of %s: %s", read.Folder, p.Called(read.Device), counted(read.Files, "file", "files"),
		size(read.Bytes), p.day(read.Oldest), shell.Quoted(string(read.OldestName)))
}

func (p *printer) onDevice(id string) string {
	if id == "" {
		return ""
	}
	return " on " + p.Called(id)
}

// day gives a time as a person reads it in a history.
func (p *printer) day(at time.Time) string { return dayOf(at, p.Zone) }
