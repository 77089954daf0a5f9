package report

import (
	"io"
	"strconv"
	"time"

	"syncthing-audit/history"
	"syncthing-audit/outside"
	"syncthing-audit/part"
)

// Since prints what a history says beside an answer, a line each: folders that were emptied, what is new, what lasts, what is deleted or mended and what wasn't looked at, with the time at
// which it was found first, and files whose bytes changed under one time on all devices, or where they are recorded.
func Since(to io.Writer, since *history.Since) {
	if since == nil {
		return
	}
	if since.Before != nil {
		outside.Printf(to, "since: %s\n", since.Before.Format(time.RFC3339))
	}
	for _, emptied := range since.Emptied {
		outside.Printf(to, "gone: %s %d of %d files between %s and %s\n", emptied.Folder, emptied.Files, emptied.Of, emptied.Since.Format(time.RFC3339), emptied.Found.Format(time.RFC3339))
	}
	for _, changed := range since.Changed {
		outside.Printf(to, "changed everywhere: %s %s between %s and %s\n", changed.Folder, printed(string(changed.Name)), changed.Before.Format(time.RFC3339), changed.Since.Format(time.RFC3339))
	}
	if more := since.Count - int64(len(since.Changed)); more > 0 {
		outside.Printf(to, "changed everywhere: %d more\n", more)
	}
	for _, changed := range since.Taken {
		for _, device := range changed.Devices {
			outside.Printf(to, "changed and recorded: %s %s on %d between %s and %s\n", changed.Folder, printed(string(changed.Name)), part.Number(device), changed.Before.Format(time.RFC3339),
				changed.Since.Format(time.RFC3339))
		}
	}
	if more := since.Takes - int64(len(since.Taken)); more > 0 {
		outside.Printf(to, "changed and recorded: %d more\n", more)
	}
	for _, fault := range since.Unread.First {
		outside.Printf(to, "not read again: %s %s %s%s since %s, found last %s\n", fault.Reason, fault.Folder, printed(string(fault.Name)), onDevice(fault.Device), fault.First.Format(time.RFC3339),
			fault.Last.Format(time.RFC3339))
	}
	if more := since.Unread.Count - int64(len(since.Unread.First)); more > 0 {
		outside.Printf(to, "not read again: %d more\n", more)
	}
	for _, kind := range []struct {
		word string
		list history.List
	}{{"new", since.New}, {"lasts", since.Lasting}, {"deleted since", since.Deleted}, {"mended", since.Mended}, {"not looked at", since.Unasked}} {
		for _, fault := range kind.list.First {
			outside.Printf(to, "%s: %s %s %s%s since %s\n", kind.word, fault.Reason, fault.Folder, printed(string(fault.Name)), onDevice(fault.Device), fault.First.Format(time.RFC3339))
		}
		if more := kind.list.Count - int64(len(kind.list.First)); more > 0 {
			outside.Printf(to, "%s: %d more\n", kind.word, more)
		}
	}
	for _, read := range since.Read {
		if read.Files > 0 {
			outside.Printf(to, "read: %s %d files, %d bytes on %d, the oldest %s %s\n", read.Folder, read.Files, read.Bytes, part.Number(read.Device), read.Oldest.Format(time.RFC3339), printed(string(read.OldestName)))
		}
	}
	for _, waiting := range since.Waiting {
		oldest := ""
		if waiting.Oldest != nil {
			oldest = ", the oldest of the others " + waiting.Oldest.Format(time.RFC3339)
		}
		outside.Printf(to, "not read: %s %d files, %d bytes on %d, %d never%s\n", waiting.Folder, waiting.Files, waiting.Bytes, part.Number(waiting.Device), waiting.Never, oldest)
	}
	if since.Unkept != "" {
		outside.Printf(to, "not kept in the history: %s\n", since.Unkept)
	}
}

func onDevice(id string) string {
	if id == "" {
		return ""
	}
	return " on " + strconv.FormatUint(part.Number(id), 10)
}
