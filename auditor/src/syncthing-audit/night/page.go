package night

import (
	"fmt"
	"os"
	"strings"
	"time"

	"syncthing-audit/outside"
	"syncthing-audit/page"
	"syncthing-audit/release"
	"syncthing-audit/watch"
)

// keepNight keeps the night for the page, and writes that where it is wanted. What can't be kept is a fault of the night.
func (n *night) keepNight(status int) {
	kept, err := page.Read(n.directory())
	if err != nil {
		n.faults = append(n.faults, outside.Sprintf("what earlier nights left for the page can't be read, and is lost: %v", err))
	}
	kept.Add(n.inShort(status), n.answers())
	err = kept.Save(n.directory(), func(path, text string) error { return watch.WriteWhole(path, text, 0o600) })
	if err != nil {
		n.faults = append(n.faults, outside.Sprintf("the night can't be kept for the page: %v", err))
	}
	for _, place := range n.config.Page {
		if err := writePageTo(n.path(place.Path), kept); err != nil {
			n.faults = append(n.faults, outside.Sprintf("the page can't be written: %v", err))
		}
	}
}

// inShort gives the night in short.
func (n *night) inShort(status int) page.Night {
	night := page.Night{At: n.began, Status: status, Words: n.subject(status)}
	for _, audit := range n.audits {
		if audit.answer == nil {
			continue
		}
		for _, folder := range audit.answer.Folders {
			night.Wrong += folder.Wrong
			night.Bytes += folder.Bytes
		}
		if since := audit.answer.Since; since != nil {
			night.New += since.New.Count
			night.Mended += since.Mended.Count
			night.Gone += since.Gone()
		}
	}
	return night
}

// answers gives what the page has of each audit.
func (n *night) answers() []page.Answer {
	answers := []page.Answer{}
	for _, audit := range n.audits {
		name := audit.name
		if len(n.audits) == 1 {
			name = ""
		}
		answers = append(answers, page.AnswerOf(name, n.began, audit.status, audit.told, audit.answer))
	}
	return answers
}

// writePageTo writes the page whole or not at all. Whoever serves it may read it.
func writePageTo(path string, kept *page.Kept) error {
	var text strings.Builder
	err := page.Write(&text, kept, time.Now(), "syncthing-audit "+release.Version)
	if about, unseen := os.Lstat(path); unseen == nil && !about.Mode().IsRegular() {
		err = fmt.Errorf("%s is no file", path)
	}
	if err == nil {
		err = watch.WriteWhole(path, text.String(), 0o644)
	}
	return err
}
