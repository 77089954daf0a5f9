// Package page makes a page to look at of what nights found: one file, which asks nobody for anything.
package page

import (
	"encoding/json"
	"os"
	"path/filepath"
	"time"

	"syncthing-audit/regular"
)

// Kept is what nights leave for the page.
type Kept struct {
	Nights  []Night  `json:"nights"`  // the oldest first
	Answers []Answer `json:"answers"` // the last one of each audit
}

// Night is one night's audit, in short.
type Night struct {
	At     time.Time `json:"at"`
	Status int       `json:"status"`
	Words  string    `json:"words"`
	Wrong  int64     `json:"wrong"` // names, in all folders
	New    int64     `json:"new"`   // faults
	Mended int64     `json:"mended"`
	Gone   int64     `json:"gone,omitempty"` // files of folders from which most went at once
	Bytes  int64     `json:"bytes"`
}

const (
	nameOfKept = "nights.json"
	mostBytes  = 256 << 20
	// MostNights is how many nights are kept: more than a year of them.
	MostNights = 400
)

// Read reads what nights left in a directory; nothing where none did. What is damaged is as none, and is said: the next night writes it anew.
func Read(directory string) (*Kept, error) {
	kept := &Kept{}
	text, _, err := regular.Read(filepath.Join(directory, nameOfKept), mostBytes)
	if os.IsNotExist(err) {
		return kept, nil
	}
	if err == nil {
		err = json.Unmarshal(text, kept)
	}
	if err != nil {
		return &Kept{}, err
	}
	return kept, nil
}

// Add adds a night with its answers. Of an audit without an answer, the devices and folders of its last one stay.
func (k *Kept) Add(night Night, answers []Answer) {
	k.Nights = append(k.Nights, night)
	if over := len(k.Nights) - MostNights; over > 0 {
		k.Nights = k.Nights[over:]
	}
	before := map[string]Answer{}
	for _, answer := range k.Answers {
		before[answer.Audit] = answer
	}
	for at := range answers {
		if had := before[answers[at].Audit]; answers[at].Seen.IsZero() {
			answers[at].Seen, answers[at].Devices, answers[at].Folders, answers[at].LeftOut = had.Seen, had.Devices, had.Folders, had.LeftOut
		}
	}
	k.Answers = answers
}

// Save keeps it, by what writes a file that is there whole or not at all.
func (k *Kept) Save(directory string, write func(path, text string) error) error {
	text, err := json.Marshal(k)
	if err != nil {
		return err
	}
	return write(filepath.Join(directory, nameOfKept), string(text)+"\n")
}
