package device

import (
	"os"
	"path/filepath"
	"strings"
	"time"

	"syncthing-audit/part"
)

// usualPlaces are the directories of a user in which Syncthing has its configuration or its database by default: 1.19 the first and the last one,
// 1.29 and 2 the first two.
var usualPlaces = []string{".config/syncthing", ".local/state/syncthing", ".local/share/syncthing"}

// noteNewer notes where another index stands that may be this device's, and was written after the one that is read. Syncthing writes to its index
// as it starts, so that one may be the present one. What can't be looked at isn't told.
func (h *Home) noteNewer() error {
	own, err := writtenAt(h.database())
	if err != nil {
		return err
	}
	read, _ := os.Stat(h.database()) // where it is gone by now it is none of the others
	last := own.Add(mostCoarse)
	for _, dir := range h.placesOfIndexes() {
		for _, name := range []string{databaseName, indexOfTwo} {
			path := filepath.Join(dir, name)
			about, err := os.Stat(path)
			if err != nil || os.SameFile(about, read) {
				continue
			}
			if written, err := writtenAt(path); err == nil && written.After(last) {
				last, h.Newer = written, &part.Newer{Path: path, Written: written.UTC(), Read: own.UTC(), IsOfTwo: name == indexOfTwo}
			}
		}
	}
	return nil
}

// placesOfIndexes gives the directories where an index of this device may be: its home, and those that Syncthing takes by itself, but for those
// of another device. A directory without a certificate is of another one where such a home is beside it.
func (h *Home) placesOfIndexes() []string {
	places, bare, isOfAnother := []string{h.Dir}, []string{}, false
	for _, dir := range placesByDefault(h.Dir) {
		id, err := readDeviceID(filepath.Join(dir, "cert.pem"))
		switch {
		case err != nil:
			bare = append(bare, dir)
		case id == h.ID:
			places = append(places, dir)
		default:
			isOfAnother = true
		}
	}
	if isOfAnother {
		return places
	}
	return append(places, bare...)
}

// placesByDefault gives the directories that Syncthing takes by itself: of the user to whom a home belongs by its path, or of the one who runs
// this. Of the latter the variables are known, too.
func placesByDefault(home string) []string {
	user, places := userOf(home), []string{}
	mine, _ := os.UserHomeDir()
	if user == "" {
		user = mine
	}
	if user == mine {
		for _, name := range []string{"XDG_CONFIG_HOME", "XDG_STATE_HOME", "XDG_DATA_HOME"} {
			if dir := os.Getenv(name); filepath.IsAbs(dir) {
				places = append(places, filepath.Join(dir, "syncthing"))
			}
		}
	}
	if user == "" {
		return places
	}
	for _, place := range usualPlaces {
		places = append(places, filepath.Join(user, place))
	}
	return places
}

// userOf gives the directory of the user whose home a directory is, where that is one that Syncthing takes by itself.
func userOf(home string) string {
	path, err := filepath.Abs(home)
	if err != nil {
		return ""
	}
	for _, place := range usualPlaces {
		if user := strings.TrimSuffix(path, "/"+place); user != path {
			return user
		}
	}
	return ""
}

// local gives a time as a person reads it.
func local(when time.Time) string { return when.Local().Format("2006-01-02 15:04:05 MST") }
