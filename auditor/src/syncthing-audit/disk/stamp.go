package disk

import (
	"os"
	"strconv"
	"time"
)

// Stamp is another one for each file that comes to a path, and after each write to it, also if the file's time is put back. For directories it is another
// one for each directory, whatever comes into it.
type Stamp struct {
	kind              kindOfStamp
	file              inode
	size              int64
	changed, modified moment // of a directory neither, and no size
}

// kindOfStamp is of what a stamp is.
type kindOfStamp byte

const (
	ofNothing kindOfStamp = iota
	ofDirectory
	ofOther
)

// moment is a time as the system has it.
type moment struct {
	seconds     int64
	nanoseconds int
}

func momentOf(at time.Time) moment { return moment{at.Unix(), at.Nanosecond()} }

// StampAt gives the stamp of what is at a path: that of nothing where nothing is there.
func StampAt(path string) Stamp {
	about, err := os.Lstat(path)
	if err != nil {
		return Stamp{}
	}
	return stampOf(about)
}

// stampOf gives the stamp of what was found, by its path or by a descriptor.
func stampOf(about os.FileInfo) Stamp {
	file, changed, is := fileOf(about)
	switch {
	case !is:
		return Stamp{}
	case about.IsDir():
		return Stamp{kind: ofDirectory, file: file}
	}
	return Stamp{ofOther, file, about.Size(), momentOf(changed), momentOf(about.ModTime())}
}

// String gives a text that is another one for each stamp; an empty one for that of nothing.
func (s Stamp) String() string {
	if s.kind == ofNothing {
		return ""
	}
	text := strconv.AppendUint(make([]byte, 0, mostStamp), s.file.device, 10)
	text = strconv.AppendUint(append(text, ' '), s.file.number, 10)
	if s.kind != ofDirectory {
		text = s.changed.append(append(text, ' '))
		text = s.modified.append(append(text, ' '))
		text = strconv.AppendInt(append(text, ' '), s.size, 10)
	}
	return string(text)
}

// mostStamp is how long the text of most stamps is at most.
const mostStamp = 112

// append appends seconds, and nine digits of nanoseconds.
func (m moment) append(to []byte) []byte {
	to = append(strconv.AppendInt(to, m.seconds, 10), '.')
	nanoseconds := len(to)
	to = strconv.AppendInt(to, int64(m.nanoseconds)+1e9, 10) // a one, and nine digits
	return append(to[:nanoseconds], to[nanoseconds+1:]...)
}
