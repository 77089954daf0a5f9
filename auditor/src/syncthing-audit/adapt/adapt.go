// Package adapt calls what Syncthing's packages have otherwise in one version than in another: in 1.19, which Debian 12 has,
// and in 1.29, which Debian 13 has. Go infers the types that differ, so one source builds with both, and no build is to be told
// which one is there. What neither has doesn't build.
package adapt

import (
	"github.com/syncthing/syncthing/lib/db"
	"github.com/syncthing/syncthing/lib/fs"
	"github.com/syncthing/syncthing/lib/protocol"
)

// Filesystem gives a folder's files by the configuration's own method, with their times as Syncthing sees them where the
// folder's index is given, and none of other directories. 1.29 takes the index by itself; 1.19 lays it over.
func Filesystem[Method func() fs.Filesystem | func(*db.FileSet) fs.Filesystem](method Method, index *db.FileSet) fs.Filesystem {
	switch open := any(method).(type) {
	case func(*db.FileSet) fs.Filesystem:
		if index != nil {
			return &timed{open(index), NewBeneath(open(nil))}
		}
		return open(nil)
	case func() fs.Filesystem:
		if index != nil {
			return &timed{any(index).(interface {
				MtimeFS(fs.Filesystem) fs.Filesystem
			}).MtimeFS(open()), NewBeneath(open())}
		}
		return open()
	}
	panic("no such method is in the constraint")
}

// Have goes through what an index has of a device, by a snapshot's own method. 1.19 gives each entry as an interface.
func Have[Item any, Iterator ~func(Item) bool](method func(protocol.DeviceID, Iterator), of protocol.DeviceID, take func(protocol.FileInfo) bool) {
	method(of, func(item Item) bool { return take(any(item).(protocol.FileInfo)) })
}

// SetNumber sets a number of an entry, which has 32 bits in 1.29.
func SetNumber[Number int | int32](of *Number, value int) { *of = Number(value) }

// SetText sets a text of an entry, which is bytes in 1.29.
func SetText[Text string | []byte](of *Text, value string) { *of = Text(value) }
