package disk

import (
	"os"

	"syncthing-audit/part"
)

// inode says which file a name leads to.
type inode struct{ device, number uint64 }

// links counts the names of files that have more than one.
type links map[inode]*linked

// linked is a file with more than one link: how many it has, how many of them were met, and which of such files it is, from 1.
type linked struct {
	links, met int64
	bytes      int64
	number     int64
}

// add adds the name of a file, and gives its number; 0 where the file has no other name.
func (l links) add(about os.FileInfo) int64 {
	file, count := linksOf(about)
	if count < 2 || !about.Mode().IsRegular() {
		return 0
	}
	if l[file] == nil {
		l[file] = &linked{number: int64(len(l)) + 1}
	}
	l[file].links, l[file].bytes = count, about.Size()
	l[file].met++
	return l[file].number
}

// elsewhere counts the names of files that have links which weren't met.
func (l links) elsewhere() part.Count {
	count := part.Count{}
	for _, link := range l {
		if link.links > link.met {
			count.Add(link.met, link.met*link.bytes)
		}
	}
	return count
}
