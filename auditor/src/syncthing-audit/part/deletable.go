package part

import (
	"encoding/json"
	"errors"
	"sort"
)

// Deletable is of directories in which something stands that .stignore keeps out with (?d): Syncthing deletes that with them, or as it tries to.
type Deletable struct {
	In   []DeletableIn `json:"in"`             // rising by name
	More int64         `json:"more,omitempty"` // directories behind these, which aren't listed
}

// DeletableIn counts such names in a directory, and in those below it that are kept out themselves.
type DeletableIn struct {
	Directory Bytes `json:"directory"`
	Count
}

// DeletableOf lists directories, as far as there is room; nothing of none.
func DeletableOf(counts map[string]*Count) *Deletable {
	if len(counts) == 0 {
		return nil
	}
	all := make([]DeletableIn, 0, len(counts))
	for name, count := range counts {
		all = append(all, DeletableIn{Bytes(name), *count})
	}
	sort.Slice(all, func(a, b int) bool { return all[a].Directory < all[b].Directory })
	deletable, bytes := &Deletable{In: []DeletableIn{}}, 0
	for place, one := range all {
		text, _ := json.Marshal(one) // names and numbers
		if bytes += len(text) + 1; bytes > mostOfDeletable {
			deletable.More = int64(len(all) - place)
			break
		}
		deletable.In = append(deletable.In, one)
	}
	return deletable
}

// mostOfDeletable is how many bytes such directories have together at most: a frame has room for them beside those that hold what stays.
const mostOfDeletable = 200 << 10

// check says why such counts are none.
func (d *Deletable) check() error {
	if d == nil {
		return nil
	}
	for _, one := range d.In {
		if one.Names < 1 || one.Bytes < 0 {
			return errors.New("it has a directory with less than one name that is deleted with it, or with bytes below 0")
		}
	}
	if d.More < 0 {
		return errors.New("it has a count of directories below 0")
	}
	return nil
}
