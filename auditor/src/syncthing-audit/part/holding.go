package part

import "sort"

// Holding is of directories in which something stands that .stignore keeps out, and that Syncthing doesn't delete with them.
type Holding struct {
	Names []Bytes `json:"names"`          // rising
	More  int64   `json:"more,omitempty"` // that aren't listed
}

// mostOfHolding is how many bytes the names of such directories have together at most: a frame has room for them.
const mostOfHolding = 128 << 10

// HoldingOf lists directories, as far as there is room; nothing of none.
func HoldingOf(names map[string]bool) *Holding {
	if len(names) == 0 {
		return nil
	}
	rising := make([]string, 0, len(names))
	for name := range names {
		rising = append(rising, name)
	}
	sort.Strings(rising)
	holding, bytes := &Holding{Names: []Bytes{}}, 0
	for _, name := range rising {
		if bytes += len(name); bytes > mostOfHolding {
			holding.More++
		} else {
			holding.Names = append(holding.Names, Bytes(name))
		}
	}
	return holding
}
