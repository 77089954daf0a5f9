package part

import "path"

// Held notes in which directories names stand that .stignore keeps out.
type Held struct {
	holding   map[string]bool
	deletable map[string]*Count
	below, in string // the directory that was looked up last, and in which one a name below it stands
}

// Take takes such a name of so many bytes: Syncthing deletes it with its directory, or it keeps that from being deleted. A directory that is kept out itself isn't told,
// but the one above it.
func (h *Held) Take(name string, size int64, isDeletable bool, isIgnored func(name string) bool) {
	if below := path.Dir(name); below != h.below {
		h.below, h.in = below, below
		for h.in != "." && isIgnored(h.in) {
			h.in = path.Dir(h.in)
		}
	}
	if h.holding == nil {
		h.holding, h.deletable = map[string]bool{}, map[string]*Count{}
	}
	switch {
	case h.in == "." || h.in == "":
	case !isDeletable:
		h.holding[h.in] = true
	case h.deletable[h.in] == nil:
		h.deletable[h.in] = &Count{Names: 1, Bytes: size}
	default:
		h.deletable[h.in].Add(1, size)
	}
}

// Tell has the end of a folder say it.
func (h *Held) Tell(end *End) {
	end.Holding, end.Deletable = HoldingOf(h.holding), DeletableOf(h.deletable)
}
