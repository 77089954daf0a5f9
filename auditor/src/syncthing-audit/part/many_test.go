package part

import "testing"

// A head may have as many folders, others and devices as there may be of each, and not one more.
func TestHowManyAHeadMayHave(t *testing.T) {
	for what, made := range map[string]func(more int) *Head{
		"folders":             func(more int) *Head { return &Head{Folders: make([]Folder, mostFolders+more)} },
		"others":              func(more int) *Head { return &Head{Others: make([]Other, mostFolders+more)} },
		"sharing":             func(more int) *Head { return &Head{Folders: []Folder{{Sharing: make([]Sharing, MostPeers+more)}}} },
		"views":               func(more int) *Head { return &Head{Folders: []Folder{{Views: make([]View, MostPeers+more)}}} },
		"paused devices":      func(more int) *Head { return &Head{Folders: []Folder{{PausedDevices: make([]string, MostPeers+more)}}} },
		"what writes":         func(more int) *Head { return &Head{Folders: []Folder{{Writers: make([]string, MostPeers+more)}}} },
		"devices of an other": func(more int) *Head { return &Head{Others: []Other{{Devices: make([]string, MostPeers+more)}}} },
	} {
		if as, over := checkMany(made(0)), checkMany(made(1)); as != nil || over == nil {
			t.Errorf("%s: %v, and of one more: %v", what, as, over)
		}
	}
}
