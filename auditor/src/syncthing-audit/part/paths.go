package part

import "strings"

// HidePaths takes a folder's absolute path, where there is one, out of why something of a name can't be told: what is left is relative to it.
func (n *Name) HidePaths(folder string) {
	for place := range n.Out {
		n.Out[place].Why = withinFolder(n.Out[place].Why, folder)
	}
	if n.Disk != nil {
		n.Disk.Lost = withinFolder(n.Disk.Lost, folder)
	}
}

func withinFolder(text, folder string) string {
	if folder = strings.TrimRight(folder, `/\`); folder == "" || text == "" { // a part with paths, or nothing to tell
		return text
	}
	return strings.NewReplacer(folder+"/", "", folder+`\`, "", folder, ".").Replace(text)
}
