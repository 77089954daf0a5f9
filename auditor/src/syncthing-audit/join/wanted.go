package join

import (
	"fmt"
	"sort"
	"strings"

	"syncthing-audit/shell"
)

// CheckWanted says which id no folder has, of those that were asked for, and which ids there are. Labels has each folder's
// label by its id.
func CheckWanted(labels map[string]string, wanted []string) error {
	for _, id := range wanted {
		if _, there := labels[id]; there {
			continue
		}
		if labelled := idsWith(labels, id); len(labelled) > 0 {
			return fmt.Errorf("no folder here has the id %s, which is a label: the id is %s", shell.Quoted(id), strings.Join(labelled, ", or "))
		}
		return fmt.Errorf("no folder here has the id %s: %s", shell.Quoted(id), idsOf(labels))
	}
	return nil
}

// idsWith gives the ids of the folders with this label, rising.
func idsWith(labels map[string]string, label string) []string {
	ids := []string{}
	for id, called := range labels {
		if called == label {
			ids = append(ids, shell.Quoted(id))
		}
	}
	sort.Strings(ids)
	return ids
}

// idsOf tells all ids with their labels, rising.
func idsOf(labels map[string]string) string {
	ids := []string{}
	for id, label := range labels {
		ids = append(ids, shell.Folder(id, label))
	}
	if len(ids) == 0 {
		return "there is no folder"
	}
	if len(ids) == 1 {
		return "the only one is " + ids[0]
	}
	sort.Strings(ids)
	return "there are " + strings.Join(ids, ", ")
}
