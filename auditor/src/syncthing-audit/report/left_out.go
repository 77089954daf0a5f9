package report

import (
	"strings"

	"syncthing-audit/finding"
)

// whereOut names the folder and the device of what was left out, as far as it is of one.
func whereOut(refusal finding.Refusal) string {
	words := []string{}
	if refusal.Folder != "" {
		words = append(words, "folder "+refusal.Folder)
	}
	if refusal.Device != "" {
		words = append(words, "device "+refusal.Device)
	}
	return strings.Join(words, ", ")
}
