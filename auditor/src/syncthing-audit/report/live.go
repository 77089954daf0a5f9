package report

import (
	"fmt"
	"io"
	"strings"

	"syncthing-audit/finding"
	"syncthing-audit/outside"
	"syncthing-audit/part"
)

// live prints which names were in motion while running devices were looked at, and what hasn't been heard of.
func live(to io.Writer, folder *finding.Folder) {
	if folder.Live == nil {
		return
	}
	spent := "unknown"
	if folder.Live.OfParts {
		spent = "by parts"
	} else if folder.Live.Seconds != nil {
		spent = fmt.Sprintf("%.3f s", *folder.Live.Seconds)
	}
	outside.Printf(to, "still: %s %s, in motion: %d names\n", folder.ID, spent, folder.Live.Moving)
	for _, moving := range folder.Live.Names {
		for _, at := range moving.At {
			outside.Printf(to, "in motion: %s %s on %d: %s\n", folder.ID, printed(string(moving.Name)), part.Number(at.Device),
				strings.Join(at.Why, ", "))
		}
	}
	if more := folder.Live.Moving - int64(len(folder.Live.Names)); more > 0 {
		outside.Printf(to, "in motion: %s and %d names more\n", folder.ID, more)
	}
	for _, unheard := range folder.Live.Unheard {
		outside.Printf(to, "not heard of: %s on %d of %d: %d names\n", folder.ID, part.Number(unheard.Device), part.Number(unheard.Of),
			unheard.Names)
	}
}
