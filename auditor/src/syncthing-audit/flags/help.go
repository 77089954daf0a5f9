package flags

import "strings"

// Where the text of a flag begins in the help, and where its lines end, about.
const (
	indent    = 23
	lineWidth = 150
)

// Help gives the lines of the help on flags. What stands in braces in their texts is replaced, as {kinds}.
func Help(flags []Flag, values map[string]string) string {
	lines := []string{}
	for _, flag := range flags {
		head := "  " + flag.Name
		if flag.Word != "" {
			head += " " + flag.Word
		}
		lines = append(lines, wrapped(head, filled(flag.Help, values))...)
	}
	return strings.Join(lines, "\n")
}

// HelpOnStatuses gives the paragraph of the help on exit statuses.
func HelpOnStatuses(statuses []Status) string {
	texts := []string{}
	for _, status := range statuses {
		texts = append(texts, status.Numbers[len(status.Numbers)-1]+" "+status.Help)
	}
	return strings.Join(filledLines("Exit status: ", strings.Join(texts, "; ")+".", ""), "\n")
}

// wrapped gives a flag's text behind its head over as many lines as it takes.
func wrapped(head, text string) []string {
	head += "  "
	if len(head) < indent {
		head += strings.Repeat(" ", indent-len(head))
	}
	return filledLines(head, text, strings.Repeat(" ", indent))
}

// filledLines gives a text behind its head, over lines of which each further one begins so.
func filledLines(line, text, begin string) []string {
	lines := []string{}
	for place, word := range strings.Fields(text) {
		switch {
		case place == 0:
			line += word
		case len(line)+1+len(word) > lineWidth:
			lines, line = append(lines, line), begin+word
		default:
			line += " " + word
		}
	}
	return append(lines, line)
}

func filled(text string, values map[string]string) string {
	for name, value := range values {
		text = strings.ReplaceAll(text, "{"+name+"}", value)
	}
	return text
}
