package answering

import "strings"

// Renamed gives an error with places in place of this run's own files.
func Renamed(err error, names map[string]string) error {
	text := err.Error()
	for path, name := range names {
		text = strings.ReplaceAll(text, path, name)
	}
	return &placed{text, err}
}

// placed is an error that names places in place of this run's own files.
type placed struct {
	text  string
	cause error
}

func (p *placed) Error() string { return p.text }

func (p *placed) Unwrap() error { return p.cause }
