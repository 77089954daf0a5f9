package shell

import "strings"

// Folder names a folder for a person: by its id, with its label behind it where that is another word.
func Folder(id, label string) string {
	if label == "" || label == id {
		return Quoted(id)
	}
	return Quoted(id) + " (" + Printable(label) + ")"
}

// labelled is an error that names a folder by its id and its label.
type labelled struct {
	error
	text string
}

func (l labelled) Error() string { return l.text }
func (l labelled) Unwrap() error { return l.error }

// Labelled gives an error that says "folder ID: " with the folder's label, too.
func Labelled(err error, id, label string) error {
	if err == nil {
		return nil
	}
	return labelled{err, strings.Replace(err.Error(), "folder "+id+": ", "folder "+Folder(id, label)+": ", 1)}
}
