package watch

import (
	"bytes"
	"encoding/xml"
	"fmt"

	"syncthing-audit/shell"
)

// checkText says what of a configuration Go's package passes over: text between elements, an attribute that stands twice, and an element that says nothing,
// as <notify>COMMAND</notify> does. A night would be made, and nobody told.
// It was read to its end before.
func checkText(text []byte) error {
	decoder, isWhole := xml.NewDecoder(bytes.NewReader(text)), true
	for token, err := decoder.Token(); err == nil; token, err = decoder.Token() {
		switch token := token.(type) {
		case xml.StartElement:
			if err := checkElement(token, isWhole); err != nil {
				return err
			}
			isWhole = false
		case xml.CharData:
			if said := bytes.TrimSpace(token); len(said) > 0 {
				return fmt.Errorf("text stands between elements: %s", shell.Printable(string(said)))
			}
		}
	}
	return nil
}

// checkElement says what is wrong with an element by itself. The one that is the whole configuration has no attribute.
func checkElement(startElement xml.StartElement, isWhole bool) error {
	name, seen := shell.Printable(startElement.Name.Local), map[string]bool{}
	if !isWhole && len(startElement.Attr) == 0 {
		return fmt.Errorf("<%s> says nothing: it has no attribute", name)
	}
	for _, attribute := range startElement.Attr {
		called := shell.Printable(attribute.Name.Local)
		switch {
		case seen[called]:
			return fmt.Errorf("<%s> has the attribute %s twice", name, called)
		case attribute.Value == "":
			return fmt.Errorf("<%s %s=\"\"> is empty", name, called)
		}
		seen[called] = true
	}
	return nil
}
