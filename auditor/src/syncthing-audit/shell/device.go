package shell

import "fmt"

// lettersOfID is by how many letters of its id a person knows a device.
const lettersOfID = 7

// Device names a device for a person: by its name, with the first letters of its id behind it, or by these alone where it has no name.
func Device(name, id string) string {
	if len(id) > lettersOfID {
		id = id[:lettersOfID]
	}
	if name == "" {
		return id
	}
	return fmt.Sprintf("%s (%s)", Printable(name), id)
}
