// Package looks joins the two looks at a device that may run. It has the tokens, which say which looks were over when
// others began.
package looks

import (
	"bufio"
	"crypto/rand"
	"encoding/hex"
	"errors"
	"fmt"
	"io"
	"strings"

	"syncthing-audit/part"
)

// bytesOfID is how long the id of a first look is: nobody comes to one by chance who wasn't told it.
const bytesOfID = 16

// NewID gives the id of a first look that is over.
func NewID() (string, error) {
	id := make([]byte, bytesOfID)
	if _, err := rand.Read(id); err != nil {
		return "", err
	}
	return hex.EncodeToString(id), nil
}

// Token gives what a first look leaves behind for the second ones: its device and its id.
func Token(device, id string) string { return device + ":" + id }

// readToken reads a token.
func readToken(text string) (device, id string, err error) {
	device, id, _ = strings.Cut(text, ":")
	if data, wrong := hex.DecodeString(id); part.Number(device) == 0 || wrong != nil || len(data) != bytesOfID {
		return "", "", fmt.Errorf("%q is no token, as 'part --begin' writes it", text)
	}
	return device, id, nil
}

// ReadTokens reads tokens, one on a line, and adds them to those of these devices.
func ReadTokens(from io.Reader, to map[string]string) error {
	lines := bufio.NewScanner(from)
	for lines.Scan() {
		text := strings.TrimSpace(lines.Text())
		if text == "" {
			continue
		}
		device, id, err := readToken(text)
		if err != nil {
			return err
		}
		if had := to[device]; had != "" && had != id {
			return fmt.Errorf("two tokens of device %s: take that of its last first look alone", device)
		}
		to[device] = id
	}
	return lines.Err()
}

// errNoLook says that a part isn't of two looks.
var errNoLook = errors.New("it isn't of a look at a running device")
