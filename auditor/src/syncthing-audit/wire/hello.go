package wire

import (
	"encoding/binary"
	"fmt"
	"io"

	"github.com/syncthing/syncthing/lib/protocol"
	"google.golang.org/protobuf/encoding/protowire"
	"syncthing-audit/limits"
	"syncthing-audit/message"
)

// Hello is what a device says of itself before anything else.
type Hello struct {
	Name    string // of the device
	Client  string
	Version string
}

// The numbers of a Hello's fields.
const (
	helloName    protowire.Number = 1
	helloClient  protowire.Number = 2
	helloVersion protowire.Number = 3
)

// writeHello says what the observer is. It gives no device name: a device that has none for the observer would take that, and write it into
// its configuration.
func writeHello(to io.Writer) error {
	body := message.AppendText(nil, helloClient, []byte("syncthing-audit"))
	hello := binary.BigEndian.AppendUint32(nil, protocol.HelloMessageMagic)
	hello = binary.BigEndian.AppendUint16(hello, uint16(len(body)))
	_, err := to.Write(append(hello, body...))
	return err
}

// readHello reads what a device says of itself.
func readHello(from io.Reader, most int) (Hello, error) {
	var head [6]byte
	if _, err := io.ReadFull(from, head[:]); err != nil {
		return Hello{}, fmt.Errorf("%w: %v", NotSyncthing, err)
	}
	if magic := binary.BigEndian.Uint32(head[:]); magic != protocol.HelloMessageMagic {
		return Hello{}, fmt.Errorf("%w: it begins with %#x", NotSyncthing, magic)
	}
	of := int(binary.BigEndian.Uint16(head[4:]))
	if of > most {
		return Hello{}, fmt.Errorf("%w: a Hello of %d bytes", TooLong, of)
	}
	body := make([]byte, of)
	if _, err := io.ReadFull(from, body); err != nil {
		return Hello{}, fmt.Errorf("%w: %v", NotSyncthing, err)
	}
	var said Hello
	err := message.Each(body, func(field message.Field) error {
		switch field.Number {
		case helloName:
			said.Name = limits.Cut(string(field.Text))
		case helloClient:
			said.Client = limits.Cut(string(field.Text))
		case helloVersion:
			said.Version = limits.Cut(string(field.Text))
		}
		return nil
	})
	if err != nil {
		return Hello{}, fmt.Errorf("%w: its Hello: %v", BadMessage, err)
	}
	return said, nil
}
