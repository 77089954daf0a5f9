package part

import (
	"encoding/hex"
	"encoding/json"
	"errors"
	"unicode/utf8"
)

// Bytes is a name. In JSON it is a text, or where it isn't UTF-8 an object with hexadecimal digits.
type Bytes string

type digits struct {
	Hex string `json:"hex"`
}

func (b Bytes) MarshalJSON() ([]byte, error) {
	if utf8.ValidString(string(b)) {
		return json.Marshal(string(b))
	}
	return json.Marshal(digits{hex.EncodeToString([]byte(b))})
}

func (b *Bytes) UnmarshalJSON(text []byte) error {
	if len(text) > 0 && text[0] == '"' {
		return json.Unmarshal(text, (*string)(b))
	}
	var read digits
	if err := json.Unmarshal(text, &read); err != nil {
		return err
	}
	data, err := hex.DecodeString(read.Hex)
	if err != nil {
		return err
	}
	*b = Bytes(data)
	return nil
}

// Hash is a SHA-256 hash, in JSON as 64 hexadecimal digits.
type Hash [32]byte

func (h Hash) String() string { return hex.EncodeToString(h[:]) }

func (h Hash) MarshalText() ([]byte, error) { return []byte(h.String()), nil }

func (h *Hash) UnmarshalText(text []byte) error {
	if len(text) != 2*len(h) {
		return errors.New("a hash hasn't 64 digits")
	}
	_, err := hex.Decode(h[:], text)
	return err
}
