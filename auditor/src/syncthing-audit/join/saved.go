package join

import (
	"encoding/json"

	"syncthing-audit/part"
)

// savedMember is a member as JSON: without the rest of its part.
type savedMember struct {
	Head   *part.Head
	From   string
	About  *part.Folder
	Near   int64 `json:",omitempty"`
	Links  int64 `json:",omitempty"`
	Barred int64 `json:",omitempty"`

	Temporary *part.Count `json:",omitempty"`
	Linked    *part.Count `json:",omitempty"`
	ToIgnore  int64       `json:",omitempty"`
	Unseen    *Unseen     `json:",omitempty"`
}

func (m Member) MarshalJSON() ([]byte, error) {
	saved := savedMember{m.Head, m.From, m.About, m.Near, m.Links, m.Barred, m.Temporary, m.Linked, m.ToIgnore, nil}
	if m.Unseen != (Unseen{}) {
		saved.Unseen = &m.Unseen
	}
	return json.Marshal(saved)
}

func (m *Member) UnmarshalJSON(text []byte) error {
	var read savedMember
	if err := json.Unmarshal(text, &read); err != nil {
		return err
	}
	m.Device = &Device{Head: read.Head, From: read.From}
	if read.Head != nil {
		m.Number = read.Head.Number()
	}
	m.About, m.Near, m.Links, m.Barred, m.Temporary = read.About, read.Near, read.Links, read.Barred, read.Temporary
	m.Linked, m.ToIgnore = read.Linked, read.ToIgnore
	if read.Unseen != nil {
		m.Unseen = *read.Unseen
	}
	return nil
}
