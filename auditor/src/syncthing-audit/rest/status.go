package rest

import (
	"errors"
	"net/url"
)

// status is what Syncthing says of a folder.
type status struct {
	State *string `json:"state"`
	Error string  `json:"error"` // why it can't go on with the folder
	Names int64   `json:"needTotalItems"`
	Bytes int64   `json:"needBytes"`

	Errors int64 `json:"errors"`
}

// statusOf asks what Syncthing does with a folder.
func statusOf(folder string, get func(what string, into any) error) (status, error) {
	var said status
	if err := get("db/status?"+url.Values{"folder": {folder}}.Encode(), &said); err != nil {
		return status{}, err
	}
	if said.State == nil {
		return status{}, errors.New("Syncthing doesn't say what it does there")
	}
	return said, nil
}

// state gives what it does; nothing where that isn't known.
func (s status) state() string {
	if s.State == nil {
		return ""
	}
	return *s.State
}
