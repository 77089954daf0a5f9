package wire

import (
	"crypto/subtle"
	"errors"
	"fmt"
	"sort"

	"github.com/syncthing/syncthing/lib/protocol"
	"syncthing-audit/message"
	"syncthing-audit/secret"
)

// Shared is a folder that is observed on a connection.
type Shared struct {
	Folder // as the device said first

	over  *Connection
	taker taker
	key   *secret.Key // of a folder that is encrypted there; nothing of others
	token []byte      // of its password
}

// IsSealed says whether the folder is encrypted there, and no password was given. Its names are encrypted ones then, and no bytes are asked for.
func (s *Shared) IsSealed() bool { return s.key == nil && len(s.token) > 0 }

// IsOpened says whether the folder is encrypted there, and is read with its password.
func (s *Shared) IsOpened() bool { return s.key != nil }

// Keeper gives what was kept of a device's index of a folder.
type Keeper func(folder string) (*Index, error)

// Shared gives a folder that is observed, or nothing.
func (c *Connection) Shared(folder string) *Shared {
	place := sort.Search(len(c.Folders), func(place int) bool { return c.Folders[place].ID >= folder })
	if place < len(c.Folders) && c.Folders[place].ID == folder {
		return c.Folders[place]
	}
	return nil
}

// agree hears the device's ClusterConfig, and answers with those folders that are observed. A folder that isn't shared with the observer, that is paused
// there, or that is encrypted with another password, isn't answered: the device would log that, and offer the folder to its user.
func (o *Observer) agree(c *Connection, look Look) error {
	what, text, err := readFrame(c.stream, c.limits.Message, func() {})
	if err = ended(err); errors.Is(err, Closed) {
		return fmt.Errorf("%w by the device behind its Hello: it may not know the observer (%s), have paused it, or be asked by another run: see its page", Closed, o.ID.String()[:7])
	}
	if err != nil {
		return err
	}
	if what != kindClusterConfig {
		return fmt.Errorf("%w: a message of kind %d where a ClusterConfig is due", BadMessage, what)
	}
	said, err := foldersIn(text, look.Folders, &c.limits)
	if err != nil {
		return err
	}
	for _, id := range look.Folders {
		c.Out[id] = NotShared
	}
	for _, folder := range said {
		if err := o.share(c, folder, look); err != nil {
			return err
		}
	}
	if len(c.Folders) == 0 {
		return c.whyNone()
	}
	sort.Slice(c.Folders, func(a, b int) bool { return c.Folders[a].ID < c.Folders[b].ID })
	return c.send(kindClusterConfig, o.answer(c.Device, c.Folders))
}

// share has a folder observed that the device names, or says in Out why it isn't.
func (o *Observer) share(c *Connection, folder *Folder, look Look) error {
	own, err := sharedWith(folder, c.Device, o.ID)
	if err != nil {
		c.Out[folder.ID] = err
		return nil
	}
	key, err := keyOfFolder(folder, own, look)
	if err != nil {
		c.Out[folder.ID] = err
		return nil
	}
	delete(c.Out, folder.ID)
	kept := look.Kept
	if kept == nil {
		kept = func(string) (*Index, error) { return NewIndex(own.IndexID), nil }
	}
	index, err := kept(folder.ID)
	if err != nil {
		return err
	}
	if index.ID != own.IndexID || index.Highest > own.Sequence {
		if err := index.begin(own.IndexID); err != nil {
			return err
		}
	}
	c.Folders = append(c.Folders, &Shared{Folder: *folder, over: c, key: key, token: folder.tokens[c.Device],
		taker: taker{folder: folder.ID, limits: &c.limits, spent: &c.spent, index: index, key: key}})
	return nil
}

// keyOfFolder gives the key of a folder that is encrypted at a device, by the password that was given; nothing where none was. The device isn't told of a
// password that isn't the one there: it would tell its user that somebody has another one.
func keyOfFolder(folder *Folder, own Sharing, look Look) (*secret.Key, error) {
	password, is := look.Passwords[folder.ID]
	if !own.Encrypted || !is {
		return nil, nil
	}
	key := secret.OfFolder(folder.ID, password)
	if subtle.ConstantTimeCompare(key.Token(folder.ID), folder.tokens[own.Device]) != 1 {
		return key, OtherPassword
	}
	return key, nil
}

// whyNone says why no folder is observed.
func (c *Connection) whyNone() error {
	ids := make([]string, 0, len(c.Out))
	for id := range c.Out {
		ids = append(ids, id)
	}
	sort.Strings(ids)
	for _, id := range ids {
		if err := c.Out[id]; err != NotShared {
			return err
		}
	}
	return NotShared
}

// sharedWith gives what the device says of its own index, if it shares the folder with the observer and tells of it.
func sharedWith(folder *Folder, device, observer protocol.DeviceID) (Sharing, error) {
	own, isThere := folder.Of(device)
	with, isShared := folder.Of(observer)
	switch {
	case !isShared:
		return own, NotShared
	case folder.Paused:
		return own, Paused
	case folder.OtherType:
		return own, OtherType
	case with.Encrypted:
		return own, EncryptedForObserver
	case !isThere:
		return own, fmt.Errorf("%w: a ClusterConfig without the device itself", BadMessage)
	case own.IndexID == 0:
		return own, fmt.Errorf("%w: a ClusterConfig in which the device's own index has no id", BadMessage)
	}
	return own, nil
}

// answer is the observer's ClusterConfig: it shares the folders with the one device alone, has nothing of them, and asks not to hear of temporary
// files. It names no other device, and introduces none. Of the device's own indexes it says what was kept, so that the device sends what came since.
func (o *Observer) answer(device protocol.DeviceID, folders []*Shared) []byte {
	text := []byte{}
	for _, shared := range folders {
		text = message.AppendText(text, configFolder, o.answerOf(device, shared))
	}
	return text
}

// answerOf is what the observer says of a folder.
func (o *Observer) answerOf(device protocol.DeviceID, folder *Shared) []byte {
	other, kept := message.AppendText(nil, deviceID, device[:]), folder.taker.index
	if kept.Highest > 0 {
		other = message.AppendNumber(other, deviceSequence, uint64(kept.Highest))
		other = message.AppendNumber(other, deviceIndexID, kept.ID)
	}
	own := message.AppendText(nil, deviceID, o.ID[:])
	own = message.AppendNumber(own, deviceIndexID, o.indexID(folder.ID))
	switch {
	case folder.key != nil: // as a device with the password says that the other one hasn't it
		other = message.AppendText(other, deviceToken, folder.token)
	case folder.IsSealed(): // as a device that hasn't the password says so of itself
		own = message.AppendText(own, deviceToken, folder.token)
	}
	text := message.AppendText(nil, folderID, []byte(folder.ID))
	text = message.AppendNumber(text, folderNoTemporary, 1)
	text = message.AppendText(text, folderDevice, other)
	return message.AppendText(text, folderDevice, own)
}
