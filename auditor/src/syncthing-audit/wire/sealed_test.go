package wire

import (
	"context"
	"crypto/rand"
	"errors"
	"strings"
	"testing"

	"github.com/syncthing/syncthing/lib/protocol"
	"golang.org/x/crypto/chacha20poly1305"
	entries "syncthing-audit/device"
	"syncthing-audit/message"
	"syncthing-audit/part"
	"syncthing-audit/secret"
)

const passwordOfTest = "my password"

// vault is what an untrusted device has of the folder 'docs'.
type vault struct {
	t     *testing.T
	key   *secret.Key
	index []byte
	disk  map[string]string
	next  uint64
}

func newVault(t *testing.T) *vault {
	return &vault{t: t, key: secret.OfFolder("docs", passwordOfTest), index: message.AppendText(nil, indexFolder, []byte("docs")), disk: map[string]string{}}
}

// seal encrypts as a trusted device does.
func (v *vault) seal(name string, data []byte) []byte {
	key := v.key.OfFile(name)
	cipher, err := chacha20poly1305.NewX(key[:])
	if err != nil {
		v.t.Fatal(err)
	}
	nonce := make([]byte, cipher.NonceSize())
	if _, err := rand.Read(nonce); err != nil {
		v.t.Fatal(err)
	}
	return append(nonce, cipher.Seal(nil, nonce, data, nil)...)
}

func (v *vault) encrypted(name string) string { return v.key.Encrypted(name) }

// add adds a record as the device sends it, with what is encrypted in it.
func (v *vault) add(name string, inner []byte, more ...byte) {
	v.next++
	text := message.AppendNumber(message.AppendText(nil, message.FileName, []byte(name)), message.FileSequence, v.next)
	text = message.AppendText(text, message.FileVersion, message.AppendText(nil, message.VersionCounter, message.AppendNumber(message.AppendNumber(nil, message.CounterID, 1), message.CounterValue, v.next)))
	if inner != nil {
		text = message.AppendText(text, message.FileEncrypted, inner)
	}
	v.index = message.AppendText(v.index, indexFile, append(text, more...))
}

// put adds a file, and puts it on the disk.
func (v *vault) put(name, data string) {
	v.add(v.encrypted(name), v.seal(name, file{name: name, data: data, sequence: 77}.text()))
	sealed := []byte{}
	for offset := 0; offset == 0 || offset < len(data); offset += protocol.MinBlockSize {
		block := []byte(data[offset:min64(offset+protocol.MinBlockSize, len(data))])
		if len(block) < secret.LeastBlock {
			block = append(block, make([]byte, secret.LeastBlock-len(block))...)
		}
		sealed = append(sealed, v.seal(name, block)...)
	}
	v.disk[v.encrypted(name)] = string(sealed) + "what Syncthing writes behind it"
}

// open connects to the device with these passwords.
func (v *vault) open(passwords map[string]string) (*Connection, *Observer, *fake, []byte, error) {
	observer, answered := newObserver(v.t), make(chan []byte, 1)
	token := v.key.Token("docs")
	device := newFake(v.t, func(f *fake) {
		f.hello()
		own := message.AppendText(message.AppendNumber(message.AppendNumber(message.AppendText(nil, deviceID, f.id[:]), deviceSequence, v.next), deviceIndexID, 42), deviceToken, token)
		folder := message.AppendText(message.AppendText(message.AppendText(nil, folderID, []byte("docs")), folderDevice, own), folderDevice, message.AppendText(nil, deviceID, observer.ID[:]))
		f.write(kindClusterConfig, message.AppendText(nil, configFolder, folder), false)
		_, text, _ := readFrame(f.stream, 1<<20, func() {})
		answered <- text
		f.write(kindIndex, v.index, false)
		f.serve()
	})
	device.disk = v.disk
	device.settle()
	limits := short()
	limits.Message = 16 << 20
	connection, err := observer.Dial(context.Background(), device.listener.Addr().String(), device.id, Look{Folders: []string{"docs"}, Passwords: passwords}, limits)
	if err != nil {
		return nil, observer, device, nil, err
	}
	v.t.Cleanup(connection.Close)
	return connection, observer, device, <-answered, nil
}

// With the password a folder that is encrypted at a device is read as others have it: names, records and bytes. Rot and cuts are seen by the block. The
// device is never asked with a hash.
func TestSealedFolder(t *testing.T) {
	v := newVault(t)
	large := strings.Repeat("large", 3*protocol.MinBlockSize/5) + "end"
	for name, data := range map[string]string{"same": large, "rotten": large, "cut": large, "missing": "gone", "small": "small", "empty": "", "ö/odd name": "odd", "cut small": "text"} {
		v.put(name, data)
	}
	rot := []byte(v.disk[v.encrypted("rotten")])
	rot[protocol.MinBlockSize+secret.Overhead+500] ^= 1 // in block 1
	v.disk[v.encrypted("rotten")] = string(rot)
	v.disk[v.encrypted("cut")] = v.disk[v.encrypted("cut")][:3*(protocol.MinBlockSize+secret.Overhead)]
	v.disk[v.encrypted("cut small")] = v.disk[v.encrypted("cut small")][:20]
	delete(v.disk, v.encrypted("missing"))
	v.add("text", nil)                                                                             // a file that somebody put there
	v.add(v.encrypted("changed there"), nil, message.AppendNumber(nil, message.FileInvalid, 1)...) // a change that was made there
	v.add(v.encrypted("swapped"), v.seal("other", file{name: "other", data: "x", sequence: 1}.text()))
	v.add(v.encrypted("named otherwise"), v.seal("named otherwise", file{name: "other", data: "x", sequence: 1}.text()))
	v.add(v.encrypted("invalid"), v.seal("invalid", file{name: "invalid", data: "i", sequence: 1}.text()), message.AppendNumber(nil, message.FileInvalid, 1)...)
	v.add(v.encrypted("deleted"), v.seal("deleted", file{name: "deleted", sequence: 1, deleted: true}.text()))
	connection, _, device, answer, err := v.open(map[string]string{"docs": passwordOfTest, "other": "x"})
	if err != nil {
		t.Fatal(err)
	}
	shared := connection.Folders[0]
	if !shared.IsOpened() || shared.IsSealed() {
		t.Error("it isn't opened")
	}
	checkToken(t, answer, device.id)
	index, err := shared.Index(context.Background())
	if err != nil {
		t.Fatal(err)
	}
	states, differ, outs := map[string]State{}, map[string][][2]int64{}, map[string]string{}
	err = shared.Bytes(context.Background(), index, all, func(entry entries.Entry, found Found) error {
		states[entry.Name] = found.State
		if found.Differ != nil {
			differ[entry.Name] = found.Differ.Ranges
		}
		if entry.Out != nil {
			outs[entry.Name] = entry.Out.Kind
		} else if entry.Record.Sequence == 77 || entry.Record.Sequence == 0 {
			t.Errorf("%s has sequence %d", entry.Name, entry.Record.Sequence)
		}
		return nil
	})
	if err != nil {
		t.Fatal(err)
	}
	for name, state := range map[string]State{"same": Same, "rotten": Differs, "cut": Differs, "missing": Missing, "small": Same, "empty": Same, "ö/odd name": Same, "cut small": Differs,
		"deleted": Missing} {
		if states[name] != state {
			t.Errorf("%s: %s in place of %s", name, states[name], state)
		}
	}
	if len(differ) != 3 || differ["rotten"][0] != [2]int64{1, 1} || differ["cut"][0] != [2]int64{3, 3} || differ["cut small"][0] != [2]int64{0, 0} {
		t.Errorf("%v", differ)
	}
	for _, name := range []string{"text", "changed there", "swapped", "named otherwise"} {
		if outs[name] != part.Unknown {
			t.Errorf("%s: %q", name, outs[name])
		}
	}
	device.settle()
	if len(outs) != 4 || !recordIn(t, index, "invalid").Invalid || len(device.rescans) > 0 {
		t.Errorf("%v, %v", outs, device.rescans)
	}
}

// checkToken checks where the password's token stands in an answer: with the one device that hasn't the password.
func checkToken(t *testing.T, answer []byte, with protocol.DeviceID) {
	t.Helper()
	said, err := foldersIn(answer, nil, &Usual)
	if err != nil || len(said) != 1 {
		t.Fatal(said, err)
	}
	for _, sharing := range said[0].Devices {
		if sharing.Encrypted != (sharing.Device == with) {
			t.Errorf("the token stands with %s", sharing.Device)
		}
	}
}

// Without a password the encrypted names are had as an untrusted device has them; with another one nothing is said to the device.
func TestSealedWithoutAPassword(t *testing.T) {
	v := newVault(t)
	v.put("a", "text")
	connection, observer, _, answer, err := v.open(map[string]string{"other": "x"})
	if err != nil {
		t.Fatal(err)
	}
	checkToken(t, answer, observer.ID)
	index, err := connection.Folders[0].Index(context.Background())
	if err != nil || !connection.Folders[0].IsSealed() || connection.Folders[0].IsOpened() {
		t.Fatal(err)
	}
	if _, is, err := index.Get(v.encrypted("a")); err != nil || !is {
		t.Error(is, err)
	}
	if _, _, device, _, err := v.open(map[string]string{"docs": "another"}); !errors.Is(err, OtherPassword) || len(device.heard) > 0 {
		t.Errorf("%v, %v", err, device.heard)
	}
}

// Of an encrypted folder a deleted name that is there isn't known: its bytes may be of any time. What the device refuses is told as that, and a device that ends
// ends the look.
func TestSealedNamesThatAreAmiss(t *testing.T) {
	v := newVault(t)
	v.put("whole", "text")
	v.put("ignored", "text")
	v.add(v.encrypted("deleted"), v.seal("deleted", file{name: "deleted", sequence: 1, deleted: true}.text()))
	v.disk[v.encrypted("deleted")] = "what stands there"
	directory := message.AppendNumber(message.AppendNumber(message.AppendText(nil, message.FileName, []byte("folder")), message.FileType, uint64(protocol.FileInfoTypeDirectory)), message.FileSequence, 1)
	v.add(v.encrypted("folder"), v.seal("folder", directory))
	connection, _, device, _, err := v.open(map[string]string{"docs": passwordOfTest})
	if err != nil {
		t.Fatal(err)
	}
	device.mutex.Lock()
	device.ignored = map[string]bool{v.encrypted("ignored"): true}
	device.mutex.Unlock()
	index, err := connection.Folders[0].Index(context.Background())
	if err != nil {
		t.Fatal(err)
	}
	found := map[string]Found{}
	err = connection.Folders[0].Bytes(context.Background(), index, all, func(entry entries.Entry, content Found) error { found[entry.Name] = content; return nil })
	if err != nil {
		t.Fatal(err)
	}
	for name, state := range map[string]State{"whole": Same, "ignored": Ignored, "deleted": NotKnown, "folder": Missing} {
		if found[name].State != state {
			t.Errorf("%s: %+v in place of %s", name, found[name], state)
		}
	}
	if content := found["whole"]; !content.Sealed || content.Size != 4 || content.BlockSize != protocol.MinBlockSize || len(content.Blocks) != 1 || content.Differ != nil {
		t.Errorf("%+v", content)
	}
	connection.stream.NetConn().Close()
	for _, name := range []string{"whole", "deleted"} {
		only := func(entry entries.Entry) (bool, error) { return entry.Name == name, nil }
		if err := connection.Folders[0].Bytes(context.Background(), index, only, func(entries.Entry, Found) error { return nil }); !errors.Is(err, Closed) {
			t.Errorf("%s: %v", name, err)
		}
	}
}

// Of an encrypted file each block is asked for where it stands there: behind those before it, each with what encryption adds. Where the device has none it's missing.
func TestWhereSealedBlocksStand(t *testing.T) {
	v := newVault(t)
	large := strings.Repeat("x", protocol.MinBlockSize+5)
	v.put("two", large)
	connection, _, device, _, err := v.open(map[string]string{"docs": passwordOfTest})
	if err != nil {
		t.Fatal(err)
	}
	asked := map[int64]int64{}
	device.mutex.Lock()
	device.hears = func(offset, size int64) uint64 { asked[offset] = size; return codeNoSuchFile }
	device.mutex.Unlock()
	index, err := connection.Folders[0].Index(context.Background())
	if err != nil {
		t.Fatal(err)
	}
	if err := connection.Folders[0].Bytes(context.Background(), index, all, func(_ entries.Entry, found Found) error {
		if found.State != Missing {
			t.Errorf("%+v", found)
		}
		return nil
	}); err != nil {
		t.Fatal(err)
	}
	const whole = protocol.MinBlockSize + secret.Overhead
	if asked[0] != whole || asked[whole] != 1024+secret.Overhead || len(asked) != 2 { // none has less than 1024 bytes in it
		t.Errorf("%v", asked)
	}
}
