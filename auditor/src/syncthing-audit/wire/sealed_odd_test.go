package wire

import (
	"context"
	"crypto/sha256"
	"testing"

	"github.com/syncthing/syncthing/lib/protocol"
	"syncthing-audit/part"
	"syncthing-audit/secret"
)

// Of an encrypted folder an empty file is the same only where what stands there was encrypted with the password. What differs is told as what it is, and
// no request is under way behind a look.
func TestSealedFilesThatDiffer(t *testing.T) {
	v := newVault(t)
	for name, data := range map[string]string{"empty": "", "rotten": "", "replaced": "text"} {
		v.put(name, data)
	}
	rot := []byte(v.disk[v.encrypted("rotten")])
	rot[50] ^= 1
	v.disk[v.encrypted("rotten")] = string(rot)
	padded := make([]byte, secret.LeastBlock)
	copy(padded, "tent")
	v.disk[v.encrypted("replaced")] = string(v.seal("replaced", padded))
	connection, _, _, _, err := v.open(map[string]string{"docs": passwordOfTest})
	if err != nil {
		t.Fatal(err)
	}
	index, err := connection.Folders[0].Index(context.Background())
	if err != nil {
		t.Fatal(err)
	}
	asker := &asker{of: connection.Folders[0], room: newRoom()}
	for name, state := range map[string]State{"empty": Same, "rotten": Differs, "replaced": Differs} {
		entry, _, err := index.Get(name)
		if err != nil {
			t.Fatal(err)
		}
		found, err := asker.look(context.Background(), entry)
		if err != nil || found.State != state || asker.room.requests != 0 || asker.room.bytes != 0 {
			t.Errorf("%s: %s in place of %s, %d requests of %d bytes, %v", name, found.State, state, asker.room.requests, asker.room.bytes, err)
		}
		if name == "replaced" && (*found.Differ.First.Recorded != sha256.Sum256([]byte("text")) || *found.Differ.First.Found != sha256.Sum256([]byte("tent"))) {
			t.Errorf("%+v", found.Differ)
		}
	}
}

// An encrypted record of a name that no document has, or that is itself none, is one that can't be opened.
func TestSealedRecordsThatAreNone(t *testing.T) {
	v := newVault(t)
	v.put("../odd", "text")
	v.add(v.encrypted("none"), v.seal("none", []byte("\x0a\x04none\xff")))
	connection, _, _, _, err := v.open(map[string]string{"docs": passwordOfTest})
	if err != nil {
		t.Fatal(err)
	}
	index, err := connection.Folders[0].Index(context.Background())
	if err != nil {
		t.Fatal(err)
	}
	for _, name := range []string{"../odd", "none"} {
		entry, is, err := index.Get(name)
		if err != nil || !is || entry.Out == nil || entry.Out.Kind != part.Unknown || entry.Out.Why != whySealed {
			t.Errorf("%s: %+v, %v", name, entry, err)
		}
	}
}

// A folder is sealed that has a password's token and no key, and opened with its key.
func TestWhetherAFolderIsSealed(t *testing.T) {
	for _, key := range []*secret.Key{nil, {}} {
		for _, token := range []string{"", "t", "token"} {
			shared := &Shared{key: key, token: []byte(token)}
			if shared.IsSealed() != (key == nil && token != "") || shared.IsOpened() != (key != nil) {
				t.Errorf("key %v, token %q: sealed %v, opened %v", key != nil, token, shared.IsSealed(), shared.IsOpened())
			}
		}
	}
}

// A key is made of a folder that is encrypted at the device alone, and only where a password was given: others are read as they are.
func TestWhichFoldersHaveAKey(t *testing.T) {
	id := protocol.DeviceID{7}
	token := secret.OfFolder("docs", passwordOfTest).Token("docs")
	for _, isEncrypted := range []bool{false, true} {
		for _, password := range []string{"", passwordOfTest, "another"} {
			folder, look := &Folder{ID: "docs"}, Look{}
			if isEncrypted {
				folder.tokens = map[protocol.DeviceID][]byte{id: token}
			}
			if password != "" {
				look.Passwords = map[string]string{"docs": password}
			}
			key, err := keyOfFolder(folder, Sharing{Device: id, Encrypted: isEncrypted}, look)
			if (key != nil) != (isEncrypted && password != "") || (err != nil) != (isEncrypted && password == "another") {
				t.Errorf("encrypted %v, password %q: key %v, %v", isEncrypted, password, key != nil, err)
			}
		}
	}
}

// A device is told of an index that was kept, from its first record on, and each folder has an index id of the observer's that is one.
func TestWhatADeviceIsToldOfAKeptIndex(t *testing.T) {
	observer, id := newObserver(t), protocol.DeviceID{7}
	for highest := int64(0); highest < 3; highest++ {
		index := NewIndex(42)
		index.Highest = highest
		read, err := folderOf(observer.answerOf(id, &Shared{Folder: Folder{ID: "docs"}, taker: taker{index: index}}), 9)
		if err != nil {
			t.Fatal(err)
		}
		due := Sharing{Device: id}
		if highest > 0 {
			due.IndexID, due.Sequence = 42, highest
		}
		if told, is := read.Of(id); !is || told != due {
			t.Errorf("%+v in place of %+v", told, due)
		}
	}
	for letter := 'a'; letter <= 'z'; letter++ {
		if id := observer.indexID(string(letter)); id%2 != 1 {
			t.Errorf("%c: %d", letter, id)
		}
	}
}

// Of many reasons why no folder is observed it is that of the first one that is shared, whatever order they are in.
func TestTheFirstReasonIsTold(t *testing.T) {
	out := map[string]error{"a": NotShared, "b": Paused}
	for letter := 'c'; letter <= 'z'; letter++ {
		out[string(letter)] = OtherType
	}
	for tries := 0; tries < 20; tries++ {
		if err := (&Connection{Out: out}).whyNone(); err != Paused {
			t.Fatal(err)
		}
	}
}
