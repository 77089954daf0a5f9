package wire

import (
	"time"

	"syncthing-audit/part"
)

// Limits are what the observer takes from a device. What goes over them is refused, and costs that device's part alone.
type Limits struct {
	Message    int           // bytes of one message, also once it is decompressed
	Hello      int           // bytes of a Hello
	Index      int64         // bytes of all index messages of a connection
	Records    int64         // records of all index messages of a connection
	Folders    int           // that are observed on a connection
	Name       int           // bytes of a record's name
	Devices    int           // devices of a folder
	Handshake  time.Duration // for TLS and Hello together
	Frame      time.Duration // for a message from its first byte on, and for what is written
	Silence    time.Duration // with no message at all: devices send pings each 90 s
	Ping       time.Duration // between the observer's own pings: a device gives up after 300 s without a message
	Answer     time.Duration // for the answer to a request
	IndexQuiet time.Duration // with nothing more of an index that isn't whole
	IndexWhole time.Duration // for all of an index
	BytesWhole time.Duration // for all bytes that are asked for
	Grace      time.Duration // before a device is found too slow
	LeastSteps float64       // records of an index, or answers, each second behind that
	LeastBytes float64       // or as many bytes
}

// Usual are the limits where nothing else is asked for. A record of a file of 16 TiB has 45 MB of block hashes. An index of a million files comes in an
// hour over the slowest line, and a disk on that a program waits for gives some files each second. Of more bytes than two days give, slices are asked for.
var Usual = Limits{
	Message: 64 << 20, Hello: 32767, Index: 8 << 30, Records: 10_000_000, Name: 32 << 10, Devices: part.MostPeers, Folders: 256,
	Handshake: 20 * time.Second, Frame: 2 * time.Minute, Silence: 5 * time.Minute, Ping: time.Minute, Answer: 2 * time.Minute, IndexQuiet: time.Minute,
	IndexWhole: 2 * time.Hour, BytesWhole: 48 * time.Hour, Grace: 10 * time.Minute, LeastSteps: 1, LeastBytes: 16 << 10,
}

// Refusal is why the observer has nothing of a device, or goes on with it no longer. Errors of this package wrap one.
type Refusal string

func (r Refusal) Error() string { return string(r) }

// The refusals.
const (
	BadDirectory    Refusal = "the directory with the observer's key can't be used"
	Unreached       Refusal = "the device isn't reached"
	AnotherDevice   Refusal = "another device answers"
	NotSyncthing    Refusal = "what answers doesn't speak Syncthing's protocol"
	TooLong         Refusal = "a message is too long"
	TooManyRecords  Refusal = "its index has too many records"
	TooLarge        Refusal = "its index is too large"
	NameTooLong     Refusal = "a record's name is too long"
	TooManyFolders  Refusal = "it shares too many folders"
	TooManyDevices  Refusal = "it shares the folder with too many devices"
	BadMessage      Refusal = "a message can't be read"
	SequenceFalls   Refusal = "sequences in its index don't rise"
	WrongLength     Refusal = "an answer hasn't the length that was asked for"
	TooLate         Refusal = "it takes too long"
	NotWhole        Refusal = "its index isn't whole"
	NotShared       Refusal = "it doesn't share the folder with the observer"
	Paused          Refusal = "the folder is paused there"
	OtherType       Refusal = "the folder is of a type there that this program doesn't know"
	EncryptedFolder Refusal = "the folder is encrypted there, and no password is given"
	OtherPassword   Refusal = "the folder is encrypted there with another password than the one that is given"
	Closed          Refusal = "the connection is closed"

	EncryptedForObserver Refusal = "the device encrypts the folder for the observer: have it share the folder without a password"
)
