package wire

import (
	"crypto/sha256"
	"crypto/tls"
	"encoding/binary"
	"hash/adler32"
	"net"
	"path/filepath"
	"sync"
	"testing"
	"time"

	"github.com/pierrec/lz4"
	"github.com/syncthing/syncthing/lib/protocol"
	"github.com/syncthing/syncthing/lib/tlsutil"
	"syncthing-audit/message"
	"syncthing-audit/request"
)

// file is a record that a fake device tells, as far as tests differ in it.
type file struct {
	name      string
	data      string
	sequence  uint64
	deleted   bool
	directory bool
}

// text gives the record as it is sent.
func (f file) text() []byte {
	text := message.AppendText(nil, message.FileName, []byte(f.name))
	text = message.AppendNumber(text, message.FileModifiedS, 1700000000)
	text = message.AppendNumber(text, message.FileModifiedBy, 7)
	text = message.AppendNumber(text, message.FileSequence, f.sequence)
	counter := message.AppendNumber(message.AppendNumber(nil, message.CounterID, 7), message.CounterValue, 1)
	text = message.AppendText(text, message.FileVersion, message.AppendText(nil, message.VersionCounter, counter))
	if f.deleted {
		return message.AppendNumber(text, message.FileDeleted, 1)
	}
	if f.directory {
		return message.AppendNumber(text, message.FileType, uint64(protocol.FileInfoTypeDirectory))
	}
	text = message.AppendNumber(text, message.FileSize, uint64(len(f.data)))
	for offset := 0; offset == 0 || offset < len(f.data); offset += protocol.MinBlockSize {
		part := f.data[offset:min64(offset+protocol.MinBlockSize, len(f.data))]
		sum := sha256.Sum256([]byte(part))
		block := message.AppendNumber(message.AppendNumber(nil, message.BlockOffset, uint64(offset)), message.BlockSize, uint64(len(part)))
		text = message.AppendText(text, message.FileBlock, message.AppendText(block, message.BlockHash, sum[:]))
	}
	return text
}

func min64(a, b int) int {
	if a < b {
		return a
	}
	return b
}

// indexOf gives a message of an index.
func indexOf(folder string, files ...file) []byte {
	text := message.AppendText(nil, indexFolder, []byte(folder))
	for _, file := range files {
		text = message.AppendText(text, indexFile, file.text())
	}
	return text
}

// fake is a device that speaks the protocol as a test has it.
type fake struct {
	id          protocol.DeviceID
	certificate tls.Certificate
	listener    net.Listener
	stream      *tls.Conn
	writing     sync.Mutex

	recorded map[string]string // by which Syncthing would look for a recorded hash
	disk     map[string]string
	ignored  map[string]bool
	noWeak   bool              // it knows no weak hashes
	after    func(request int) // called before each request is answered
	slower   time.Duration     // how many times longer it pauses than it is asked for
	lie      func(offset int64, request int) (code uint64)
	hears    func(offset, size int64) (code uint64) // called with each request; another code than none is the answer
	script   func(*fake)
	mutex    sync.Mutex
	rescans  []string // names that were asked for with a recorded hash
	requests int
	heard    []kind
	isOver   bool          // the connection is ended
	over     chan struct{} // closed once the script is over
}

// certificateOfFakes is one of all fake devices: to make one takes a while.
var certificateOfFakes struct {
	once sync.Once
	is   tls.Certificate
	err  error
}

// newFake makes a device that runs a script on the first connection.
func newFake(t *testing.T, script func(*fake)) *fake {
	t.Helper()
	certificateOfFakes.once.Do(func() { certificateOfFakes.is, certificateOfFakes.err = tlsutil.NewCertificateInMemory("syncthing", 1) })
	if certificateOfFakes.err != nil {
		t.Fatal(certificateOfFakes.err)
	}
	certificate := certificateOfFakes.is
	listener, err := net.Listen("tcp", "127.0.0.1:0")
	if err != nil {
		t.Fatal(err)
	}
	device := &fake{id: protocol.NewDeviceID(certificate.Certificate[0]), certificate: certificate, listener: listener, script: script, slower: 1, over: make(chan struct{})}
	go func() {
		defer close(device.over)
		raw, err := listener.Accept()
		if err != nil {
			return
		}
		defer raw.Close()
		device.settle()
		device.stream = tls.Server(raw, &tls.Config{Certificates: []tls.Certificate{certificate}, ClientAuth: tls.RequireAnyClientCert,
			NextProtos: []string{"bep/1.0"}, InsecureSkipVerify: true})
		device.script(device)
	}()
	t.Cleanup(func() { listener.Close(); <-device.over })
	return device
}

// settle has all that a test did with the device before it calls this be done for whoever calls it later: Go knows of no connection in between.
func (f *fake) settle() {
	f.mutex.Lock()
	defer f.mutex.Unlock()
}

// hello exchanges Hellos.
func (f *fake) hello() {
	body := message.AppendText(message.AppendText(nil, helloName, []byte("fake")), helloVersion, []byte("v0"))
	head := binary.BigEndian.AppendUint32(nil, protocol.HelloMessageMagic)
	f.stream.Write(append(binary.BigEndian.AppendUint16(head, uint16(len(body))), body...))
	_, _ = readHello(f.stream, 1000)
}

// write sends a message, compressed or not.
func (f *fake) write(what kind, body []byte, compressed bool) {
	f.writing.Lock()
	defer f.writing.Unlock()
	if !compressed {
		f.stream.Write(frameOf(what, body))
		return
	}
	packed := make([]byte, lz4.CompressBlockBound(len(body))+4)
	binary.BigEndian.PutUint32(packed, uint32(len(body)))
	length, err := lz4.CompressBlock(body, packed[4:], nil)
	if err != nil || length == 0 {
		panic("a test's message can't be compressed")
	}
	header := message.AppendNumber(message.AppendNumber(nil, headerType, uint64(what)), headerCompression, compressionLZ4)
	text := append(binary.BigEndian.AppendUint16(nil, uint16(len(header))), header...)
	text = binary.BigEndian.AppendUint32(text, uint32(length+4))
	f.stream.Write(append(text, packed[:length+4]...))
}

// config gives the device's ClusterConfig: itself, the observer and another device.
func (f *fake) config(folder string, observer protocol.DeviceID, id, sequence uint64, more ...func([]byte) []byte) []byte {
	own := message.AppendText(nil, deviceID, f.id[:])
	own = message.AppendNumber(message.AppendNumber(own, deviceSequence, sequence), deviceIndexID, id)
	other := protocol.DeviceID{1}
	known := message.AppendNumber(message.AppendNumber(message.AppendText(nil, deviceID, other[:]), deviceSequence, 5), deviceIndexID, 99)
	text := message.AppendText(nil, folderID, []byte(folder))
	text = message.AppendText(message.AppendText(text, folderDevice, own), folderDevice, known)
	text = message.AppendText(text, folderDevice, message.AppendText(nil, deviceID, observer[:]))
	for _, change := range more {
		text = change(text)
	}
	return message.AppendText(message.AppendText(nil, configFolder, message.AppendText(nil, folderID, []byte("other"))), configFolder, text)
}

// pause waits for a time.
func (f *fake) pause(usual time.Duration) { time.Sleep(usual * f.slower) }

// isThere says whether the connection isn't ended yet.
func (f *fake) isThere() bool {
	f.mutex.Lock()
	defer f.mutex.Unlock()
	return !f.isOver
}

// serve answers until the connection ends, as Syncthing's model does.
func (f *fake) serve() {
	for {
		what, text, err := readFrame(f.stream, 1<<20, func() {})
		if err != nil {
			f.mutex.Lock()
			defer f.mutex.Unlock()
			f.isOver = true
			return
		}
		f.mutex.Lock()
		f.heard = append(f.heard, what)
		f.mutex.Unlock()
		if what == kindRequest {
			go f.answer(text)
		}
	}
}

func (f *fake) answer(text []byte) {
	var id, size, weak uint64
	var offset int64
	var name string
	var hash []byte
	_ = message.Each(text, func(field message.Field) error {
		switch field.Number {
		case request.FieldOfID:
			id = field.Value
		case request.FieldOfName:
			name = string(field.Text)
		case request.FieldOfOffset:
			offset = int64(field.Value)
		case request.FieldOfSize:
			size = field.Value
		case request.FieldOfHash:
			hash = field.Text
		case request.FieldOfWeakHash:
			weak = field.Value
		}
		return nil
	})
	data, code := f.give(name, offset, int(size), hash, uint32(weak))
	f.write(kindResponse, message.AppendNumber(message.AppendText(message.AppendNumber(nil, responseID, id), responseData, data), responseCode, code), false)
}

// give does what lib/model does with a request: fills up behind the end with what a buffer had, and takes a recorded hash that isn't that of the
// bytes for rot that is to be scanned.
func (f *fake) give(name string, offset int64, size int, hash []byte, weak uint32) ([]byte, uint64) {
	f.mutex.Lock()
	defer f.mutex.Unlock()
	if f.requests++; f.after != nil {
		f.after(f.requests)
	}
	if f.hears != nil {
		if code := f.hears(offset, int64(size)); code != codeNone {
			return nil, code
		}
	}
	if f.lie != nil {
		return make([]byte, size), f.lie(offset, f.requests)
	}
	if f.ignored[name] {
		return nil, codeInvalidFile
	}
	data, isThere := f.disk[name]
	if !isThere {
		return nil, codeNoSuchFile
	}
	read := ""
	if offset < int64(len(data)) {
		read = data[offset:min64(int(offset)+size, len(data))]
	}
	sum := sha256.Sum256([]byte(read))
	if len(hash) > 0 && !(weak != 0 && !f.noWeak && adler32.Checksum([]byte(read)) == weak) && string(hash) != string(sum[:]) {
		if f.isRecorded(name, offset, hash) {
			f.rescans = append(f.rescans, name)
		}
		return nil, codeNoSuchFile
	}
	text := []byte(f.recorded[name]) // a stale buffer at its worst: the recorded bytes
	if offset < int64(len(text)) {
		text = text[offset:]
	} else {
		text = nil
	}
	text = append(text, make([]byte, size)...)[:size]
	copy(text, read)
	return text, codeNone
}

func (f *fake) isRecorded(name string, offset int64, hash []byte) bool {
	data := f.recorded[name]
	from := int(offset) / protocol.MinBlockSize * protocol.MinBlockSize
	if from > len(data) {
		return false
	}
	sum := sha256.Sum256([]byte(data[from:min64(from+protocol.MinBlockSize, len(data))]))
	return string(sum[:]) == string(hash)
}

// newObserver makes an observer in a directory of its own.
func newObserver(t *testing.T) *Observer {
	t.Helper()
	observer, err := Create(filepath.Join(t.TempDir(), "observer"))
	if err != nil {
		t.Fatal(err)
	}
	return observer
}

// short are limits for tests, with time enough on a busy machine.
func short() Limits {
	limits := Usual
	limits.Message, limits.IndexQuiet, limits.Handshake = 1<<20, 20*time.Second, 20*time.Second
	return limits
}
