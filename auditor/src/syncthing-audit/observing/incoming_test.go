package observing

import (
	"net"
	"path/filepath"
	"sync"
	"syscall"
	"testing"
	"time"

	"syncthing-audit/wire"
)

// failingListener fails some times, and then waits until it is closed.
type failingListener struct {
	net.Listener
	fails   int
	waits   chan struct{} // closed once it waits
	isEnded chan struct{}
}

func (f *failingListener) Accept() (net.Conn, error) {
	if f.fails > 0 {
		f.fails--
		return nil, &net.OpError{Op: "accept", Net: "tcp", Err: syscall.EMFILE}
	}
	close(f.waits)
	<-f.isEnded
	return nil, net.ErrClosed
}

// Want of descriptors passes: devices that connect later are taken all the same, and until then it isn't tried at once again. A listener that is closed ends it.
func TestAcceptingGoesOn(t *testing.T) {
	listener := &failingListener{fails: 3, waits: make(chan struct{}), isEnded: make(chan struct{})}
	begin, ended := time.Now(), make(chan struct{})
	go func() {
		(&observing{incoming: listener}).accept()
		close(ended)
	}()
	select {
	case <-listener.waits:
	case <-ended:
		t.Fatal("it takes no connection any more")
	case <-time.After(20 * time.Second):
		t.Fatal("it hangs")
	}
	if waited := time.Since(begin); waited < 3*pauseOfAccepting {
		t.Errorf("it waits %v alone for three pauses", waited)
	}
	close(listener.isEnded)
	<-ended
}

// endlessListener gives connections on which nobody says anything.
type endlessListener struct {
	net.Listener
	mutex   sync.Mutex
	ends    []net.Conn
	isEnded bool
}

func (e *endlessListener) Accept() (net.Conn, error) {
	e.mutex.Lock()
	defer e.mutex.Unlock()
	if e.isEnded {
		return nil, net.ErrClosed
	}
	near, far := net.Pipe()
	e.ends = append(e.ends, far)
	return near, nil
}

func (e *endlessListener) count() int {
	e.mutex.Lock()
	defer e.mutex.Unlock()
	return len(e.ends)
}

// end ends all connections, and gives no more.
func (e *endlessListener) end() {
	e.mutex.Lock()
	defer e.mutex.Unlock()
	e.isEnded = true
	for _, end := range e.ends {
		end.Close()
	}
}

// Of whoever connects and says nothing so many are heard at once, and no more.
func TestHowManyConnectionsBegin(t *testing.T) {
	observer, err := wire.Create(filepath.Join(t.TempDir(), "observer"))
	if err != nil {
		t.Fatal(err)
	}
	listener, ended := &endlessListener{}, make(chan struct{})
	go func() {
		(&observing{incoming: listener, observer: observer}).accept()
		close(ended)
	}()
	for end := time.Now().Add(10 * time.Second); listener.count() <= mostIncoming && time.Now().Before(end); {
		time.Sleep(time.Millisecond)
	}
	time.Sleep(50 * time.Millisecond)
	if count := listener.count(); count != mostIncoming+1 { // one waits for its turn
		t.Errorf("%d connections are taken", count)
	}
	listener.end()
	<-ended
}
