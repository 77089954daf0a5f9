package rest

import (
	"crypto/sha256"
	"fmt"
	"io"
	"net"
	"net/http"
	"net/http/httptest"
	"reflect"
	"strings"
	"sync"
	"testing"

	"syncthing-audit/configured"
	"syncthing-audit/part"
)

// spoken is a Syncthing of a test: what it answers to each question, and which ones came, with their keys.
type spoken struct {
	mutex   sync.Mutex
	answers map[string]string
	asked   []string
}

const idOfDevice = "AEAQCAI-BAEAQCA-AIBAEAQ-CAIBAEC-AQCAIBA-EAQCAIA-BAEAQCA-IBAEAQC"

func (d *spoken) ServeHTTP(to http.ResponseWriter, asked *http.Request) {
	d.mutex.Lock()
	defer d.mutex.Unlock()
	d.asked = append(d.asked, asked.Method+" "+asked.URL.RequestURI()+" "+asked.Header.Get("X-API-Key"))
	text, is := d.answers[strings.TrimPrefix(asked.URL.RequestURI(), "/rest/")]
	switch {
	case asked.Header.Get("X-API-Key") != "key":
		http.Error(to, "Forbidden", http.StatusForbidden)
	case !is:
		http.Error(to, "odd", http.StatusNotFound)
	default:
		io.WriteString(to, text)
	}
}

// usual is what a Syncthing says of a folder that only receives, and at which it fails at names.
func usual() *spoken {
	return &spoken{answers: map[string]string{
		"system/status":                                fmt.Sprintf(`{"myID":%q}`, idOfDevice),
		"config/folders":                               `[{"id":"docs","type":"receiveonly","devices":[{"deviceID":"one"}]}]`,
		"config/folders/a%2Fb":                         `{"id":"a/b","type":"receiveonly","maxConflicts":-1,"ignoreDelete":true,"modTimeWindowS":2,"devices":[{"deviceID":"one"}]}`,
		"config/devices":                               `[{"deviceID":"one","paused":true},{"deviceID":"two","paused":true}]`,
		"db/status?folder=a%2Fb":                       `{"state":"idle","needTotalItems":3,"needBytes":5,"errors":2}`,
		"db/scan?folder=a%2Fb":                         ``,
		"folder/errors?folder=a%2Fb&page=1&perpage=10": `{"errors":[{"path":"x","error":"no room"},{"path":"y","error":"no room"},{"path":"z","error":"more than it says"}]}`,
	}}
}

// served gives the REST API of a device: by https with the device's certificate, or by http.
func served(t *testing.T, of *spoken, isSecure bool) *Remote {
	server := httptest.NewUnstartedServer(of)
	remote := &Remote{Address: server.Listener.Addr().String(), Key: "key"}
	if isSecure {
		server.StartTLS()
		sum := sha256.Sum256(server.Certificate().Raw)
		remote.Certificate = &sum
	} else {
		server.Start()
	}
	t.Cleanup(server.Close)
	return remote
}

// A Syncthing says who it is, what is configured of a folder, what it does there and what it needs, by http on this machine and by https.
func TestWhatARemoteSays(t *testing.T) {
	for _, isSecure := range []bool{false, true} {
		remote := served(t, usual(), isSecure)
		if err := remote.Check(idOfDevice); err != nil {
			t.Fatal(err)
		}
		said, err := remote.Ask("a/b")
		if err != nil {
			t.Fatal(err)
		}
		due := part.Rest{State: part.RestIdle, Wanted: &part.Wanted{Count: part.Count{Names: 3, Bytes: 5}, Errors: 2,
			First: []part.NameError{{Name: "x", Why: "no room"}, {Name: "y", Why: "no room"}}}}
		if !reflect.DeepEqual(said.Rest, due) {
			t.Errorf("%+v", said.Rest)
		}
		folder := &part.Folder{}
		if err := said.Configured.Tell(folder, said.Devices); err != nil || folder.Kind != "receive-only" || folder.TimeWindow != 2 ||
			!reflect.DeepEqual(*folder.Options, part.Options{MaxConflicts: -1, IgnoresDeletions: true, Versions: &part.Versions{Kind: part.VersionsNone}}) || !reflect.DeepEqual(folder.PausedDevices, []string{"one"}) {
			t.Errorf("%+v, %v", folder, err)
		}
		if err := remote.Scan("a/b"); err != nil {
			t.Error(err)
		}
		all, err := remote.Folders()
		if err != nil || len(all) != 1 || !all[0].IsSharedWith("one") || all[0].IsSharedWith("two") {
			t.Errorf("%+v, %v", all, err)
		}
	}
}

// Whoever answers is to be that device, with that certificate and for that key. A paused folder is told as such, and what isn't understood is an error.
func TestWhatIsNoAnswer(t *testing.T) {
	for told, change := range map[string]func(of *spoken, remote *Remote){
		"another device answers there":      func(of *spoken, _ *Remote) { of.answers["system/status"] = `{"myID":"X"}` },
		"it doesn't take the API key":       func(_ *spoken, remote *Remote) { remote.Key = "x" },
		"another certificate":               func(_ *spoken, remote *Remote) { remote.Certificate = &[32]byte{} },
		"refused":                           func(_ *spoken, remote *Remote) { remote.Address = "127.0.0.1:1" },
		"doesn't say it":                    func(of *spoken, _ *Remote) { delete(of.answers, "config/folders/a%2Fb") },
		"for another folder":                func(of *spoken, _ *Remote) { of.answers["config/folders/a%2Fb"] = `{"id":"docs"}` },
		"invalid character":                 func(of *spoken, _ *Remote) { of.answers["config/devices"] = "x" },
		"doesn't say what it does there":    func(of *spoken, _ *Remote) { of.answers["db/status?folder=a%2Fb"] = "{}" },
		"fewer than no names":               func(of *spoken, _ *Remote) { of.answers["db/status?folder=a%2Fb"] = `{"state":"idle","errors":-1}` },
		"this Syncthing doesn't say it, as": func(of *spoken, _ *Remote) { delete(of.answers, "folder/errors?folder=a%2Fb&page=1&perpage=10") },
	} {
		of := usual()
		remote := served(t, of, true)
		change(of, remote)
		err := remote.Check(idOfDevice)
		if err == nil {
			_, err = remote.Ask("a/b")
		}
		if err == nil || !strings.Contains(err.Error(), told) {
			t.Errorf("%s: %v", told, err)
		}
	}
	of := usual()
	of.answers["db/status?folder=a%2Fb"] = `{"state":""}`
	if said, err := served(t, of, true).Ask("a/b"); err != nil || said.Rest.State != part.RestPaused {
		t.Errorf("%+v, %v", said, err)
	}
	if err := served(t, &spoken{}, true).Scan("a/b"); err == nil || !strings.Contains(err.Error(), "folder a/b isn't scanned: Syncthing answers 404 Not Found: odd") {
		t.Error(err)
	}
}

// The key goes to the address that was named, and nowhere else: not with another certificate, not where a redirection leads, and not by http to another
// machine.
func TestWhereAKeyOfARemoteGoes(t *testing.T) {
	of, elsewhere := usual(), usual()
	far := served(t, elsewhere, false)
	leading := httptest.NewServer(http.RedirectHandler("http://"+far.Address+"/rest/system/status", http.StatusTemporaryRedirect))
	defer leading.Close()
	redirected := &Remote{Address: leading.Listener.Addr().String(), Key: "key"}
	if err := redirected.Check(idOfDevice); err == nil || !strings.Contains(err.Error(), "it leads elsewhere") || len(elsewhere.asked) > 0 {
		t.Errorf("%v, %q", err, elsewhere.asked)
	}
	other := served(t, of, true)
	other.Certificate = &[32]byte{1}
	if err := other.Check(idOfDevice); err == nil || len(of.asked) > 0 {
		t.Errorf("%v, %q", err, of.asked)
	}
	plain := served(t, of, true)
	plain.Certificate = nil // http where https is
	if err := plain.Check(idOfDevice); err == nil || len(of.asked) > 0 {
		t.Errorf("%v, %q", err, of.asked)
	}
	t.Setenv("HTTP_PROXY", "http://"+far.Address)
	t.Setenv("HTTPS_PROXY", "http://"+far.Address)
	if err := served(t, of, true).Check(idOfDevice); err != nil || len(elsewhere.asked) > 0 {
		t.Errorf("%v, %q", err, elsewhere.asked)
	}
}

// Without a certificate the key goes to an address of this machine alone, where somebody is seen to listen.
func TestWhereHTTPGoes(t *testing.T) {
	remote := served(t, usual(), false)
	if err := remote.Check(idOfDevice); err != nil {
		t.Error(err)
	}
	everywhere, err := net.Listen("tcp", ":0")
	if err != nil {
		t.Fatal(err)
	}
	defer everywhere.Close()
	_, port, _ := net.SplitHostPort(everywhere.Addr().String())
	if address, err := netAddr("127.0.0.1:" + port); err != nil || checkOwn(address) != nil {
		t.Errorf("%v, %v", err, checkOwn(address))
	}
	for _, at := range []string{"192.0.2.1:" + port, "127.0.0.1:1", "0.0.0.0:1"} {
		address, err := netAddr(at)
		if err != nil {
			t.Fatal(err)
		}
		if err := checkOwn(address); err == nil {
			t.Errorf("%s gets a key", at)
		}
	}
	if address, err := netAddr("127.0.0.1:1"); err != nil || checkOwn(address).Error() != "it isn't seen whose program listens at 127.0.0.1:1: this system has none listed" {
		t.Errorf("%v, %v", err, checkOwn(address))
	}
	none := configured.Folder{Type: "receiveencrypted"}
	if err := none.Tell(&part.Folder{}, nil); err == nil {
		t.Error("what is encrypted is read")
	}
}

func netAddr(at string) (net.Addr, error) { return net.ResolveTCPAddr("tcp", at) }
