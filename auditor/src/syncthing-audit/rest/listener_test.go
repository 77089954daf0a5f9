package rest

import (
	"encoding/pem"
	"errors"
	"net"
	"net/http"
	"net/http/httptest"
	"os"
	"path/filepath"
	"strings"
	"syscall"
	"testing"

	"github.com/syncthing/syncthing/lib/config"
)

// lockIn makes an index in a directory, and holds its lock as a Syncthing that runs does.
func lockIn(t *testing.T, directory string) {
	database := filepath.Join(directory, "index-v0.14.0.db")
	if err := os.MkdirAll(database, 0o700); err != nil {
		t.Fatal(err)
	}
	lock, err := os.Create(filepath.Join(database, "LOCK"))
	if err != nil {
		t.Fatal(err)
	}
	t.Cleanup(func() { lock.Close() })
	if err := syscall.Flock(int(lock.Fd()), syscall.LOCK_EX|syscall.LOCK_NB); err != nil {
		t.Fatal(err)
	}
}

// homeOf makes a home with a configuration of which nobody reads anything.
func homeOf(t *testing.T) string {
	home := t.TempDir()
	if err := os.WriteFile(filepath.Join(home, "config.xml"), nil, 0o600); err != nil {
		t.Fatal(err)
	}
	return home
}

// homeInUse makes a home on which a Syncthing seems to run.
func homeInUse(t *testing.T) string {
	home := homeOf(t)
	lockIn(t, home)
	return home
}

// keysAt gives a server at an address, and how many keys it was sent.
func keysAt(t *testing.T, network string) (config.GUIConfiguration, *int) {
	count := 0
	server := httptest.NewUnstartedServer(http.HandlerFunc(func(_ http.ResponseWriter, asked *http.Request) { count += len(asked.Header["X-Api-Key"]) }))
	about := config.GUIConfiguration{APIKey: "key"}
	if network == "unix" {
		room, err := os.MkdirTemp("", "gui") // a socket's path has at most 107 bytes
		if err != nil {
			t.Fatal(err)
		}
		t.Cleanup(func() { os.RemoveAll(room) })
		about.RawAddress = filepath.Join(room, "gui")
		listening, err := net.Listen(network, about.RawAddress)
		if err != nil {
			t.Fatal(err)
		}
		server.Listener.Close()
		server.Listener = listening
	} else {
		about.RawAddress = server.Listener.Addr().String()
	}
	server.Start()
	t.Cleanup(server.Close)
	return about, &count
}

// Without TLS the key goes to whoever listens where a lock is held, the home's or one that the listener has open, and to nobody else.
func TestWhoIsSentTheKey(t *testing.T) {
	for _, row := range []struct {
		why     string
		prepare func(t *testing.T, home string)
		keys    int
	}{
		{"nobody runs", func(*testing.T, string) {}, 0},
		{"the home's index is in use", lockIn, 1},
		{"the listener has an index elsewhere open", func(t *testing.T, _ string) { lockIn(t, t.TempDir()) }, 1},
	} {
		for _, network := range []string{"tcp", "unix"} {
			t.Run(network+": "+row.why, func(t *testing.T) {
				home := homeOf(t)
				about, keys := keysAt(t, network)
				row.prepare(t, home)
				err := Syncthing{Home: home, GUI: about}.Scan("docs", "")
				if *keys != row.keys || (err == nil) != (row.keys == 1) || err != nil && !errors.Is(err, ErrStranger) {
					t.Errorf("%d keys, %v", *keys, err)
				}
			})
		}
	}
}

// A listener is to be of the home's user, or root's, also where the home's index is in use.
func TestWhoseListener(t *testing.T) {
	for _, row := range []struct {
		user   int
		isHeld bool
		told   string
	}{
		{1000, true, ""},
		{0, true, ""},
		{1, true, "a program of user 1 listens there, and the home is of user 1000"},
		{1001, true, "a program of user 1001 listens there, and the home is of user 1000"},
		{1000, false, "no Syncthing runs on the home's index"},
		{0, false, "no Syncthing runs on the home's index"},
	} {
		err := listener{row.user, func() []int { return nil }}.check(1000, row.isHeld)
		if (err == nil) != (row.told == "") || err != nil && !strings.Contains(err.Error(), row.told) {
			t.Errorf("%v: %v", row, err)
		}
	}
}

// Who listens is seen by the kernel's tables: the user and the process, at each kind of address.
func TestWhoListens(t *testing.T) {
	for _, row := range [][2]string{{"tcp", "127.0.0.1:0"}, {"tcp", "[::1]:0"}, {"unix", filepath.Join(t.TempDir(), "s")}} {
		listening, err := net.Listen(row[0], row[1])
		if err != nil {
			t.Logf("%v isn't tried: %v", row, err)
			continue
		}
		defer listening.Close()
		connection, err := net.Dial(row[0], listening.Addr().String())
		if err != nil {
			t.Fatal(err)
		}
		defer connection.Close()
		all, err := listenersOf(connection)
		if err != nil || len(all) != 1 || all[0].user != os.Getuid() {
			t.Fatalf("%v: %+v, %v", row, all, err)
		}
		if processes := all[0].processes(); len(processes) != 1 || processes[0] != os.Getpid() {
			t.Errorf("%v: processes %v, not %d", row, processes, os.Getpid())
		}
	}
	if all, err := listenersAt(&net.TCPAddr{IP: net.ParseIP("127.0.0.1"), Port: 1}); err != nil || len(all) > 0 {
		t.Errorf("%v, %v", all, err)
	}
}

// The user of a home is that of its configuration.
func TestTheUserOfAHome(t *testing.T) {
	path := filepath.Join(homeOf(t), "config.xml")
	if owner, err := ownerOf(path); err != nil || owner != os.Getuid() {
		t.Errorf("%d, %v", owner, err)
	}
	if _, err := ownerOf(path + "x"); err == nil {
		t.Error("what isn't there has a user")
	}
	if os.Getuid() != 0 {
		return
	}
	if err := os.Chown(path, 1234, 0); err != nil {
		t.Fatal(err)
	}
	if owner, err := ownerOf(path); err != nil || owner != 1234 {
		t.Errorf("%d, %v", owner, err)
	}
}

// The certificate of whoever answers is the home's to the byte.
func TestCertificates(t *testing.T) {
	path := filepath.Join(t.TempDir(), "https-cert.pem")
	right := string(pem.EncodeToMemory(&pem.Block{Type: "CERTIFICATE", Bytes: []byte("right")}))
	for _, row := range []struct {
		text string
		raw  [][]byte
		told string
	}{
		{right, [][]byte{[]byte("right")}, ""}, {right, [][]byte{[]byte("right"), []byte("x")}, ""}, {right, [][]byte{[]byte("x"), []byte("right")}, "isn't this home's Syncthing"},
		{right, nil, "isn't this home's Syncthing"}, {"none", [][]byte{[]byte("right")}, "isn't this home's Syncthing"}, {"none", nil, "isn't this home's Syncthing"},
		{"", nil, "no such file"},
	} {
		if err := os.WriteFile(path, []byte(row.text), 0o600); err != nil {
			t.Fatal(err)
		}
		at := path
		if row.text == "" {
			at += "x"
		}
		if err := checkCertificate(at, row.raw); (err == nil) != (row.told == "") || err != nil && !strings.Contains(err.Error(), row.told) {
			t.Errorf("%+v: %v", row, err)
		}
	}
}
