package listening

import (
	"net"
	"os"
	"path/filepath"
	"strings"
	"testing"
)

// What listens is read from lines of the kernel's tables, of both kinds.
func TestLinesOfListeners(t *testing.T) {
	const (
		rest     = " 00000000:0000 0A 00000000:00000000 00:00000000 00000000  1000        0 4711 1 0 100 0 0 10 0"
		ready    = " 0100007F:9999 01 00000000:00000000 00:00000000 00000000  1000        0 4711 1 0 100 0 0 10 0"
		noOthers = "00000000000000000000000000000000"
		loopback = "00000000000000000000000001000000"
	)
	at := &net.TCPAddr{IP: net.ParseIP("127.0.0.1"), Port: 0x20C0}
	columns := func(line string, count int) string { return strings.Join(strings.Fields(line)[:count], " ") }
	for line, is := range map[string]bool{
		"0: 0100007F:20C0" + rest:         true,
		"0: 00000000:20C0" + rest:         true,
		"0: " + noOthers + ":20C0" + rest: true,
		"0: " + loopback + ":20C0" + rest: false,
		"0: 0200007F:20C0" + rest:         false,
		"0: 0100007F:20C1" + rest:         false,
		"0: 0100007F:20C0" + ready:        false,
		"0: 0100007F:20C0":                false,
		"0: odd:20C0" + rest:              false,
		"0: 0100007F:x" + rest:            false,
		"0: 0100007F:120C0" + rest:        false,
		"0: 0100007F" + rest:              false,

		"0: 0100007F:20C0" + strings.Replace(rest, "1000", "ann", 1): false,
		columns("0: 0100007F:20C0"+rest, columnOfInode):              false,
		columns("0: 0100007F:20C0"+rest, columnOfInode+1):            true,
		"  sl  local_address rem_address ":                           false,
		"":                                                           false,
	} {
		socket, found := listensAt(line, at)
		if found != is || is && socket != (Socket{1000, "4711"}) {
			t.Errorf("%q: %v, %v", line, socket, found)
		}
	}
	at.IP = net.ParseIP("::1")
	if _, found := listensAt("0: "+loopback+":20C0"+rest, at); !found {
		t.Error("::1 isn't found")
	}
}

// What listens on this machine is found by its address and port, with its user; what is closed isn't.
func TestWhoListensHere(t *testing.T) {
	for _, address := range []string{"127.0.0.1:0", "0.0.0.0:0", "[::1]:0"} {
		listening, err := net.Listen("tcp", address)
		if err != nil {
			t.Log(address, err)
			continue
		}
		at := *listening.Addr().(*net.TCPAddr)
		if at.IP.IsUnspecified() {
			at.IP = net.ParseIP("127.0.0.1")
		}
		found, err := At(&at)
		if err != nil || len(found) != 1 || found[0].User != os.Geteuid() || found[0].Inode == "" || found[0].Inode == "0" {
			t.Errorf("%s: %+v, %v", address, found, err)
		}
		listening.Close()
		if found, err := At(&at); err != nil || len(found) != 0 {
			t.Errorf("%s is closed: %+v, %v", address, found, err)
		}
	}
}

// A table that isn't there has nothing; one that can't be read is an error. All tables count.
func TestTablesOfSockets(t *testing.T) {
	had, room := tables, t.TempDir()
	defer func() { tables = had }()
	const line = "0: 0100007F:20C0 00000000:0000 0A 00000000:00000000 00:00000000 00000000  1000        0 4711 1 0 100 0 0 10 0\n"
	some := filepath.Join(room, "some")
	if err := os.WriteFile(some, []byte("  sl  local_address\n"+line+strings.Replace(line, "4711", "4712", 1)), 0o600); err != nil {
		t.Fatal(err)
	}
	at := &net.TCPAddr{IP: net.ParseIP("127.0.0.1"), Port: 0x20C0}
	for _, row := range []struct {
		tables []string
		count  int
		fails  bool
	}{{nil, 0, false}, {[]string{some}, 2, false}, {[]string{room + "/none", some}, 2, false}, {[]string{some, some}, 4, false}, {[]string{some, room}, 0, true}, {[]string{room + "/none"}, 0, false}} {
		tables = row.tables
		if found, err := At(at); (err != nil) != row.fails || len(found) != row.count || found == nil != row.fails {
			t.Errorf("%v: %+v, %v", row.tables, found, err)
		}
	}
}
