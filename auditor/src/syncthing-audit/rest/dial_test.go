package rest

import (
	"context"
	"crypto/sha256"
	"errors"
	"net"
	"strings"
	"testing"

	"github.com/syncthing/syncthing/lib/config"
)

// addressElsewhere gives an address of this machine that isn't its loopback one: a key would be seen on the way to such.
func addressElsewhere(t *testing.T) string {
	all, err := net.InterfaceAddrs()
	if err != nil {
		t.Skip(err)
	}
	for _, address := range all {
		if of, is := address.(*net.IPNet); is && !of.IP.IsLoopback() && of.IP.To4() != nil {
			return of.IP.String()
		}
	}
	t.Skip("this machine has no other address")
	return ""
}

// portOfAll gives a port at which this test listens at each address of this machine.
func portOfAll(t *testing.T) string {
	listening, err := net.Listen("tcp", "0.0.0.0:0")
	if err != nil {
		t.Fatal(err)
	}
	t.Cleanup(func() { listening.Close() })
	_, port, _ := net.SplitHostPort(listening.Addr().String())
	return port
}

// Without TLS a connection goes to this machine's loopback address alone; with the certificate that is named it may go anywhere. Where nobody listens there is none.
func TestWhereARemoteIsDialled(t *testing.T) {
	port := portOfAll(t)
	certificate := &[sha256.Size]byte{}
	for _, row := range []struct {
		address     string
		certificate *[sha256.Size]byte
		isStranger  bool
		isMade      bool
	}{
		{net.JoinHostPort("127.0.0.1", port), nil, false, true}, {net.JoinHostPort("127.0.0.1", port), certificate, false, true}, {net.JoinHostPort(addressElsewhere(t), port), nil, true, false},
		{net.JoinHostPort(addressElsewhere(t), port), certificate, false, true}, {"127.0.0.1:1", nil, false, false}, {"127.0.0.1:1", certificate, false, false},
	} {
		connection, err := (&Remote{Address: row.address, Key: "key", Certificate: row.certificate}).dial(context.Background())
		if (connection != nil) != row.isMade || (err == nil) != row.isMade || errors.Is(err, ErrStranger) != row.isStranger {
			t.Errorf("%+v: %v, %v", row, connection, err)
		}
		if connection != nil {
			connection.Close()
		}
	}
}

// leading is a connection between two addresses.
type leading struct {
	net.Conn
	near, far net.Addr
}

func (l leading) LocalAddr() net.Addr  { return l.near }
func (l leading) RemoteAddr() net.Addr { return l.far }

// A connection to another machine is refused, with TLS or without, and one to this machine without TLS where no Syncthing is seen. What it leads to is told.
func TestWhichConnectionsAreRefused(t *testing.T) {
	address := func(text string) net.Addr { return &net.TCPAddr{IP: net.ParseIP(text), Port: 8384} }
	far, here := leading{nil, address("192.0.2.7"), address("192.0.2.8")}, leading{nil, address("127.0.0.1"), address("127.0.0.1")}
	for _, row := range []struct {
		connection net.Conn
		isTLS      bool
		told       string
	}{
		{far, false, "leads to 192.0.2.8, which isn't this machine"}, {far, true, "leads to 192.0.2.8, which isn't this machine"}, {here, true, ""},
		{here, false, "the API key isn't sent to 127.0.0.1:8384: it isn't seen whose program listens there"},
	} {
		asked := Syncthing{Home: homeOf(t), GUI: config.GUIConfiguration{RawUseTLS: row.isTLS}}
		if err := asked.check(row.connection); (err == nil) != (row.told == "") || err != nil && !strings.Contains(err.Error(), row.told) {
			t.Errorf("%+v: %v", row, err)
		}
	}
	about, _ := keysAt(t, "tcp")
	connection, err := net.Dial("tcp", about.RawAddress)
	if err != nil {
		t.Fatal(err)
	}
	defer connection.Close()
	begin := "the API key isn't sent to " + about.RawAddress + ": no Syncthing runs on the home's index"
	if err := (Syncthing{Home: homeOf(t), GUI: about}).check(connection); err == nil || !strings.HasPrefix(err.Error(), begin) {
		t.Error(err)
	}
}
