// Command overwire asks a running device over the wire, for tests. It writes what it hears and finds as JSON.
//
//	overwire DIRECTORY                          makes the observer's key, and prints its device id
//	overwire DIRECTORY FOLDER DEVICE ADDRESS    asks a device
package main

import (
	"context"
	"encoding/json"
	"fmt"
	"io"
	"os"
	"sort"

	"github.com/syncthing/syncthing/lib/protocol"
	"syncthing-audit/device"
	"syncthing-audit/disk"
	"syncthing-audit/limits"
	"syncthing-audit/part"
	"syncthing-audit/wire"
)

// told is what is told of a device.
type told struct {
	Version   string      `json:"version"`
	Folder    wire.Folder `json:"folder"`
	IndexID   uint64      `json:"index_id,string"`
	Highest   int64       `json:"highest"`
	Names     []name      `json:"names"`
	Asked     int         `json:"asked"`      // how often it asked the observer for bytes
	SinceThen int         `json:"since_then"` // how many records it told when the rest was known
}

// name is what is told of a name.
type name struct {
	Name    part.Bytes    `json:"name"`
	Own     *part.Record  `json:"own,omitempty"`
	Out     *part.LeftOut `json:"out,omitempty"`
	State   wire.State    `json:"state,omitempty"`
	Content *part.Content `json:"content,omitempty"`
	Differ  *part.Differ  `json:"differ,omitempty"`
}

func main() {
	if err := run(os.Args[1:], os.Stdout); err != nil {
		fmt.Fprintln(os.Stderr, "overwire:", err)
		os.Exit(2)
	}
}

func run(words []string, output io.Writer) error {
	if len(words) != 1 && len(words) != 4 {
		return fmt.Errorf("usage: overwire DIRECTORY [FOLDER DEVICE ADDRESS]")
	}
	observer, err := wire.Create(words[0])
	if err != nil {
		return err
	}
	if len(words) == 1 {
		_, err := fmt.Fprintln(output, observer.ID)
		return err
	}
	id, err := protocol.DeviceIDFromString(words[2])
	if err != nil {
		return err
	}
	said, err := ask(observer, words[1], id, words[3])
	if err != nil {
		return err
	}
	return json.NewEncoder(output).Encode(said)
}

// ask asks a device for its index and its bytes, and then, on another connection, for what is new.
func ask(observer *wire.Observer, folder string, id protocol.DeviceID, address string) (*told, error) {
	ctx := context.Background()
	said, index, err := askFirst(ctx, observer, folder, id, address)
	if err != nil {
		return nil, err
	}
	return said, askAgain(ctx, observer, said, id, address, index)
}

// askFirst asks for all.
func askFirst(ctx context.Context, observer *wire.Observer, folder string, id protocol.DeviceID, address string) (*told, *wire.Index, error) {
	connection, err := observer.Dial(ctx, address, id, wire.Look{Folders: []string{folder}}, wire.Usual)
	if err != nil {
		return nil, nil, err
	}
	defer connection.Close()
	shared := connection.Folders[0]
	index, err := shared.Index(ctx)
	if err != nil {
		return nil, nil, err
	}
	said := &told{Version: connection.Hello.Version, Folder: shared.Folder, IndexID: index.ID, Highest: index.Highest}
	said.Names, err = names(ctx, shared, index)
	said.Asked = connection.Asked()
	return said, index, err
}

// askAgain asks for what came since.
func askAgain(ctx context.Context, observer *wire.Observer, to *told, id protocol.DeviceID, address string, known *wire.Index) error {
	kept := wire.NewIndex(known.ID)
	kept.Highest = known.Highest
	look := wire.Look{Folders: []string{to.Folder.ID}, Kept: func(string) (*wire.Index, error) { return kept, nil }}
	connection, err := observer.Dial(ctx, address, id, look, wire.Usual)
	if err != nil {
		return err
	}
	defer connection.Close()
	since, err := connection.Folders[0].Index(ctx)
	if err != nil {
		return err
	}
	count, err := since.Count()
	if err != nil {
		return err
	}
	to.SinceThen = int(count)
	to.Asked += connection.Asked()
	return nil
}

// names gives all names of an index with what is found of them.
func names(ctx context.Context, shared *wire.Shared, index *wire.Index) ([]name, error) {
	found := []name{}
	err := index.Each(func(entry device.Entry) error {
		if limits.CheckName(entry.Name) != nil {
			found = append(found, name{Name: part.Bytes(entry.Name), Out: entry.Out})
		}
		return nil
	})
	if err != nil {
		return nil, err
	}
	err = shared.Bytes(ctx, index, func(device.Entry) (bool, error) { return true, nil }, func(entry device.Entry, bytes wire.Found) error {
		next := name{Name: part.Bytes(entry.Name), Own: entry.Record, Out: entry.Out, State: bytes.State, Differ: bytes.Differ}
		if bytes.Blocks != nil {
			next.Content = &part.Content{Size: bytes.Size, BlockSize: bytes.BlockSize, Hash: disk.HashOf(bytes.Blocks)}
		}
		found = append(found, next)
		return nil
	})
	sort.Slice(found, func(a, b int) bool { return found[a].Name < found[b].Name })
	return found, err
}
