// Package budget chooses the names whose bytes an observer asks for, where there is no time for all: those that were asked for longest ago.
package budget

import (
	"context"
	"os"

	"github.com/syndtr/goleveldb/leveldb"
	"syncthing-audit/history"
)

// Plan says whose bytes are asked for. A name is asked for on all devices that record a file there, or on none: so what is told of who has which bytes
// is of one moment.
type Plan struct {
	places  []Place
	history *history.History // while it is made
	chosen  *leveldb.DB      // by keyOf
	room    string
	Waiting []history.Waiting // of each folder at each device, what isn't asked for now
}

// Asked is what a plan is made for.
type Asked struct {
	Bytes   int64                          // how many, of all devices together; the last file may go over them
	IsFault func(folder, name string) bool // whether something was wrong with a name before: such names come first
	Room    string                         // a directory for what is chosen
}

// Make makes a plan for these places, by a history.
func Make(ctx context.Context, by *history.History, places []Place, asked Asked) (*Plan, error) {
	room, err := os.MkdirTemp(asked.Room, "budget-")
	if err != nil {
		return nil, err
	}
	plan := &Plan{places: places, history: by, room: room, Waiting: []history.Waiting{}}
	if plan.chosen, err = leveldb.OpenFile(room, nil); err == nil {
		err = plan.choose(ctx, asked)
	}
	if err != nil {
		plan.Close()
		return nil, err
	}
	return plan, nil
}

// Close lets go of a plan.
func (p *Plan) Close() {
	if p.chosen != nil {
		p.chosen.Close()
	}
	os.RemoveAll(p.room)
}

// Has says whether the bytes of a file that is recorded under a name are asked for.
func (p *Plan) Has(folder, name string) (bool, error) { return p.chosen.Has(keyOf(folder, name), nil) }

func keyOf(folder, name string) []byte { return append(append([]byte(folder), 0), name...) }

// choose counts what waits how long, and then chooses names in the order of folders and names, as far as their turn and the bytes go.
func (p *Plan) choose(ctx context.Context, asked Asked) error {
	faults, others, first := &queue{costs: map[int64]int64{}}, &queue{costs: map[int64]int64{}}, &large{most: asked.Bytes}
	queueOf := func(folder string, name *name, isFault bool) *queue {
		if isFault && name.bytes <= asked.Bytes/2 {
			return faults
		}
		return others
	}
	err := p.eachName(ctx, func(folder string, name *name) error {
		isFault := asked.IsFault(folder, name.name)
		first.see(folder, name, isFault)
		queueOf(folder, name, isFault).add(name)
		return nil
	})
	if err != nil {
		return err
	}
	left := asked.Bytes - first.takeFrom(others)
	others.limit(left - faults.limit(left/2))
	var batch leveldb.Batch
	counts := newCounts(p.places)
	err = p.eachName(ctx, func(folder string, name *name) error {
		if !first.is(folder, name) && !queueOf(folder, name, asked.IsFault(folder, name.name)).takes(name) {
			counts.wait(name)
			return nil
		}
		batch.Put(keyOf(folder, name.name), nil)
		if batch.Len() < mostAtOnce {
			return nil
		}
		defer batch.Reset()
		return p.chosen.Write(&batch, nil)
	})
	if err == nil {
		err = p.chosen.Write(&batch, nil)
	}
	p.Waiting = counts.told()
	return err
}

// mostAtOnce is how many names are written at once.
const mostAtOnce = 10000

// Keep keeps that the names were asked for at a time, in these folders at these devices.
func (p *Plan) Keep(to *history.History, at int64, isOf func(folder string, device uint64) bool) error {
	for _, place := range p.places {
		if !isOf(place.Folder, place.Device) {
			continue
		}
		if err := p.keepOf(to, place, at); err != nil {
			return err
		}
	}
	return nil
}

// keepOf keeps it of one folder at one device. What isn't recorded any more is forgotten.
func (p *Plan) keepOf(to *history.History, place Place, at int64) error {
	writer := to.AskedWriter(place.Folder, place.Device)
	defer writer.Release()
	err := place.eachFile(context.Background(), to, func(file file) error {
		is, err := p.Has(place.Folder, file.name)
		if err != nil {
			return err
		}
		if !is {
			return writer.Stay(file.name)
		}
		return writer.Put(file.name, history.AskedFor{At: at, Sequence: file.sequence})
	})
	if err != nil {
		return err
	}
	return writer.End()
}
