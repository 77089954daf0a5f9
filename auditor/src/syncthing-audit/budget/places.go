package budget

import (
	"context"
	"errors"
	"sort"

	"syncthing-audit/choice"
	"syncthing-audit/device"
	"syncthing-audit/history"
	"syncthing-audit/wire"
)

// Place is a folder at a device: what it records there, and when its files were asked for.
type Place struct {
	Folder string
	Device uint64
	Index  *wire.Index
	Names  choice.Names // of which files may be asked for
}

// file is a file that is recorded in a place.
type file struct {
	name     string
	bytes    int64
	sequence int64
	at       int64 // when it was asked for last, in seconds since 1970; 0 where its record is a newer one
}

// name is a name in a folder, with its files.
type name struct {
	name  string
	files []placed
	bytes int64
	at    int64 // the longest ago
}

// placed is a file with the place that it is in.
type placed struct {
	file
	at int // among the places
}

// eachFile gives the files of a place, rising by name, with when they were asked for by a history. What has no bytes isn't given: it costs nothing, and
// is always asked for.
func (p *Place) eachFile(ctx context.Context, by *history.History, take func(file) error) error {
	before := by.AskedReader(p.Folder, p.Device)
	defer before.Release()
	return p.Index.Each(func(entry device.Entry) error {
		if ctx.Err() != nil {
			return ctx.Err()
		}
		if !HasBytes(entry) || !p.Names.Has(p.Folder, entry.Name) {
			return nil
		}
		next := file{name: entry.Name, bytes: entry.Record.Content.Size, sequence: entry.Record.Sequence}
		asked, is, err := before.Of(entry.Name)
		if err != nil {
			return err
		}
		if is && asked.Sequence == next.sequence {
			next.at = asked.At
		}
		return take(next)
	})
}

// HasBytes says whether bytes are recorded under a name.
func HasBytes(entry device.Entry) bool {
	return entry.Record != nil && !entry.Record.Deleted && entry.Record.Content != nil && entry.Record.Content.Size > 0
}

// eachName gives the names of all folders, rising by folder and name.
func (p *Plan) eachName(ctx context.Context, take func(folder string, at *name) error) error {
	folders := map[string][]int{}
	ids := []string{}
	for at, place := range p.places {
		if folders[place.Folder] == nil {
			ids = append(ids, place.Folder)
		}
		folders[place.Folder] = append(folders[place.Folder], at)
	}
	sort.Strings(ids)
	for _, id := range ids {
		if err := p.mergeFolder(ctx, folders[id], func(name *name) error { return take(id, name) }); err != nil {
			return err
		}
	}
	return nil
}

// source gives the files of a place one by one.
type source struct {
	files chan file
	err   chan error // one is there at the end
	next  file
	isEnd bool
	at    int
}

// advance goes to the next file.
func (s *source) advance() error {
	next, is := <-s.files
	if s.next, s.isEnd = next, !is; s.isEnd {
		return <-s.err
	}
	return nil
}

// mergeFolder gives the names of a folder, rising.
func (p *Plan) mergeFolder(ctx context.Context, places []int, take func(*name) error) error {
	ctx, cancel := context.WithCancel(ctx)
	defer cancel()
	sources := []*source{}
	for _, at := range places {
		from := &source{files: make(chan file, 256), err: make(chan error, 1), at: at}
		sources = append(sources, from)
		go func(place Place) {
			from.err <- place.eachFile(ctx, p.history, func(file file) error {
				select {
				case from.files <- file:
					return nil
				case <-ctx.Done():
					return ctx.Err()
				}
			})
			close(from.files)
		}(p.places[at])
	}
	err := merge(sources, take)
	cancel()
	for _, source := range sources {
		for range source.files { // until it is at its end: it reads what the caller may close
		}
	}
	return err
}

// errNoMore ends a merge.
var errNoMore = errors.New("no more")

// merge gives the names of sources, rising.
func merge(sources []*source, take func(*name) error) error {
	for _, source := range sources {
		if err := source.advance(); err != nil {
			return err
		}
	}
	for {
		least, err := nextName(sources)
		if err == errNoMore {
			return nil
		}
		if err == nil {
			err = take(least)
		}
		if err != nil {
			return err
		}
	}
}

// nextName takes the least name of all sources.
func nextName(sources []*source) (*name, error) {
	var least *string
	for _, source := range sources {
		if !source.isEnd && (least == nil || source.next.name < *least) {
			name := source.next.name
			least = &name
		}
	}
	if least == nil {
		return nil, errNoMore
	}
	first := &name{name: *least}
	for _, source := range sources {
		if source.isEnd || source.next.name != *least {
			continue
		}
		if len(first.files) == 0 || source.next.at < first.at {
			first.at = source.next.at
		}
		first.bytes += source.next.bytes
		first.files = append(first.files, placed{source.next, source.at})
		if err := source.advance(); err != nil {
			return nil, err
		}
	}
	return first, nil
}
