package directory

import (
	"os"
	"path/filepath"
	"time"
)

// Plain is a directory as the system has it. Names are those that go over the wire: with slashes, and composed where the system takes them apart.
type Plain struct {
	root string
	inside
}

// Open gives the directory at a path.
func Open(path string) (*Plain, error) {
	whole, err := filepath.Abs(path)
	if err != nil {
		return nil, err
	}
	plain := &Plain{rootOf(whole), insideOf(rootOf(whole))}
	about, err := os.Stat(plain.root)
	if err == nil && !about.IsDir() {
		err = &os.PathError{Op: "open", Path: path, Err: errNoDirectory}
	}
	return plain, err
}

// URI gives the directory's path.
func (p *Plain) URI() string { return p.root }

// DirNames gives the names in a directory.
func (p *Plain) DirNames(name string) ([]string, error) {
	names, err := p.inside.DirNames(name)
	for place := range names {
		names[place] = onWire(names[place])
	}
	return names, err
}

// Lstat says what stands under a name.
func (p *Plain) Lstat(name string) (Info, error) {
	about, err := p.About(name)
	if err != nil {
		return nil, err
	}
	return InfoOf(about), nil
}

// InfoOf gives what stands under a name of which the system said this.
func InfoOf(about os.FileInfo) Info {
	if info, is := about.(Info); is {
		return info
	}
	return plainInfo{about}
}

type plainInfo struct{ about os.FileInfo }

func (p plainInfo) IsDir() bool        { return p.about.IsDir() }
func (p plainInfo) IsRegular() bool    { return p.about.Mode().IsRegular() }
func (p plainInfo) IsSymlink() bool    { return p.about.Mode()&os.ModeSymlink != 0 }
func (p plainInfo) Size() int64        { return p.about.Size() }
func (p plainInfo) ModTime() time.Time { return p.about.ModTime() }
func (p plainInfo) About() os.FileInfo { return p.about }

// Permissions gives the permissions as Syncthing records them; 0 where the system has none such.
func (p plainInfo) Permissions() uint32 {
	if !HasPermissions {
		return 0
	}
	return uint32(p.about.Mode().Perm())
}
