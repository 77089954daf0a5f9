package forecast

import "encoding/binary"

// A machine has what the states of one world share: its devices, and a number for each name, record, node and version list. Two states are
// equal if their numbers are. Number 0 is 'nothing' everywhere.
type machine struct {
	devices []Device
	names   []name
	copies  map[copyKey]int

	vectors       [][]Counter
	vectorNumbers map[string]int32
	orders        map[[2]int32]int
	records       []record
	recordNumbers map[record]int32
	nodes         []node
	nodeNumbers   map[node]int32
	lists         []list
	listNumbers   map[string]int32
	sizes         []int64 // of each content
	nameCells     int
	drawn         map[int]bool // names for which something was drawn
	hasPast       bool         // whether states tell what no disk shows
	tied          map[int]bool // names that may get their bytes from another name, and those from which they may
	first         map[int]node // what stood on the disks at first, by their cells
}

// name is a name by its place. Names rise by their bytes; conflict copies that the model makes stand behind all others.
type name struct {
	parent int // -1 where the directory above isn't part of the world, and so is there everywhere
	isCopy bool
	root   int // of a copy that the model made: what it is a copy of; else the name itself
	node   int32
	device int
	holds  Places
	bars   Places
	drops  Places // devices on which something of it goes that .stignore keeps out with (?d)
}

type copyKey struct {
	root   int
	node   int32
	device int
}

// record is a Record by numbers.
type record struct {
	kind    Type
	deleted bool
	flag    Flag
	version int32
	time    int64
	content int32
	target  int32
	mode    int32
}

// node is a Node by numbers. A symlink has no time.
type node struct {
	kind    Type
	time    int64
	content int32
	target  int32
	mode    int32
}

func newMachine(devices []Device) *machine {
	m := &machine{devices: devices, copies: map[copyKey]int{}, vectorNumbers: map[string]int32{}, orders: map[[2]int32]int{},
		recordNumbers: map[record]int32{}, nodeNumbers: map[node]int32{}, listNumbers: map[string]int32{}, drawn: map[int]bool{}, tied: map[int]bool{}, first: map[int]node{}}
	m.vectors, m.records, m.nodes, m.lists, m.sizes = make([][]Counter, 1), make([]record, 1), make([]node, 1), make([]list, 1), make([]int64, 1)
	m.vectorNumbers[""] = 0
	m.nameCells = len(devices) * (4 + len(devices))
	return m
}

func (m *machine) vectorNumber(vector []Counter) int32 {
	key := keyOf(vector)
	number, is := m.vectorNumbers[key]
	if !is {
		number = int32(len(m.vectors))
		m.vectors, m.vectorNumbers[key] = append(m.vectors, vector), number
	}
	return number
}

// order compares two vectors.
func (m *machine) order(a, b int32) int {
	if a == b {
		return equal
	}
	result, is := m.orders[[2]int32{a, b}]
	if !is {
		result = compareVectors(m.vectors[a], m.vectors[b])
		m.orders[[2]int32{a, b}] = result
	}
	return result
}

func (m *machine) recordNumber(entry record) int32 {
	number, is := m.recordNumbers[entry]
	if !is {
		number = int32(len(m.records))
		m.records, m.recordNumbers[entry] = append(m.records, entry), number
	}
	return number
}

func (m *machine) nodeNumber(what node) int32 {
	number, is := m.nodeNumbers[what]
	if !is {
		number = int32(len(m.nodes))
		m.nodes, m.nodeNumbers[what] = append(m.nodes, what), number
	}
	return number
}

func (m *machine) listNumber(entries list) int32 {
	if len(entries) == 0 {
		return 0
	}
	key := make([]byte, 0, 12*len(entries))
	for _, entry := range entries {
		key = binary.LittleEndian.AppendUint32(key, uint32(entry.version))
		key = binary.LittleEndian.AppendUint32(key, uint32(entry.valid))
		key = binary.LittleEndian.AppendUint32(key, uint32(entry.invalid))
	}
	number, is := m.listNumbers[string(key)]
	if !is {
		number = int32(len(m.lists))
		m.lists, m.listNumbers[string(key)] = append(m.lists, entries), number
	}
	return number
}

// copyOf gives the name of a conflict copy of what stood at a name on a device.
func (m *machine) copyOf(root int, what int32, device int) int {
	key := copyKey{root, what, device}
	place, is := m.copies[key]
	if !is {
		place = len(m.names)
		m.names, m.copies[key] = append(m.names, name{parent: m.names[root].parent, isCopy: true, root: root, node: what, device: device}), place
	}
	return place
}

// isBelow says whether a name is below another one.
func (m *machine) isBelow(place, above int) bool {
	for place = m.names[place].parent; place >= 0; place = m.names[place].parent {
		if place == above {
			return true
		}
	}
	return false
}
