package part

import "google.golang.org/protobuf/encoding/protowire"

// The numbers of the fields of what a part has of a name. A record is a FileInfo without its name and blocks (BEP, 'Fields (FileInfo)'), and so is a
// node. What BEP has no field for has a number from 2000 on.
const (
	nameName      protowire.Number = 1
	nameOwn       protowire.Number = 2 // a record
	nameView      protowire.Number = 3 // as often as there are views
	nameDisk      protowire.Number = 4 // a node
	nameOut       protowire.Number = 5 // as often as there are reasons
	nameReceiving protowire.Number = 6
	nameDiffer    protowire.Number = 7
	nameNotRead   protowire.Number = 8
	nameMoved     protowire.Number = 9 // as often as there are kinds

	viewPlace  protowire.Number = 1
	viewSame   protowire.Number = 2
	viewRecord protowire.Number = 3

	outKind  protowire.Number = 1
	outWhy   protowire.Number = 2
	outBytes protowire.Number = 3
	outBelow protowire.Number = 4

	differCount    protowire.Number = 1
	differRange    protowire.Number = 2 // as often as there are ranges
	differRecorded protowire.Number = 3
	differFound    protowire.Number = 4

	rangeFirst protowire.Number = 1
	rangeLast  protowire.Number = 2

	recordHash  protowire.Number = 2000 // the SHA-256 of the hashes of the blocks: it is there where there is a content
	recordLocal protowire.Number = 2001 // a version

	nodeContent protowire.Number = 2002 // as often as there are block sizes
	nodeDiffer  protowire.Number = 2003
	nodeLost    protowire.Number = 2004
	nodeUnread  protowire.Number = 2005
	nodeStamp   protowire.Number = 2006
	nodeLink    protowire.Number = 2007

	contentSize      protowire.Number = 1
	contentBlockSize protowire.Number = 2
	contentHash      protowire.Number = 3
)
