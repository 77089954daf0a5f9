package message

import "google.golang.org/protobuf/encoding/protowire"

// The numbers of the fields of a FileInfo, of its blocks and of its version (BEP, 'Fields (FileInfo)').
const (
	FileName          protowire.Number = 1
	FileType          protowire.Number = 2
	FileSize          protowire.Number = 3
	FilePermissions   protowire.Number = 4
	FileModifiedS     protowire.Number = 5
	FileDeleted       protowire.Number = 6
	FileInvalid       protowire.Number = 7
	FileNoPermissions protowire.Number = 8
	FileVersion       protowire.Number = 9
	FileSequence      protowire.Number = 10
	FileModifiedNs    protowire.Number = 11
	FileModifiedBy    protowire.Number = 12
	FileBlockSize     protowire.Number = 13
	FileBlock         protowire.Number = 16
	FileTarget        protowire.Number = 17
	FileBlocksHash    protowire.Number = 18
	FileEncrypted     protowire.Number = 19

	BlockOffset protowire.Number = 1
	BlockSize   protowire.Number = 2
	BlockHash   protowire.Number = 3
	BlockWeak   protowire.Number = 4

	VersionCounter protowire.Number = 1
	CounterID      protowire.Number = 1
	CounterValue   protowire.Number = 2
)
