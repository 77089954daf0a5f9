//go:build !go1.21

package main

import (
	"github.com/minio/sha256-simd"
	"syncthing-audit/disk"
)

// Before Go 1.21, the package that Syncthing's own takes uses a processor's instructions for SHA-256, where it has some.
func init() { disk.NewSum = sha256.New }
