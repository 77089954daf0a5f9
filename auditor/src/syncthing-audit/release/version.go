// Package release says which release the program belongs to, and what is known of its answers.
package release

// Version is that of the release to which the program belongs.
const Version = "0.22.2"
