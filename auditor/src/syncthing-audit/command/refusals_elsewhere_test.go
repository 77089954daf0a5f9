package command

// elsewhere are refusals that need more than words and files: why, and what comes to them.
var elsewhere = map[string][]string{
	"'run' starts this program again, and ssh: place_test.go, known_test.go, ssh_test.go, recipe_test.go": {
		"refused: %s has none of the folders that are asked for: run this without it",
		"refused: %s says that it is device %q, which isn't a device id as Syncthing writes it",
		"refused: %s says that it is device %s, and before the look it said %s",
		"refused: %s says that it is device %s, and it was %s when it was met first. If that device has a new identity, or the name another ",
		"refused: %s: its command %w, and was ended",
		"refused: %s: the syncthing-audit there is older, and has no %s: bring it to the version here, %s",
		"refused: line %d of %s has a second device at %s: take one of them away",
		"refused: line %d of %s isn't a device id, a space and a place",
		"refused: there is no directory %s here; a machine has a colon behind its name: %s",
		"refused: which devices are known can't be read: %w",
		"refused: %s has bytes that can't be typed in one way in all shells, so there are no commands to show: run it without ",
	},
	"'observe' needs devices to connect to: the class Observed of real devices": {
		"refused: %s share the folder, and aren't asked: name them as ID@tcp://HOST:PORT, or leave them out with --leave-out %s",
		"refused: %w: 'syncthing-audit observe --init' makes it",
		"refused: --listen %s: %w",
		"refused: no device could be looked at",
		"refused: not all devices could be asked: --%s leaves out those that couldn't",
	},
	"halves of parts, and a walk of disks: half_inputs_test.go, diskhalf's and ondisk's tests, and the class DiskHalves": {
		"refused: it is of the same half of the same device as %s: give one of them",
		"refused: %s has no disks, and the part of that device's disks isn't given: the observer waited for it",
		"refused: %s is of disks alone, and no part over the wire is given that waited for it: 'observe' with that device and --disk makes it",
		"refused: folder %s: %w",
		"refused: %s would be in a folder of Syncthing (%s is there), whose devices would all get it: name a file elsewhere",
		"refused: %s is there, and is no file: name another one",
		"refused: --disk %s is there already, and the walk comes after the first look: take it away, or name another file",
		"refused: the addresses that are kept in %s: %w",
	},
	"a Syncthing that runs: device's tests of live homes, and the classes of running devices": {
		"refused: %s: Syncthing runs, and it hasn't written to the index there since it was started: it has its database elsewhere. ",
		"refused: %s: folder %s is paused there, and Syncthing doesn't scan it: resume it on Syncthing's page, audit it without ",
		"refused: %s: its index changed while it was read (%s): Syncthing was started there. Stop it, and begin anew",
		"refused: %s: its index wasn't copied in %d rounds: %w",
		"refused: no Syncthing runs on %s: none holds the lock of %s",
		"refused: %s: add them, or leave these devices out with --leave-out %s",
	},
	"another user or a system that fails: device's, spill's and adapt's tests, and the fault injection of the classes Faults and Interrupted": {
		"refused: %s and %s are of two users, and root becomes the user whose home it reads: make a part of each",
		"refused: root can't become user %d, whose home %s is: %w",
		"refused: %s: its index can't be locked: %w",
		"refused: a folder is read by /proc, so that no symlink is followed out of it: %w",
		"refused: the copy of the index can't be opened: %s",
		"refused: the index can't be copied to %s (TMPDIR may name another directory): %w",
		"refused: what was found can't be kept in %s (TMPDIR may name another directory): %w",
		"refused: something came into %s meanwhile: %w",
	},
	"more bytes than a quick test writes: part's and rows' own tests of limits": {
		"refused: a line of the part would have %d bytes, and a part has lines of at most %d",
		"refused: it has more bytes than any part (over %d)",
		"refused: one document hasn't room for all: --into DIR writes several, --folder and --names choose",
	},
	"a syncaudit that lies: finding's and ask's tests": {
		"refused: folder %s: syncaudit says that %v keeps it from being firm, and this program that %v does",
	},
	"a part that its reader refuses first, or a history with bytes: signature's tests, and the class RotThatSpread": {
		"refused: it says that it is of %q, which isn't a device id as Syncthing writes it",
		"refused: %s can't be searched: %w",
	},
}
