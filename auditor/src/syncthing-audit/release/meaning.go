package release

// Meaning says what an answer means for real Syncthing, and what is proved of it. The man page says more, and is installed with the program.
const Meaning = "syncthing-audit " + Version + `

What an answer means: the files, records and views are compared exactly as they were when they were read. Nothing of this program is
proved. What syncaudit says of rows is.

What is in step, and not known to be firm: that it stays so is proved of this project's peers, which merge versions when they adopt a
record, as Syncthing does not.

What is firm stays as it is with all peers that keep a few rules. That is proved. That Syncthing keeps them is argued, and not proved.
Where permissions on a disk aren't as recorded, the next scan records them. Where scans look at owners or extended attributes, which
aren't compared, the next scan records what changed of them, and each directory into which something came or from which it went.

Both are said only of a folder that was audited whole. Names or devices that weren't audited may still change the rest: such a device
sends other records, and a pull of such a name writes or removes conflict copies. An answer says what was left out or in motion.

What isn't in step, and is said to come right by itself: that nothing is lost on the way there is proved of peers that keep the same
rules and a few more.

'man syncthing-audit' says more, under WHAT AN ANSWER MEANS.
`
