# shellcheck shell=bash
# How ./syncaudit proves and builds the program, with a stand-in for the command that does.

# The stand-in notes where it was called and as what. It proves the crate in which it is, but 'stuck', which nobody proves; in
# 'low' it does what MEANWHILE says first. It builds a program that says its words, and whether the script's lock is free by
# then.
cat > "$work/tools/rt" << 'END'
#!/bin/sh
case $1 in
  version) echo 'a kit'; exit ;;
  doc) echo "$KIT/START-HERE.md"; exit ;;
esac
crate=${PWD##*/}
echo "$crate rt $*" >> "$NOTED"
[ "$crate" != stuck ] || exit 1
[ "$crate" != low ] || eval "${MEANWHILE:-}"
mkdir -p out/rlib
echo "crate $crate: modules loaded=${LOADED:-0} checked=1"
if [ "$1" = run ]; then
  printf '#!/bin/sh\necho "built: $@"\nflock -n "$LOCKED" cat /dev/null && echo unlocked || true\n' > out/syncaudit
  chmod +x out/syncaudit
fi
END
export NOTED=$work/noted LOCKED=$place/out/lock KIT=$work/kit
mkdir -p "$KIT/toolchain/bin"
printf '#!/bin/sh\ncp "$3" "$2"\n' > "$KIT/toolchain/bin/clang"
chmod +x "$work/tools/rt" "$KIT/toolchain/bin/clang"
tools chmod cp flock mkdir rm sh sleep touch
ln -s "$(python3 -c 'import sys; print(sys.executable)')" "$work/tools/python3"

# outdate: what stands there was built of other sources, and nothing is noted.
outdate() {
  change_sources
  : > "$NOTED"
}

# is_noted TEXT: the stand-in was called so.
is_noted() {
  says "$1" "$NOTED"
}

# builds TIMES: the program was built so many times since it was outdated.
builds() {
  [ "$(grep -c 'rt run' "$NOTED")" = "$1" ]
}

# ---- when it builds

release_of release
: > "$NOTED"
script check it
expect "the release isn't run where the program could be built" answers 'release: check it'
expect "something is built where the release is that of these sources" builds 0
SYNCAUDIT_BUILD=1 script check it
expect "SYNCAUDIT_BUILD doesn't build the program: $(cat "$work/error")" says 'built: check it' "$work/output"
expect "the script's status after a build is $status" [ "$status" = 0 ]
SYNCAUDIT_BUILD=1 script check it
expect "SYNCAUDIT_BUILD builds again what was built of these sources" builds 1
spoil "$place/tools/release/syncaudit"
outdate
script check it
expect "a release with a changed byte isn't told where the program is built: $(cat "$work/error")" \
  tells "isn't the program that tools/release/manifest names"
expect "a release with a changed byte doesn't have the program built" builds 1
release_of release
outdate
mkdir -p "$place/crates/low/out" "$place/out/program/rooms/syncaudit/crates/syncaudit/out" "$place/crates/apart/src"
touch "$place/crates/low/out/kept" "$place/out/program/rooms/syncaudit/crates/syncaudit/out/left"
printf 'apart: thiserror\nlow:\nsyncaudit: clap low\n' > "$place/crates.txt"
script check it
expect "changed sources aren't told: $(cat "$work/error")" tells "the sources here aren't those of the release"
expect "changed sources aren't built: $(cat "$work/output" "$work/error")" says 'built: check it' "$work/output"
expect "the script doesn't tell each crate that is proved: $(cat "$work/error")" tells 'syncaudit: syncaudit (2 of 2)'
expect "the script doesn't tell how long the others take: $(cat "$work/error")" tells 'syncaudit: low (1 of 2), 1 min left'
expect "a crate is proved that the program doesn't stand on" [ ! -e "$place/crates/apart/out" ]
expect "the script loses what was built before" [ -e "$place/crates/low/out/kept" ]
expect "the script loses what a run has left that was ended" [ -e "$place/crates/syncaudit/out/left" ]
expect "the script leaves a copy of the crates" [ ! -e "$place/out/program" ]
expect "the times of what was proved from nothing aren't kept" grep -qE '^seconds low [0-9]+$' "$place/out/built/manifest"
script --version
expect "--version doesn't tell that it was built here: $(cat "$work/error")" tells 'built here of these sources (a kit)'
outdate
LOADED=1 script check it
expect "the times of what was proved before are kept" [ -z "$(grep '^seconds' "$place/out/built/manifest")" ]

printf 'low:\nstuck: low\nsyncaudit: clap stuck\n' > "$place/crates.txt"
mkdir -p "$place/crates/stuck/src"
script check it
expect "the script's status where a proof fails is $status, and not 126" [ "$status" = 126 ]
expect "the script runs another program where a proof fails" [ ! -s "$work/output" ]
expect "the script doesn't say which proof fails: $(cat "$work/error")" tells "stuck isn't proved"
expect "the script loses what was built where a proof fails" [ -e "$place/crates/low/out/kept" ]
expect "the script leaves a copy where a proof fails" [ ! -e "$place/out/program" ]
rm -r "$place/crates/stuck"

# ---- in which order, and how many side by side

if command -v taskset > /dev/null 2>&1; then
  printf 'low:\nhigh:\nsyncaudit: clap low high\n' > "$place/crates.txt"
  mkdir -p "$place/crates/high/src"
  outdate
  printf 'seconds low 10\nseconds high 20\n' >> "$place/tools/release/manifest"
  tools taskset
  PATH=$work/tools taskset -c "$(taskset -cp $$ | sed 's/.*: \([0-9]*\).*/\1/')" "$place/syncaudit" check > /dev/null 2>&1
  expect "one processor doesn't prove first what takes longest: $(cat "$NOTED")" \
    [ "$(paste -sd, "$NOTED")" = 'high rt lib --jobs 1,low rt lib --jobs 1,syncaudit rt run --jobs 1 -- check' ]
  rm -r "$place/crates/high"
fi
printf 'low:\nsyncaudit: clap low\n' > "$place/crates.txt"

# lanes_of MEMORY: how many checks four processors make side by side where so many GB are free.
lanes_of() {
  python3 -B -c "
import sys
sys.path.insert(0, 'tools/release')
from prove import lanes
print(lanes(4, 'MemTotal: 9 kB\nMemAvailable: ${1}000000 kB\n'))"
}

for row in '2 1' '5 1' '7 2' '14 4' '60 4'; do
  expect "with ${row% *} GB free four processors make $(lanes_of "${row% *}") checks side by side, and not ${row#* }" \
    [ "$(lanes_of "${row% *}")" = "${row#* }" ]
done

# ---- what comes between while it builds

# start NAME: runs the script beside this one, keeps what it writes under that name, and its process in 'started'.
start() {
  PATH=$work/tools "$place/syncaudit" "$1" > "$work/$1.output" 2> "$work/$1.error" &
  started=$!
}

# Of two runs one builds, which here ends once the other one waits for it.
outdate
export MEANWHILE="left=600; until grep -q waiting $work/one.error $work/two.error || [ \$left = 0 ]; do sleep 0.1; left=\$((left - 1)); done"
start one
first=$started
start two
wait "$first" "$started" || true
expect "of two runs the first doesn't run the program: $(cat "$work/one.error")" says 'built: one' "$work/one.output"
expect "of two runs the second doesn't run the program: $(cat "$work/two.error")" says 'built: two' "$work/two.output"
expect "of two runs not one alone builds: $(cat "$NOTED")" builds 1
expect "neither of two runs says that it waits" grep -q waiting "$work/one.error" "$work/two.error"

# Neither the program nor what outlives the script keeps the lock.
outdate
MEANWHILE="cd /; setsid sleep 60 > $work/outlives 2>&1 & echo \$! > $work/outliving"
tools setsid
script check it
expect "the program, or what outlives the script, keeps its lock: $(cat "$work/error")" says unlocked "$work/output"
kill "$(cat "$work/outliving")"

# A run that is ended waits for what it ends, which may write till then.
outdate
MEANWHILE="trap '' PIPE; trap 'sleep 0.3; mkdir -p out; touch out/late; exit 1' TERM; touch $work/proving; sleep 5"
start ended
for _ in {1..600}; do
  [ ! -e "$work/proving" ] || break
  sleep 0.1
done
kill "$started"
wait "$started" || true
expect "the script doesn't wait for what it ends" [ -e "$place/crates/low/out/late" ]
expect "the script leaves a copy where it is ended" [ ! -e "$place/out/program" ]

# A source that is saved while the program is built is built by the next run, and by that one alone.
outdate
MEANWHILE="echo '// saved' >> $place/crates/low/src/lib.rt"
script check it
MEANWHILE=
: > "$NOTED"
script check it
expect "what is saved while the program is built isn't built by the next run" builds 1
script check it
expect "a program that is up to date is built again: $(cat "$NOTED")" builds 1

# Without the command that locks it builds all the same.
rm "$work/tools/flock"
outdate
script check it
expect "without flock the script doesn't build" says 'built: check it' "$work/output"
expect "without flock the script doesn't say that there is no lock" tells "no lock without 'flock'"
