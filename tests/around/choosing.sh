# shellcheck shell=bash
# Which program ./syncaudit runs where there is no command that builds it.

# ---- the release

release_of release
script check it
expect "the release of these sources isn't run: $(cat "$work/error")" answers 'release: check it'
expect "the script's status isn't the program's" [ "$status" = 1 ]
expect "the script says something of a release that is as it should be: $(cat "$work/error")" is_silent
script --version
expect "--version isn't asked of the program: $(cat "$work/output")" answers 'release: --version'
expect "--version has another status than the program's" [ "$status" = 1 ]
expect "--version doesn't tell that it is the release: $(cat "$work/error")" tells 'the release of these sources (another kit)'
expect "--version doesn't tell the program's sha256" tells "sha256 $(in_place sum_of "$place/tools/release/syncaudit")"

# spoil FILE: changes a byte of the file.
spoil() {
  printf '#' | dd of="$1" bs=1 seek=$(($(stat -c %s "$1") - 2)) conv=notrunc status=none
}

# refused TEXT: the script has run nothing, and told this.
is_refused() {
  [ "$status" = 127 ] && [ ! -s "$work/output" ] && tells "$1" && tells "isn't on PATH"
}

spoil "$place/tools/release/syncaudit"
script check it
expect "a release with a changed byte isn't refused: $status $(cat "$work/error")" \
  is_refused "tools/release/syncaudit isn't the program that tools/release/manifest names: its sha256 is"
release_of release
sed -i 's/^machine .*/machine Plan9 mips/' "$place/tools/release/manifest"
script check it
expect "a release for another machine isn't refused: $status $(cat "$work/error")" is_refused 'is for Plan9 mips'
release_of release
sed -i 's/^libc .*/libc glibc 99.0/' "$place/tools/release/manifest"
script check it
expect "a release for a later C library isn't refused: $status $(cat "$work/error")" is_refused 'glibc 99.0 or later'
rm "$place/tools/release/manifest"
script check it
expect "without a manifest the script doesn't refuse: $status $(cat "$work/error")" is_refused 'has no program that can be run'
release_of release
chmod -x "$place/tools/release/syncaudit"
script check it
expect "a release that can't be run isn't refused: $status $(cat "$work/error")" is_refused 'has no program that can be run'
release_of release
rm "$place/tools/release/syncaudit"
script check it
expect "without a release the script doesn't refuse: $status $(cat "$work/error")" is_refused 'has no program that can be run'
release_of release
change_sources
script check it
expect "a release of other sources isn't run where nothing can be built" answers 'release: check it'
expect "the script doesn't say that these are other sources: $(cat "$work/error")" tells 'running one of other sources'
release_of release
export SYNCAUDIT_BUILD=1
script check it
expect "SYNCAUDIT_BUILD without rt isn't refused: $status $(cat "$work/error")" is_refused 'SYNCAUDIT_BUILD is set'
unset SYNCAUDIT_BUILD

# ---- what was built here

# built_of WORD: what the release of these sources would be, as what was built here.
built_of() {
  release_of "$1"
  rm -rf "$place/out/built"
  mkdir -p "$place/out/built"
  mv "$place/tools/release/syncaudit" "$place/tools/release/manifest" "$place/out/built"
}

built_of built
release_of release
script check it
expect "what was built here of these sources isn't run" answers 'built: check it'
expect "the script says something of what was built here: $(cat "$work/error")" is_silent
script -V
expect "-V doesn't tell that it was built here: $(cat "$work/error")" tells 'built here of these sources (another kit)'
spoil "$place/out/built/syncaudit"
script check it
expect "what was built here is run though a byte of it has changed" answers 'release: check it'
built_of built
change_sources
release_of release
script check it
expect "what was built here of other sources is run in place of the release" answers 'release: check it'
change_sources
script check it
expect "where both are of other sources, what was built here isn't run" answers 'built: check it'
expect "the script doesn't say that these are other sources: $(cat "$work/error")" tells 'running one of other sources'
rm -r "$place/out"
