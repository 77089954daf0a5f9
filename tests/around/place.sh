# shellcheck shell=bash
# A place in which around.sh tries the scripts: a repository of two crates, a release that says its words, and the tools
# that ./syncaudit needs where it builds nothing.

place=$work/top
mkdir -p "$place/crates/low/src" "$place/crates/syncaudit/src" "$place/tools/release" "$work/tools"
cp syncaudit install "$place"
cp tools/release/*.sh tools/release/*.py tools/release/make tools/release/files "$place/tools/release"
printf 'low:\nsyncaudit: clap low\n' > "$place/crates.txt"
echo 'Handles allowed: none.' > "$place/HANDLES"
touch "$place/crates/low/src/lib.rt" "$place/crates/syncaudit/src/main.rt" "$place/crates/syncaudit/stdin"

# tools NAME..: lets the script find these tools.
tools() {
  local tool
  for tool; do
    ln -sf "$(command -v "$tool")" "$work/tools/$tool"
  done
}
tools awk bash cat cut dirname env find getconf grep readlink sed sha256sum sort uname xargs

# in_place COMMAND..: runs a command of the shared shell functions there.
in_place() {
  bash -c 'top=$1; . "$top/tools/release/lib.sh"; shift; "$@"' in_place "$place" "$@"
}

# release_of WORD: makes a release of the sources that stand there, whose program says this word and the words that it gets.
release_of() {
  printf '#!/bin/sh\necho "%s: $*"\nexit 1\n' "$1" > "$place/tools/release/syncaudit"
  chmod +x "$place/tools/release/syncaudit"
  printf '%s\n' "version 1.2.3" "machine $(uname -sm)" "libc glibc 2.0" "toolchain another kit" \
    "program $(in_place sum_of "$place/tools/release/syncaudit")" "sources $(in_place sources_digest)" > "$place/tools/release/manifest"
}

# change_sources: changes a source.
change_sources() {
  echo "// $RANDOM" >> "$place/crates/low/src/lib.rt"
}

# script WORDS..: runs the script there, and keeps what it writes and its status.
script() {
  status=0
  PATH=$work/tools "$place/syncaudit" "$@" > "$work/output" 2> "$work/error" || status=$?
}

# says TEXT FILE: the text stands in the file.
says() {
  grep -qF -- "$1" "$2"
}

# answers TEXT: what the script has written is this text.
answers() {
  [ "$(cat "$work/output")" = "$1" ]
}

# is_silent: the script has said nothing beside that.
is_silent() {
  [ ! -s "$work/error" ]
}

# tells TEXT: the script has said this.
tells() {
  says "$1" "$work/error"
}
