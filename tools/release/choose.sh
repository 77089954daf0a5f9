# shellcheck shell=bash
# Chooses the program that is run, installed and measured: what was built here of these sources; or else the release, where
# it is theirs; or else what is proved and built now. A script that reads this has set 'top', the folder of the repository.

. "$top/tools/release/lib.sh"
. "$top/tools/release/build.sh"

# is_built: a program was built here, of the sources as they stand.
is_built() {
  is_whole "$built" && is_of "$digest" "$built"
}

# runs_here: the release is for this machine.
runs_here() {
  local here
  here=$(getconf GNU_LIBC_VERSION 2> /dev/null) || return
  [ "$(uname -sm)" = "$(told machine "$release")" ] && printf '%s\n' "$(told libc "$release")" "$here" | sort -VC
}

# Why the release isn't run. Nothing where it is.
fault_of_release() {
  if [ -n "${SYNCAUDIT_BUILD:-}" ]; then
    echo "SYNCAUDIT_BUILD is set"
  elif ! [ -x "$release/syncaudit" ] || ! [ -f "$release/manifest" ]; then
    echo "tools/release/ has no program that can be run, with its manifest"
  elif ! is_whole "$release"; then
    echo "tools/release/syncaudit isn't the program that tools/release/manifest names: its sha256 is $(sum_of "$release/syncaudit")"
  elif ! runs_here; then
    echo "the release is for $(told machine "$release") with $(told libc "$release") or later, and this machine isn't"
  elif ! is_of "$digest" "$release"; then
    echo "the sources here aren't those of the release"
  fi
}

# take FOLDER WHICH: the program in this folder is chosen, and which one that is.
take() {
  program=$1/syncaudit
  which="$2 ($(told toolchain "$1"))"
}

# take_as_it_is FAULT: takes a program of other sources where the one of these can't be built: whoever has no kit wants an
# answer too.
take_as_it_is() {
  local why="$1, and the command 'rt' of the Rattle kit, which builds the program, isn't on PATH"
  if [ -n "${SYNCAUDIT_BUILD:-}" ]; then
    fail $no_toolchain "$why: nothing was run"
  elif is_whole "$built"; then
    take "$built" "built here of other sources than these"
  elif is_whole "$release" && runs_here; then
    take "$release" "the release, of other sources than these"
  else
    fail $no_toolchain "$why: nothing was run"
  fi
  echo "syncaudit: $why: running one of other sources" >&2
}

# Sets 'program' to the program's file, and 'which' to what tells which one it is.
choose() {
  local digest fault
  digest=$(sources_digest)
  if is_built; then
    take "$built" "built here of these sources"
    return
  fi
  fault=$(fault_of_release)
  if [ -z "$fault" ]; then
    take "$release" "the release of these sources"
  elif has_rt; then
    echo "syncaudit: $fault: proving and building the program first" >&2
    build_in_turn is_built
    take "$built" "built here of these sources"
  else
    take_as_it_is "$fault"
  fi
}
