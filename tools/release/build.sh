# shellcheck shell=bash
# Proves and builds the program from the sources here, for the scripts that have read lib.sh.

# Statuses that the program itself doesn't have.
no_toolchain=127
not_built=126

# The one run that builds has this file locked.
locked=$top/out/lock
apart=$top/out/program

# Lets one run at a time build, since all do so in one place: another one waits here, and then finds the program built.
# Without a lock a run goes on all the same, as one alone needs none.
lock() {
  local status=0
  mkdir -p "$top/out" && exec {guard}> "$locked" || return
  flock -n "$guard" 2> /dev/null || status=$?
  case $status in
    0) ;;
    1)
      echo "syncaudit: another run is building the program: waiting for its end" >&2
      flock "$guard"
      ;;
    *) echo "syncaudit: there is no lock without 'flock': start no other run before this one has built the program" >&2 ;;
  esac
}

# Lets the lock go, which whatever has the file open would keep: the program, or what goes on after this script.
unlock() {
  exec {guard}>&-
}

# Proves the crates in a group of its own, which doesn't keep the lock and ends with this script.
prove() {
  set -m
  program_crates | {
    unlock
    exec python3 -B "$release/prove.py" "$top"
  } &
  proving=$!
  set +m
  wait "$proving" || return
  proving=
}

finish() {
  if [ -n "$proving" ]; then
    kill "$proving" 2> /dev/null || true
    wait "$proving" 2> /dev/null || true
  fi
  rm -rf "$apart"
}

# Builds the program from the sources as they stand when it begins, and keeps it with the times of what was proved from
# nothing. What is saved meanwhile is built by the next run.
build() {
  local status=0
  proving=
  trap finish EXIT
  prove && keep_built "$top/crates/syncaudit/out/syncaudit" "$apart/sources" "$apart/seconds" || status=$?
  finish
  trap - EXIT
  return "$status"
}

# fail STATUS WHY: ends the script.
fail() {
  echo "syncaudit: $2" >&2
  exit "$1"
}

# build_in_turn TEST..: builds the program, unless the test says that another run has built it meanwhile.
build_in_turn() {
  lock || fail $not_built "the program wasn't built: $locked can't be locked"
  "$@" || build || fail $not_built "the program wasn't built"
  unlock
}
