set -eu

fail() { printf '%s: %s\n' "$0" "$1" >&2; exit 1; }
is_there() { [ -e "$1" ] || [ -L "$1" ]; }

# What is asked above.
check_folder() {
  case $1 in /*) ;; *) fail "say at the top where $2 is, by a path from /" ;; esac
  [ -e "$1/$3" ] || fail "$1 has no $3, so it isn't that folder of Syncthing"
  case $aside/ in "$1"/*) fail "'aside' is within $1: name a directory outside" ;; esac
}
check_source() {
  case $1 in
    /*) [ -d "$1" ] || fail "there is no directory $1" ;;
    *:/*) ;;
    *) fail "say at the top where $2 is: a path from /, or HOST:/PATH" ;;
  esac
}
check_all() {
  [ "$stopped" = yes ] || fail "stop Syncthing on all devices of these folders, then set stopped=yes at the top"
  case $aside in /*) ;; *) fail "name at the top a directory for what is taken away, by a path from /" ;; esac
}
prepare() {
  aside=$aside/audit-$audit
  mkdir -p "$aside/made"
}

# begin STEP FOLDER NAME: each step is made once, however often the script is run. In it, $in is the directory of its name, with a slash. Below a symlink
# nothing belongs to the folder.
begin() {
  [ ! -e "$aside/made/$1" ] || return 1
  case $3 in */*) in=${3%/*}/ ;; *) in= ;; esac
  above=$2 rest=$in
  while [ -n "$rest" ]; do
    above=$above/${rest%%/*} rest=${rest#*/}
    [ ! -L "$above" ] || fail "step $1: $above is a symlink"
  done
}
made() { : > "$aside/made/$1"; printf 'step %s is made\n' "$1"; }
taken() {
  ! is_there "$aside/$1/$3" || fail "step $1: an earlier run was cut off; the file is $aside/$1/$3 and $2/$3: keep both"
  mkdir -p "$aside/$1/$in"
  mv "$2/$3" "$aside/$1/$3"
}

# save STEP FOLDER NAME: copies what stands there to $aside.
save() {
  begin "$1" "$2" "$3" || return 0
  is_there "$2/$3" || fail "step $1: there is no $2/$3"
  rm -rf "$aside/$1"
  mkdir -p "$aside/$1/$in"
  cp -a "$2/$3" "$aside/$1/$3"
  made "$1"
}

# renew STEP FOLDER NAME: gives the present time to what stands there.
renew() {
  begin "$1" "$2" "$3" || return 0
  is_there "$2/$3" || fail "step $1: there is no $2/$3"
  if [ -L "$2/$3" ]; then touch -h "$2/$3"; else touch "$2/$3"; fi
  made "$1"
}

# take STEP FOLDER NAME: moves what stands there to $aside.
take() {
  begin "$1" "$2" "$3" || return 0
  if is_there "$2/$3"; then taken "$1" "$2" "$3"; fi
  is_there "$aside/$1/$3" || fail "step $1: there is no $2/$3"
  made "$1"
}

# fetch STEP FOLDER NAME SOURCE WHAT: copies the same name from another device. What stands there goes to $aside where WHAT is over.
fetch() {
  begin "$1" "$2" "$3" || return 0
  [ -d "$2/$in" ] || fail "step $1: there is no directory $2/$in"
  if [ ! -e "$aside/made/$1.fetched" ]; then
    rm -rf "$aside/$1.new"
    mkdir -p "$aside/$1.new/$in"
    case $4 in
      /*) cp -a "$4/$3" "$aside/$1.new/$3" ;;
      *) rsync -a -s "$4/$3" "$aside/$1.new/$in" ;;
    esac
    : > "$aside/made/$1.fetched"
  fi
  if is_there "$aside/$1.new/$3"; then
    if is_there "$2/$3"; then
      [ "$5" = over ] || fail "step $1: something stands at $2/$3, where nothing was"
      taken "$1" "$2" "$3"
    fi
    mv "$aside/$1.new/$3" "$2/$3"
  fi
  is_there "$2/$3" || fail "step $1: there is no $2/$3"
  made "$1"
}
