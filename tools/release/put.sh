# shellcheck shell=bash
# Puts what tools/release/files lists below a prefix, for the scripts that have read lib.sh and have chosen 'program'.

packages=/usr/share/gocode
architecture= # of Go, for which the exporter is built: nothing for that of this machine
packages_of_exporter='golang-go golang-github-syncthing-syncthing-dev'

# has_exporter: the exporter's sources are there, and Go with Syncthing's packages, which builds it.
has_exporter() {
  [ -d "$top/auditor/src" ] && command -v go > /dev/null 2>&1 && [ -d "$packages/src/github.com/syncthing/syncthing/lib/db" ]
}

# build_exporter TO: builds the exporter. It is static: it needs no C library and no loader. 32-bit ARM is that of the oldest
# Raspberry Pi. Its bytes don't tell where it was built.
build_exporter() {
  GOENV=off GOFLAGS='' GOTOOLCHAIN=local CGO_ENABLED=0 GO111MODULE=off GOPATH=$top/auditor:$packages GOARCH=$architecture GOARM=6 \
    go build -trimpath -ldflags='-s -w' -o "$1" syncthing-audit < /dev/null
}

# put MODE FILE TO: puts a file of the repository, or the program or the exporter, in this place.
put() {
  mkdir -p "$(dirname "$3")"
  case $2 in
    syncaudit) install -m "$1" "$program" "$3" ;;
    exporter) build_exporter "$3" ;;
    *) install -m "$1" "$top/$2" "$3" ;;
  esac
}

# is_for_program PLACE: what stands in this place is of the program, and not of the exporter.
is_for_program() {
  case $1 in
    *syncthing-audit*) false ;;
    *) true ;;
  esac
}

# is_missing FILE PLACE: what is to stand in this place can't be had here.
is_missing() {
  if [ "$1" = exporter ]; then
    ! has_exporter
  else
    [ -z "$program" ] && is_for_program "$2"
  fi
}

# put_all PREFIX: puts all that is listed and can be had here below the prefix, and tells each place.
put_all() {
  local mode file place
  grep '^[0-9]' "$release/files" | while read -r mode file place; do
    if ! is_missing "$file" "$place"; then
      put "$mode" "$file" "$1/$place"
      echo "$1/$place"
    fi
  done
}

# tell_missing: tells what can't be had here.
tell_missing() {
  [ -n "$program" ] || echo "without the program there is no bin/syncaudit" >&2
  has_exporter || echo "without Go and Syncthing's packages there is no bin/syncthing-audit: apt-get install $packages_of_exporter" >&2
}
