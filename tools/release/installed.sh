#!/bin/sh
# Stands as bin/syncaudit where the program is installed: runs it with these words, and its own input, output and status.
lib=$(dirname "$(dirname "$(readlink -f "$0")")")/lib/syncaudit
if ! [ -x "$lib/syncaudit" ]; then
  echo "syncaudit: the program isn't in $lib: put it in place again" >&2
  exit 127
fi
. "$lib/waiting.sh"

tell_waiting "$@"
exec "$lib/syncaudit" "$@"
