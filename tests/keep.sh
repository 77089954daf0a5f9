# shellcheck shell=bash
# What a test run's parts write is kept in a folder, where add_up.py counts it. A script that reads this has set 'logs', the folder.
# shellcheck disable=SC2154

# keep PART COMMAND..: keeps what a part writes, and its status, for the sum; it is written here too.
keep() {
  local part=$1 status=0
  shift
  "$@" | tee "$logs/$part" || status=1
  echo "$status" > "$logs/$part.status"
}
