#!/usr/bin/env bash
# large.sh WHAT: writes a scenario that is too long to stand here as a file: devices 1 and 2 share a folder, and the steps
# come to the limit that the word names, and one beyond it.
set -euo pipefail

# each COUNT LINE: the line for each number from 1 to COUNT, which stands where & does.
each() {
  seq "$1" | sed "s/.*/$2/"
}

# Device 1 makes as many directories, named 1, 2 and so on, and scans each.
directories() {
  each "$1" '["edit",1,"docs",{"name":"&","type":1,"modified_s":1000}],["scan",1,"docs","&"]'
}

# The devices meet, and each learns how far the other's index goes.
meet() {
  echo '["connect",1,2],["begin",1,2],["begin",2,1],["deliver",2,1],["deliver",1,2]'
}

tell() {
  echo '["announce",1,2,"docs"],["deliver",2,1]'
}

steps() {
  case $1 in
    names)
      directories 4097
      ;;
    pulls)
      directories 65
      meet
      tell
      each 65 '["pull",2,"docs","&"]'
      ;;
    messages)
      meet
      echo '["announce",1,2,"docs"]'
      each 1024 '["edit",1,"docs",{"name":"hello","type":0,"modified_s":&}],["scan",1,"docs","hello"],["announce",1,2,"docs"]'
      ;;
    request)
      echo '["edit",1,"docs",{"name":"hello","type":0,"modified_s":1,"text":"hello"}],["scan",1,"docs","hello"]'
      meet
      tell
      echo '["pull",2,"docs","hello"],["ask",2,1,"docs","hello"]'
      each 1024 '["edit",1,"docs",{"name":"todo","type":0,"modified_s":&}],["scan",1,"docs","todo"],["announce",1,2,"docs"]'
      echo '["deliver",1,2],["deliver",2,1],["deliver",1,2]'
      ;;
    records)
      directories 1500
      meet
      tell
      echo '["pull",2,"docs","1001"],["lose",1,2]'
      meet
      echo '["announce",1,2,"docs"],["announce",1,2,"docs"],["deliver",2,1]'
      echo '["pull",2,"docs","1"],["pull",2,"docs","1500"]'
      ;;
    conflict)
      local name
      name=$(printf 'n%.0s' {1..973})
      echo '["edit",1,"docs",{"name":"NAME","type":0,"modified_s":1,"text":"hello"}],["scan",1,"docs","NAME"]
        ["edit",2,"docs",{"name":"NAME","type":0,"modified_s":-9223372036854775808,"text":"abc"}],["scan",2,"docs","NAME"]' |
        sed "s/NAME/$name/g"
      meet
      tell
      echo '["pull",2,"docs","NAME"],["ask",2,1,"docs","NAME"],["deliver",1,2],["deliver",2,1],["finish",2,"docs","NAME"]' |
        sed "s/NAME/$name/g"
      ;;
    *)
      echo "large.sh: no scenario of $1" >&2
      return 1
      ;;
  esac
}

echo '{"version":1,"folders":[{"folder":"docs","devices":[{"device":1,"kind":"send-receive","index_id":11},{"device":2,"kind":"send-receive","index_id":12}]}],"links":[[1,2]],"steps":['
steps "$1" | paste -sd,
echo ']}'
