#!/usr/bin/env bash
# dice.sh: writes a scenario of 2000 steps by a fixed generator: three devices share a folder, two of them another one, in
# all three kinds, and most steps find something to do or a reason to refuse.
set -euo pipefail

# Draws a number below this one, by Knuth's linear congruential generator, whose arithmetic is bash's own, of 64 bits.
state=1
below() {
  state=$((state * 6364136223846793005 + 1442695040888963407))
  drawn=$(((state >> 33 & 0x7fffffff) % $1))
}

node() {
  local texts=("" hello abc)
  echo "{\"name\":\"$1\",\"type\":0,\"modified_s\":$((1000 + $2)),\"text\":\"${texts[$2 % 3]}\"}"
}

# What is drawn for a step that needs it not is left aside.
step() {
  local folders=(docs music) names=(a b c) kind device other folder name bit
  below 24 && kind=$drawn
  below 3 && device=$((drawn + 1))
  below 2 && other=$(((device + drawn) % 3 + 1))
  below 2 && folder=${folders[drawn]}
  below 3 && name=${names[drawn]}
  below 8 && bit=$drawn
  local pair="$device,$other" place="$device,\"$folder\",\"$name\""
  if ((other < device)); then
    pair="$other,$device"
  fi
  case $kind:$bit in
    0:*) echo "[\"edit\",$device,\"$folder\",$(node "$name" "$bit")]" ;;
    1:[0-3]) echo "[\"remove\",$place]" ;;
    [123]:*) echo "[\"scan\",$place]" ;;
    [45]:*) echo "[\"connect\",$pair]" ;;
    6:0) echo "[\"lose\",$pair]" ;;
    [678]:*) echo "[\"begin\",$device,$other]" ;;
    9:* | 1[0-3]:*) echo "[\"deliver\",$device,$other]" ;;
    1[456]:*) echo "[\"announce\",$device,$other,\"$folder\"]" ;;
    1[78]:*) echo "[\"pull\",$place]" ;;
    19:* | 20:*) echo "[\"ask\",$device,$other,\"$folder\",\"$name\"]" ;;
    2[12]:*) echo "[\"finish\",$place]" ;;
    23:0) echo "[\"restart\",$device]" ;;
    23:[123]) echo "[\"override\",$place]" ;;
    *) echo "[\"revert\",$place]" ;;
  esac
}

steps() {
  local place
  for ((place = 0; place < 2000; place++)); do
    step
  done
}

echo '{"version":1,"folders":[
  {"folder":"docs","devices":[{"device":1,"kind":"send-receive","index_id":11},{"device":2,"kind":"send-receive","index_id":12},{"device":3,"kind":"receive-only","index_id":13}]},
  {"folder":"music","devices":[{"device":1,"kind":"send-only","index_id":21},{"device":2,"kind":"send-receive","index_id":22}]}],
  "links":[[1,2],[1,3],[2,3]],"steps":['
steps | paste -sd,
echo ']}'
