# Which record of a name wins, what a device chooses, and how versions stand to each other. Read by pieces.sh.
# shellcheck shell=bash disable=SC2154 # pieces.sh has the pieces and functions that stand in no file of this folder

# ---- which record wins

hello='"name":"hello","type":0,"size":5,"blocks":["2cf24dba5fb0a30e26e83b2ac5b9e29e1b161e5c1fa7425e73043362938b9824"],
  "modified_s":5,"modified_by":7,"version":[[7,1]],"sequence":1'

# first_row: the device of the first row of the certificate on standard input; what is no certificate is given on.
first_row() {
  python3 -c '
import json, sys
told = sys.stdin.read().strip()
print(json.loads(told)["certificate"][0]["device"] if told.startswith("{") else told)'
}

# winner PIECE PIECE PIECE: the device whose record wins where devices 2, 3 and 4 have a file with these further members, of
# which one that is there already takes the place of the one before; device 1 has none.
winner() {
  local devices=',"store":[{"name":"hello","type":0,"modified_s":5}]}' number=2 piece
  for piece in "$@"; do
    devices+=",{\"device\":$number,\"kind\":\"send-receive\",\"index_id\":1,\"max\":9,\"own\":[{$hello$piece}]}"
    number=$((number + 1))
  done
  first_line certify <<< "$begin$folder$device$devices]}]},\"certificate\":[]}" | first_row | sed 's/^not settled: //'
}

# Of what isn't below another, what isn't deleted is before what is, then the later time, the smaller 'modified_by' and the
# smaller device.
seconds=',"modified_s":6'
nanoseconds=',"modified_ns":1'
by=',"modified_by":6'
expect 'the smaller device' 2 "$(winner '' '' '')"
expect 'the smaller modified_by' 4 "$(winner '' '' "$by")"
expect 'the later nanoseconds' 3 "$(winner '' "$nanoseconds" "$by")"
expect 'the later seconds' 2 "$(winner "$seconds" "$nanoseconds" "$by")"
expect 'what is deleted' 3 "$(winner "$seconds"',"size":0,"blocks":[],"deleted":true' "$nanoseconds" "$by")"

# What is below another, and what is invalid, goes before times are compared. The first is this profile's own example.
expect 'a later time of an older version' 4 \
  "$(winner ',"version":[[7,3]]' ',"version":[[7,2]],"modified_s":9' ',"version":[[2,1]],"modified_by":2')"
expect 'a local change of the newest version' 4 \
  "$(winner ',"version":[[7,3]],"invalid":true' '' ',"version":[[7,2]]')"
expect 'a version without counters' 3 "$(winner ',"version":[]' '' ',"version":[]')"
expect 'local changes alone' 'NotWinner docs hello' "$(winner ',"invalid":true' ',"invalid":true' ',"invalid":true')"
expect 'no record' 'NotWinner docs hello' "$(winner)"

# ---- how versions stand to each other

# stands SEEN OWN: 'below' where device 2, whose own record has the one version, wouldn't take a record of other content that
# it sees at device 1 under the other version, and else 'taken'.
stands() {
  local own='{"name":"hello","type":1,"modified_s":5,"modified_by":7,"sequence":1,"version":['"$2]}"
  local store=',"store":[{"name":"hello","type":1,"modified_s":5}]' rest
  rest=",\"own\":[$own]$store},{\"device\":2,\"kind\":\"send-receive\",\"index_id\":12,\"max\":9,\"own\":[$own]$store,
    \"views\":[{\"of\":1,\"index_id\":11,\"max\":9,\"records\":[{$hello,\"version\":[$1]}]}]}]}]},\"certificate\":[
    {\"folder\":\"docs\",\"device\":1,\"record\":$own}]}"
  first_line check <<< "$begin$folder$device$rest" | sed 's/^settled$/below/; s/^not settled: ViewAhead docs hello on 2$/taken/'
}

# By BEP v1, 'Vector'.
expect 'an equal version' taken "$(stands '[1,1]' '[1,1]')"
expect 'a lower value' below "$(stands '[1,1]' '[1,2]')"
expect 'a higher value' taken "$(stands '[1,2]' '[1,1]')"
expect 'concurrent versions' taken "$(stands '[1,2]' '[1,1],[2,1]')"
expect 'a counter less' below "$(stands '[1,1]' '[1,1],[2,1]')"
expect 'a counter more' taken "$(stands '[1,1],[2,1]' '[1,1]')"
expect 'a lesser id less' below "$(stands '[2,1]' '[1,1],[2,1]')"
expect 'other ids' taken "$(stands '[1,1]' '[2,1]')"
expect 'no counters' below "$(stands '' '[1,1]')"
expect 'none but no more' taken "$(stands '' '')"

# ---- what a device chooses, and versions of many counters

# story COUNT LINKS: what is told of the steps on standard input, where as many devices share a folder.
story() {
  local shares
  shares=$(seq "$1" | sed 's/.*/{"device":&,"kind":"send-receive","index_id":&}/' | paste -sd,)
  { "$program" run 2> /dev/null || true; } <<< '{"version":1,"folders":[{"folder":"docs","devices":['"$shares"']}],
    "links":['"$2"'],"steps":['"$(paste -sd,)"']}'
}

# link_put DEVICE SECONDS: the device puts a symlink with its number as target, and scans it.
link_put() {
  echo '["edit",'"$1"',"docs",{"name":"here","type":4,"modified_s":'"$2"',"target":"'"$1"'"}],["scan",'"$1"',"docs","here"]'
}

# told FROM TO: the one device meets the other, which is the greater one, and tells it of its records.
told() {
  echo '["connect",'"$1,$2"'],["begin",'"$1,$2"'],["begin",'"$2,$1"'],["deliver",'"$2,$1"'],["deliver",'"$1,$2"']'
  echo '["announce",'"$1,$2"',"docs"],["deliver",'"$2,$1"']'
}

# taken DEVICE: the device takes over what it chose.
taken() {
  echo '["pull",'"$1"',"docs","here"],["finish",'"$1"',"docs","here"]'
}

# Devices 2 and 3 take over device 1's later symlink, each over one of its own; so two versions are concurrent, of one time and
# one 'modified_by'. Device 3 keeps its own, though device 2 is the smaller one.
expect "a device's own record" 'step 32: 142 NotNeeded' "$({
  link_put 1 6
  link_put 2 5
  link_put 3 5
  told 1 2
  taken 2
  told 1 3
  taken 3
  told 2 3
  taken 3
} | story 3 '[1,2],[1,3],[2,3]' | sed -n 1p)"

# Each device takes over the symlink of the one before and changes it; the last one changes it twice.
ones=$(seq 15 | sed 's/$/:1/' | paste -sd,)
expect 'a version of 16 counters' "docs here 16 4 present $ones,16:2" "$({
  link_put 1 1
  for number in $(seq 2 16); do
    told "$((number - 1))" "$number"
    taken "$number"
    link_put "$number" 1
  done
  echo '["edit",16,"docs",{"name":"here","type":4,"modified_s":1,"target":"there"}],["scan",16,"docs","here"]'
} | story 16 "$(for number in $(seq 2 16); do echo "[$((number - 1)),$number]"; done | paste -sd,)" | tail -n 1)"
