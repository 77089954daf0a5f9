# What a cut and its rows say. Read by pieces.sh.
# shellcheck shell=bash disable=SC2154 # pieces.sh has the pieces and functions that stand in no file of this folder

# ---- names in order: by bytes, and not by length

row='"device":1,"record":{"type":1,"modified_s":0,"modified_by":1,"version":[[1,1]],"sequence"'

# in_order FIRST SECOND: what is told of a certificate with rows of these names, both of which are known.
in_order() {
  first_line check <<< "$begin$folder$device"',"own":[
    {"name":"a.d/b","type":1,"modified_s":0,"modified_by":1,"version":[[1,1]],"sequence":1},
    {"name":"b","type":1,"modified_s":0,"modified_by":1,"version":[[1,1]],"sequence":2}],"store":[
    {"name":"a.d/b","type":1,"modified_s":0},{"name":"b","type":1,"modified_s":0}]}]}]},"certificate":[
    {"folder":"docs",'"$row"':1,"name":"'"$1"'"}},{"folder":"docs",'"$row"':2,"name":"'"$2"'"}}]}'
}

expect 'names in order' 'settled' "$(in_order a.d/b b)"
expect 'names in another order' 'not settled: CertificateOrder docs a.d/b' "$(in_order b a.d/b)"
expect 'a name twice' 'not settled: CertificateOrder docs a.d/b' "$(in_order a.d/b a.d/b)"

# ---- rows that say what isn't so, and what an index has

# told_of CHANGE COMMAND..: what is told of the example of one equal file once a statement in Python changed its devices or
# its rows.
told_of() {
  python3 -c '
import json, sys
document = json.load(open("examples/one-equal-file.json"))
devices, rows = document["cut"]["folders"][0]["devices"], document["certificate"]
exec(sys.argv[1])
print(json.dumps(document))' "$1" | first_line "${@:2}"
}

expect 'a row of another device with an equal record' 'not settled: NotWinner docs hello' "$(told_of 'rows[0]["device"] = 2' check)"
expect 'a further row of no folder' 'not settled: NameUnknown x hello' "$(told_of 'rows.append(rows[0] | {"folder": "x"})' check)"
expect 'a record of an index that gave none' 'refused: 188 SequenceBad docs 1 hello' "$(told_of 'devices[0]["max"] = 0' check)"
expect 'files that no index has' 'not settled: NotWinner docs hello' "$(told_of 'for one in devices: one["own"] = []' certify)"

# ---- names as they are printed

# printed NAME: how a report prints the name of a directory that no device recorded, which JSON writes so.
printed() {
  first_line check <<< "$begin$folder$device"',"store":[{"name":"'"$1"'","type":1,"modified_s":0}]'"$end" |
    sed 's/^not settled: NameMissing docs //'
}

# What is not visible, and a backslash, by two digits each.
expect 'a space' 'a\x20b' "$(printed 'a b')"
expect 'the first and the last visible letter' '!~' "$(printed '!~')"
expect 'control characters' '\x01\x0a\x1f\x7f' "$(printed '\u0001\n\u001f\u007f')"
expect 'a backslash' 'a\x5cb/c' "$(printed 'a\\b/c')"
expect 'what is no ASCII' $'\xc3\xa9\xc2\x80' "$(printed '\u00e9\u0080')"

# ---- what knows a name

# One name for each thing that a cut can have of it, b for two; a folder without devices has none.
known='{"version":1,"cut":{"folders":[{"folder":"music","devices":[]},{"folder":"docs","devices":[
  {"device":2,"kind":"send-receive","index_id":12,"max":0,
    "views":[{"of":7,"index_id":17,"max":9,"records":[
      {"name":"b","type":1,"modified_s":5,"modified_by":7,"version":[[7,1]],"sequence":4},
      {"name":"a","type":1,"modified_s":5,"modified_by":7,"version":[[7,2]],"sequence":9},
      {"name":"h","type":1,"modified_s":5,"modified_by":7,"version":[[7,2]],"sequence":8,"invalid":true}]}],
    "pulls":[{"name":"b","type":1,"modified_s":5,"modified_by":7,"version":[[7,1]],"sequence":4}]},
  {"device":5,"kind":"send-receive","index_id":15,"max":1,
    "own":[{"name":"f","type":1,"modified_s":5,"modified_by":5,"version":[[5,1]],"sequence":1}],
    "store":[{"name":"g","type":1,"modified_s":5}]},
  {"device":7,"kind":"send-receive","index_id":17,"max":10}]}],
  "links":[{"a":2,"b":7,"up":true,"epoch":3,
    "to_a":[{"folder":"docs","full":false,"records":[
      {"name":"c","type":1,"modified_s":5,"modified_by":7,"version":[[7,3]],"sequence":10}]}],
    "to_b":[{"folder":"docs","full":true,"records":[
      {"name":"e","type":1,"modified_s":5,"modified_by":2,"version":[[2,1]],"sequence":1},
      {"name":"d","type":1,"modified_s":5,"modified_by":2,"version":[[2,2]],"sequence":2}]}]}]},"certificate":[]}'

expect 'how many names are known' 'folder docs: 7 names, 6 deleted, 3 devices folder music: 0 names, 0 deleted, 0 devices' \
  "$({ "$program" check 2> /dev/null <<< "$known" || true; } | grep '^folder' | paste -sd ' ')"
expect 'what knows each name' "$(paste -sd ' ' << 'END'
NameMissing docs a
winner: none
view of 7 at 2: version [[7,2]], directory, time 5 s 0 ns
NameMissing docs b
winner: none
view of 7 at 2: version [[7,1]], directory, time 5 s 0 ns
pull at 2: version [[7,1]], directory, time 5 s 0 ns
NameMissing docs c
winner: none
on its way from 7 to 2: version [[7,3]], directory, time 5 s 0 ns
NameMissing docs d
winner: none
on its way from 2 to 7: version [[2,2]], directory, time 5 s 0 ns
NameMissing docs e
winner: none
on its way from 2 to 7: version [[2,1]], directory, time 5 s 0 ns
NameMissing docs f
winner: device 5, version [[5,1]], directory, time 5 s 0 ns
record of 5: version [[5,1]], directory, time 5 s 0 ns
NameMissing docs g
winner: none
store of 5: directory, time 5 s 0 ns
END
)" "$({ "$program" explain 2> /dev/null <<< "$known" || true; } | sed 's/^ *//' | paste -sd ' ')"

# ---- what a scan sees of a file that was put beside its record, and misses

hash=2cf24dba5fb0a30e26e83b2ac5b9e29e1b161e5c1fa7425e73043362938b9824
file='"name":"hello","type":0,"size":5,"blocks":["'$hash'"],'
gone='"name":"hello","type":0,"deleted":true,'

# beside RECORD NODE: all reasons that fail where device 2 has this node beside the record that device 1 has too.
beside() {
  local record="{$1"'"modified_s":1000,"modified_ns":500000000,"modified_by":1,"version":[[1,1]],"sequence":1}' node=''
  if [ "$1" = "$file" ]; then
    node='{"name":"hello","type":0,"modified_s":1000,"modified_ns":500000000,"text":"hello"}'
  fi
  { "$program" explain 2> /dev/null || true; } <<< "$begin$folder$device,\"own\":[$record],\"store\":[$node]},
    {\"device\":2,\"kind\":\"send-receive\",\"index_id\":12,\"max\":9,\"own\":[$record],\"store\":[$2]}]}]},
    \"certificate\":[{\"folder\":\"docs\",\"device\":1,\"record\":$record}]}" | grep -v '^ ' | paste -sd ' '
}

# node TEXT NANOSECONDS
node() {
  echo '{"name":"hello","type":0,"modified_s":1000,"modified_ns":'"$2"',"text":"'"$1"'"}'
}

differs='StoreDiffers docs hello on 2'
unclean='StoreUnclean docs hello on 2'
expect 'the same file' 'settled' "$(beside "$file" "$(node hello 500000000)")"
expect 'bytes in digits' 'settled' "$(beside "$file" '{"name":"hello","type":0,"modified_s":1000,"modified_ns":500000000,"hex":"68656c6C6F"}')"
expect 'other bytes' "$differs" "$(beside "$file" "$(node hallo 500000000)")"
expect 'other bytes and another time' "$differs $unclean" "$(beside "$file" "$(node hallo 500000001)")"
expect 'no file' "$differs $unclean" "$(beside "$file" '')"
expect 'a deletion' 'settled' "$(beside "$gone" '')"
expect 'an empty file beside a deletion' "$differs $unclean" "$(beside "$gone" "$(node '' 500000000)")"

# ---- what is written of a cut: each member, members by their names, and lists in order

# What device 7 has at b, device 2 at c and d, and device 7 at c for itself.
link_to_a='{"name":"b","type":4,"modified_s":-9223372036854775808,"modified_by":7,"version":[[7,1]],"sequence":4,"target":"a"}'
line_feed='{"name":"c","type":0,"modified_s":5,"modified_ns":8,"modified_by":2,"version":[[2,1],[7,1]],"sequence":2,"size":1,
  "blocks":["01BA4719C80B6FE911B091A7C05124B64EEECE964E09C058EF8F9805DACA546B"]}'
deleted='{"name":"d","type":1,"modified_s":5,"modified_by":2,"version":[[2,2]],"sequence":1,"deleted":true}'
local_change='{"name":"c","type":1,"modified_s":5,"modified_by":7,"version":[[7,2]],"sequence":5,"invalid":true}'

# A cut out of order, in which what has its default is left out; a view of index id 0 and sequence 0 says as much as none.
told='{"cut":{"links":[
  {"b":7,"a":2,"epoch":3,"up":true,
    "to_b":[{"records":['"$deleted,$line_feed"'],"full":true,"folder":"docs"},{"folder":"docs","full":false,"records":[]}],
    "to_a":[{"folder":"docs","full":false,"records":['"$link_to_a"']}]},
  {"a":2,"b":5,"up":false,"epoch":0}],
"folders":[{"folder":"music","devices":[]},{"folder":"docs","devices":[
  {"device":7,"kind":"receive-only","index_id":17,"max":9,"own":['"$link_to_a"'],
    "store":[{"name":"b","type":4,"modified_s":5,"target":"a"}]},
  {"device":5,"kind":"send-only","index_id":15,"max":0,"store":[{"name":"d","type":0,"modified_s":5}],
    "views":[{"of":7,"index_id":17,"max":9,"records":['"$local_change"']},{"of":2,"index_id":0,"max":0,"records":[]}]},
  {"device":2,"kind":"send-receive","index_id":12,"max":2,"own":['"$deleted,$line_feed"'],"pulls":['"$link_to_a"'],
    "store":[{"name":"d","type":1,"modified_s":5},{"name":"c","type":0,"modified_s":5,"modified_ns":8,"text":"\n"}],
    "views":[{"of":7,"index_id":17,"max":9,"records":['"$link_to_a"']},{"of":5,"index_id":15,"max":0,"records":[]}]}]}]},
"version":1}'

# The same as it is written, with the winners.
link_to_a='{"block_size":0,"blocks":[],"deleted":false,"invalid":false,"modified_by":7,"modified_ns":0,"modified_s":-9223372036854775808,"name":"b","sequence":4,"size":0,"target":"a","type":4,"version":[[7,1]]}'
line_feed='{"block_size":131072,"blocks":["01ba4719c80b6fe911b091a7c05124b64eeece964e09c058ef8f9805daca546b"],"deleted":false,"invalid":false,"modified_by":2,"modified_ns":8,"modified_s":5,"name":"c","sequence":2,"size":1,"target":"","type":0,"version":[[2,1],[7,1]]}'
deleted='{"block_size":0,"blocks":[],"deleted":true,"invalid":false,"modified_by":2,"modified_ns":0,"modified_s":5,"name":"d","sequence":1,"size":0,"target":"","type":1,"version":[[2,2]]}'
local_change='{"block_size":0,"blocks":[],"deleted":false,"invalid":true,"modified_by":7,"modified_ns":0,"modified_s":5,"name":"c","sequence":5,"size":0,"target":"","type":1,"version":[[7,2]]}'
written=$(tr -d '\n' << END
{"certificate":[{"device":7,"folder":"docs","record":$link_to_a},
{"device":2,"folder":"docs","record":$line_feed},
{"device":2,"folder":"docs","record":$deleted}],
"cut":{"folders":[{"devices":[
{"device":2,"index_id":12,"kind":"send-receive","max":2,"own":[$line_feed,$deleted],"pulls":[$link_to_a],
"store":[{"hex":"0a","modified_ns":8,"modified_s":5,"name":"c","target":"","type":0},
{"hex":"","modified_ns":0,"modified_s":5,"name":"d","target":"","type":1}],
"views":[{"index_id":15,"max":0,"of":5,"records":[]},{"index_id":17,"max":9,"of":7,"records":[$link_to_a]}]},
{"device":5,"index_id":15,"kind":"send-only","max":0,"own":[],"pulls":[],
"store":[{"hex":"","modified_ns":0,"modified_s":5,"name":"d","target":"","type":0}],
"views":[{"index_id":17,"max":9,"of":7,"records":[$local_change]}]},
{"device":7,"index_id":17,"kind":"receive-only","max":9,"own":[$link_to_a],"pulls":[],
"store":[{"hex":"","modified_ns":0,"modified_s":5,"name":"b","target":"a","type":4}],"views":[]}],"folder":"docs"},
{"devices":[],"folder":"music"}],
"links":[{"a":2,"b":5,"epoch":0,"to_a":[],"to_b":[],"up":false},
{"a":2,"b":7,"epoch":3,"to_a":[{"folder":"docs","full":false,"records":[$link_to_a]}],
"to_b":[{"folder":"docs","full":true,"records":[$deleted,$line_feed]},{"folder":"docs","full":false,"records":[]}],"up":true}]},
"version":1}
END
)
expect 'a cut out of order' "$written" "$(first_line certify <<< "$told")"
expect 'what is written' "$written" "$(first_line certify <<< "$written")"
