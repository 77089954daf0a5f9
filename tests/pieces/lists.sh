# Lists of records in each of their places, and how long lists may be. Read by pieces.sh.
# shellcheck shell=bash disable=SC2154 # pieces.sh has the pieces and functions that stand in no file of this folder

# ---- what is refused of lists of records

# records TEXT: the records of a text as 'a 1, blockless b 2, invalid c 3': each a name and a sequence, of a directory, of a
# file that lacks its block, and of an invalid directory.
records() {
  local rest='"modified_s":0,"modified_by":1,"version":[[1,1]],"name"'
  sed -E 's/((blockless |invalid )?)([^ ,]+) ([^ ,]+)/{\1"name":"\3","sequence":\4}/g' <<< "$1" |
    sed 's/{"name"/{"type":1,'"$rest"'/g; s/{invalid "name"/{"type":1,"invalid":true,'"$rest"'/g
      s/{blockless "name"/{"type":0,"size":5,'"$rest"'/g'
}

# list_in PLACE RECORDS: a document with these records at a place of device 1: its own, in its view of device 2 or among its
# pulls; or on their way to an end of its link with device 2.
list_in() {
  local list before after=']'
  list=$(records "$2")
  case $1 in
    own | pulls)
      before=",\"$1\":["
      ;;
    view)
      before=',"views":[{"of":2,"index_id":12,"max":9,"records":['
      after=']}]'
      ;;
    to_a | to_b)
      before="$others{\"a\":1,\"b\":2,\"up\":true,\"epoch\":1,\"$1\":[{\"folder\":\"docs\",\"full\":true,\"records\":["
      echo "$begin$folder$device$before$list]}]}$end_of_links"
      return
      ;;
  esac
  echo "$begin$folder$device$before$list$after$others$end_of_links"
}

# each_list PLACE: of each line 'answer | records' on standard input, a document with these records there is told so.
each_list() {
  local row wanted records
  while IFS= read -r row; do
    wanted=${row%% |*}
    records=${row#"$wanted | "}
    expect "$1: $records" "$wanted" "$(list_in "$1" "$records" | answer)"
  done
}

each_list own << 'END'
read | a 1, b 2, c 9
185 Twice docs 1 b | a 1, b 2, b 3
185 Twice docs 1 b | blockless c 3, b 2, b 0
187 RecordBad docs 1 c | a 1, blockless c 3, blockless d 4
187 RecordBad docs 1 c | d 0, b 2, blockless c 3
188 SequenceBad docs 1 c | a 1, b 2, c 10
188 SequenceBad docs 1 c | a 1, c 0, d 10
188 SequenceBad docs 1 c | a 1, b 2, c 1
184 Range | a 1, b 2, c -1
184 Range | a 1, b 2, c/ 3
183 Shape | a 1, b 2, c 1.0
END

each_list view << 'END'
read | a 1, b 2, c 9
185 Twice docs 1 b | a 1, b 2, b 3
187 RecordBad docs 1 c | a 1, b 2, blockless c 3
read | a 1, b 2, invalid c 3
188 SequenceBad docs 1 c | a 1, b 2, c 10
188 SequenceBad docs 1 c | a 1, b 2, c 0
188 SequenceBad docs 1 c | a 1, b 2, c 1
188 SequenceBad docs 1 c | a 1, b 2, c 2
184 Range | a 1, b 2, c -1
188 SequenceBad docs 1 a | a 0, b 2, c 3
END

# Sequences of pulls are those of other devices.
each_list pulls << 'END'
read | a 1, b 2, c 9
185 Twice docs 1 b | a 1, b 2, b 3
187 RecordBad docs 1 c | a 1, b 2, blockless c 3
187 RecordBad docs 1 c | a 1, b 2, invalid c 3
read | a 1, b 2, c 10
read | a 1, b 2, c 0
read | a 1, b 2, c 1
read | a 1, b 2, c 2
184 Range | a 1, b 2, c -1
read | a 0, b 2, c 3
END

# A message has no greatest sequence, and its sequences rise; not even its first is 0.
each_list to_b << 'END'
read | a 1, b 2, c 9
185 Twice docs 2 b | a 1, b 2, b 3
187 RecordBad docs 2 c | a 1, b 2, blockless c 3
read | a 1, b 2, invalid c 3
read | a 1, b 2, c 10
188 SequenceBad docs 2 c | a 1, b 2, c 0
188 SequenceBad docs 2 c | a 1, b 2, c 1
188 SequenceBad docs 2 c | a 1, b 2, c 2
184 Range | a 1, b 2, c -1
188 SequenceBad docs 2 a | a 0, b 2, c 3
END

# Two messages may carry equal sequences.
expect 'one record in two messages' 'read' \
  "$(answer <<< "$begin$folder$device$others{\"a\":1,\"b\":2,\"up\":true,\"epoch\":1,\"to_b\":[
    {\"folder\":\"docs\",\"full\":true,\"records\":[$(records 'a 2')]},
    {\"folder\":\"docs\",\"full\":false,\"records\":[$(records 'a 2')]}]}$end_of_links")"

# Within each of them sequences rise, whatever came before.
expect 'a sequence twice in the second of two messages' '188 SequenceBad docs 2 b' \
  "$(answer <<< "$begin$folder$device$others{\"a\":1,\"b\":2,\"up\":true,\"epoch\":1,\"to_b\":[
    {\"folder\":\"docs\",\"full\":true,\"records\":[$(records 'a 1, b 2')]},
    {\"folder\":\"docs\",\"full\":false,\"records\":[$(records 'a 2, b 2')]}]}$end_of_links")"

# ---- the smallest number is told, and of one number the first place

# on_a_down_link VIEWS RECORDS LINKS: what is told of these views of device 1, these records on their way to it on a link that
# is down, and these further links.
on_a_down_link() {
  answer <<< "$begin$folder$device$1$others"'{"a":1,"b":2,"up":false,"epoch":1,"to_a":[
    {"folder":"docs","full":true,"records":['"$(records "$2")]}]}$3$end_of_links"
}

itself=',"views":[{"of":1,"index_id":0,"max":0,"records":[]}]'
expect 'a link twice, and more' '185 Twice - 1 -' \
  "$(on_a_down_link "$itself" 'blockless a 2, b 1, c 3' ',{"a":1,"b":2,"up":true,"epoch":1}')"
expect 'a view of itself, and more' '186 Unshared docs 1 -' "$(on_a_down_link "$itself" 'blockless a 2, b 1, c 3' '')"
expect 'no block, and more' '187 RecordBad docs 1 a' "$(on_a_down_link '' 'blockless a 2, b 1, c 3' '')"
expect 'falling sequences, and more' '188 SequenceBad docs 1 b' "$(on_a_down_link '' 'a 2, b 1, c 3' '')"
expect 'a message on a link that is down' '189 LinkBad - 1 -' "$(on_a_down_link '' 'a 1' '')"

# bad_in PLACE..: what is told where a record lacks its block in each of these lists: pulls, views, own, and messages.
bad_in() {
  local lists='' links='' place
  for place in "$@"; do
    case $place in
      own | pulls) lists+=",\"$place\":[$(records "blockless $place 1")]" ;;
      views) lists+=",\"views\":[{\"of\":2,\"index_id\":1,\"max\":9,\"records\":[$(records "blockless $place 1")]}]" ;;
      messages)
        links='{"a":1,"b":2,"up":true,"epoch":1,"to_b":[{"folder":"docs","full":true,"records":['"$(records "blockless to_2 1")"']}],
          "to_a":[{"folder":"docs","full":true,"records":['"$(records "blockless to_1 1")"']}]}'
        ;;
    esac
  done
  answer <<< "$begin$folder$device$lists$others$links$end_of_links"
}

expect 'own records before all' '187 RecordBad docs 1 own' "$(bad_in pulls views own messages)"
expect 'views before pulls' '187 RecordBad docs 1 views' "$(bad_in pulls views)"
expect 'pulls before messages' '187 RecordBad docs 1 pulls' "$(bad_in pulls messages)"
expect 'the smaller end first' '187 RecordBad docs 1 to_1' "$(bad_in messages)"

# ---- how long lists may be

# items COUNT ITEM: as many items, each with its number where & stands.
items() {
  seq "$1" | sed "s/.*/$2/" | paste -sd,
}

# at_most MOST BEFORE ITEM AFTER: as many items are read between these pieces, and one more is out of range.
at_most() {
  expect "$1 times $3" 'read' "$(answer <<< "$2$(items "$1" "$3")$4")"
  expect "$(($1 + 1)) times $3" '184 Range' "$(answer <<< "$2$(items "$(($1 + 1))" "$3")$4")"
}

directory_of_number='{"type":1,"modified_s":0,"modified_by":1,"version":[[1,1]],"name":"&","sequence":&}'
message='{"folder":"docs","full":true,"records":['
link='{"a":1,"b":2,"up":true,"epoch":1,"to_'
device_of_number='{"device":&,"kind":"send-only","max":0,"index_id":&}'

at_most 64 "$begin$folder$device,\"pulls\":[" "$directory_of_number" "]$end"
at_most 4096 "$begin$folder${device%9}5000,\"own\":[" "$directory_of_number" "]$end"
at_most 4096 "$begin$folder$device,\"views\":[{\"of\":2,\"index_id\":12,\"max\":5000,\"records\":[" "$directory_of_number" "]}]$others$end_of_links"
at_most 1000 "$begin$folder$device$others${link}a\":[$message" "$directory_of_number" "]}]}$end_of_links"
at_most 1024 "$begin$folder$device$others${link}a\":[" "$message$directory_of_number]}" "]}$end_of_links"
at_most 1024 "$begin$folder$device$others${link}b\":[" "$message$directory_of_number]}" "]}$end_of_links"
at_most 16 "$begin" '{"folder":"f&","devices":[{"device":1,"kind":"send-only","max":0,"index_id":&}]}' ']},"certificate":[]}'

# The devices of all folders are counted together; one that stands twice counts once.
other_folder='{"folder":"other","devices":[{"device":1,"kind":"send-only","index_id":1,"max":0}]},'
at_most 16 "$begin$other_folder$folder" "$device_of_number" ']}]},"certificate":[]}'
expect 'a device of 16 twice' '185 Twice docs 3 -' "$(answer <<< "$begin$folder$(items 16 "$device_of_number"),
  {\"device\":3,\"kind\":\"send-only\",\"max\":0,\"index_id\":1}]}]},\"certificate\":[]}")"
