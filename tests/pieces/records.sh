# What records, nodes, names and targets may be. Read by pieces.sh.
# shellcheck shell=bash disable=SC2154 # pieces.sh has the pieces and functions that stand in no file of this folder

# ---- what is refused of a record or node

each_row "$begin$folder$device"',"own":[{"name":"hello","type":0,"modified_s":1000,"modified_by":1,"version":[[1,1]],"sequence":1' "}]$end" << 'END'
187 RecordBad docs 1 hello |
187 RecordBad docs 1 hello | ,"blocks":[]
187 RecordBad docs 1 hello | ,"block_size":131072,"size":5
187 RecordBad docs 1 hello | ,"size":0
187 RecordBad docs 1 hello | ,"size":16777216
183 Shape | ,"size":1.0
183 Shape | ,"size":-0
183 Shape | ,"size":1e3
183 Shape | ,"size":18446744073709551616
183 Shape | ,"size":-9223372036854775809
183 Shape | ,"size":"5"
183 Shape | ,"size":null
183 Shape | ,"size":[1]
184 Range | ,"size":-1
184 Range | ,"size":16777217
184 Range | ,"size":18446744073709551615
184 Range | ,"modified_by":0
187 RecordBad docs 1 hello | ,"modified_by":18446744073709551615
184 Range | ,"type":2
184 Range | ,"modified_s":9223372036854775808
184 Range | ,"target":"a\u0000"
183 Shape | ,"x":1
183 Shape | ,"version":[[1]]
183 Shape | ,"version":[[1,1,1]]
183 Shape | ,"version":1
183 Shape | ,"blocks":[1]
183 Shape | ,"deleted":0
183 Shape | ,"deleted":1
184 Range | ,"sequence":9223372036854775808
184 Range | ,"modified_ns":1000000000
184 Range | ,"block_size":4294967296
184 Range | ,"version":[[2,1],[1,1]]
184 Range | ,"version":[[0,1]]
184 Range | ,"version":[[1,0]]
184 Range | ,"version":[[1,9223372036854775808]]
184 Range | ,"version":[[1,1],[1,1]]
184 Range | ,"blocks":["2c"]
END

# A node is no record.
each_row "$begin$folder$device"',"own":[{"name":"hello","type":1,"modified_s":0' "}]$end" << 'END'
183 Shape |
read | ,"modified_by":1,"version":[[1,1]],"sequence":1
END

each_row "$begin$folder$device"',"store":[{"name":"hello","type":0,"modified_s":1000' "}]$end" << 'END'
183 Shape | ,"text":"a","hex":"61"
183 Shape | ,"type":4
183 Shape | ,"size":5
183 Shape | ,"text":5
184 Range | ,"hex":"00f"
184 Range | ,"hex":"0x"
read | ,"hex":"68656c6C6f"
187 RecordBad docs 1 hello | ,"type":4,"target":""
END

# ---- what a record may be

each_row "$begin$folder$device"',"own":[{"name":"hello","modified_s":-9223372036854775808,"modified_by":1,"version":[[1,1]],"sequence":1' "}]$end" << 'END'
read | ,"type":0,"size":5,"blocks":["2cf24dba5fb0a30e26e83b2ac5b9e29e1b161e5c1fa7425e73043362938b9824"]
read | ,"type":0,"size":0,"blocks":["e3b0c44298fc1c149afbf4c8996fb92427ae41e4649b934ca495991b7852b855"]
187 RecordBad docs 1 hello | ,"type":0,"size":0,"blocks":["2cf24dba5fb0a30e26e83b2ac5b9e29e1b161e5c1fa7425e73043362938b9824"]
187 RecordBad docs 1 hello | ,"type":0,"size":0,"blocks":[]
187 RecordBad docs 1 hello | ,"type":0,"size":131073,"blocks":["2cf24dba5fb0a30e26e83b2ac5b9e29e1b161e5c1fa7425e73043362938b9824"]
read | ,"type":0,"deleted":true
read | ,"type":1
read | ,"type":4,"target":"there"
187 RecordBad docs 1 hello | ,"type":1,"block_size":131072
187 RecordBad docs 1 hello | ,"type":4,"target":""
187 RecordBad docs 1 hello | ,"type":4
read | ,"type":1,"version":[]
END

# counted COUNT: what is told of a version with as many counters.
counted() {
  answer <<< "$begin$folder$device"',"own":[{"name":"a","type":1,"modified_s":0,"modified_by":1,"sequence":1,"version":['"$(
    seq "$1" | sed 's/.*/[&,1]/' | paste -sd,
  )]}]$end"
}

expect '16 counters' 'read' "$(counted 16)"
expect '17 counters' '184 Range' "$(counted 17)"

# ---- how long a file may be

# sized COUNT TYPE: what is told of a node of this type with as many bytes.
sized() {
  {
    printf '%s' "$begin$folder$device"',"store":[{"name":"a","type":'"$2"',"modified_s":0,"text":"'
    head -c "$1" /dev/zero | tr '\0' x
    printf '%s' "\"}]$end"
  } | answer
}

expect 'a file of the greatest length' 'read' "$(sized 16777216 0)"
expect 'a longer file' '184 Range' "$(sized 16777217 0)"
expect 'a directory with more bytes than a file has' '184 Range' "$(sized 16777217 1)"

# ---- documents of version 2

# in_version VERSION SIZE BLOCK_SIZE COUNT: what is told of a record of a file of this size, which says this block size and
# has as many hashes.
in_version() {
  {
    printf '%s' "${begin/\"version\":1/\"version\":$1}$folder$device"',"own":[{"name":"hello","type":0,"modified_s":1000,'
    printf '%s' '"modified_by":1,"version":[[1,1]],"sequence":1,"size":'"$2"',"block_size":'"$3"',"blocks":['
    yes "\"$(printf 'ab%.0s' {1..32})\"" | head -n "$4" | paste -s -d ,
    printf '%s' "]}]$end"
  } | answer
}

expect 'a long file in version 1' '184 Range' "$(in_version 1 16777217 131072 129)"
expect 'a long file in version 2' 'read' "$(in_version 2 16777217 131072 129)"
expect 'the longest file of the least blocks' 'read' "$(in_version 2 262143999 131072 2000)"
expect 'a longer file of the least blocks' '187 RecordBad docs 1 hello' "$(in_version 2 262144000 131072 2000)"
expect 'a longer file of larger blocks' 'read' "$(in_version 2 262144000 262144 1000)"
expect 'the longest file of these' 'read' "$(in_version 2 524287999 262144 2000)"
expect 'a file of the largest blocks' 'read' "$(in_version 2 524288000 524288 1000)"
expect 'the longest file' 'read' "$(in_version 2 536870912 524288 1024)"
expect 'a file that is too long' '184 Range' "$(in_version 2 536870913 524288 1025)"

# ---- what is a name, a target and the name of a folder

# is TEXT NAME TARGET FOLDER: whether the text is each of these, or out of range.
is() {
  expect "the name $1" "$2" "$(answer <<< "$begin$folder$device,\"store\":[{\"name\":\"$1\",\"type\":1,\"modified_s\":0}]$end" | cut -d ' ' -f 1)"
  expect "the target $1" "$3" "$(answer <<< "$begin$folder$device,\"store\":[{\"name\":\"a\",\"type\":4,\"modified_s\":0,\"target\":\"$1\"}]$end" | cut -d ' ' -f 1)"
  expect "the folder $1" "$4" "$(answer <<< "$begin{\"folder\":\"$1\",\"devices\":[$device$end" | cut -d ' ' -f 1)"
}

# By BEP's rules for names, and this profile's limits. An empty target is in range, but a symlink doesn't have it.
is a read read read
is Az09-_ read read read
is notes.txt read read 184
is a/b/c read read 184
is ..b read read 184
is ... read read 184
is .profile read read 184
is $'\xc3\xa9/\xf0\x9f\x98\x80' read read 184
is ../a//b/. 184 read 184
is '' 184 187 184
is / 184 read 184
is a//b 184 read 184
is /a 184 read 184
is a/ 184 read 184
is . 184 read 184
is .. 184 read 184
is a/.. 184 read 184
is ./a 184 read 184
is 'a\u0000b' 184 184 184

is "$(letters 64)" read read read
is "$(letters 65)" read read 184
is "$(letters 1024)" read read 184
is "$(letters 1025)" 184 184 184
