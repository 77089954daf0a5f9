# What is refused of documents, cuts, devices, rows, views, links and messages. Read by pieces.sh.
# shellcheck shell=bash disable=SC2154 # pieces.sh has the pieces and functions that stand in no file of this folder

# ---- what is refused of the whole document, of a cut and of a device

each_row '' '' << 'END'
181 NotJson |
181 NotJson | {"version":1
181 NotJson | {"version":"\ud83d"}
182 VersionBad | {"version":"\ud83d\ude00"}
182 VersionBad | [1]
182 VersionBad | {}
182 VersionBad | {"version":1.0}
182 VersionBad | {"version":"1"}
182 VersionBad | {"version":1,"version":3}
183 Shape | {"version":2,"version":1}
END

# nested DEPTH: as many brackets, one in another.
nested() {
  printf '[%.0s' $(seq "$1")
  printf ']%.0s' $(seq "$1")
}

expect '127 brackets' '182 VersionBad' "$(nested 127 | answer)"
expect '128 brackets' '181 NotJson' "$(nested 128 | answer)"
expect '200 brackets' '181 NotJson' "$(nested 200 | answer)"
expect 'what is no UTF-8' '181 NotJson' "$(printf '"\xff"' | answer)"
expect 'a document of the greatest length' '181 NotJson' "$(head -c 67108864 /dev/zero | tr '\0' x | answer)"
expect 'a longer document' '184 Range' "$(head -c 67108865 /dev/zero | tr '\0' x | answer)"
expect 'what is left of a much longer one' '5' "$({ "$program" check > /dev/null 2>&1 || true; wc -c; } < <(head -c 67108870 /dev/zero))"

each_row "$begin" '' << 'END'
read | ]},"certificate":[]}
read | ],"links":[]},"certificate":[]}
183 Shape | ],"links":[1]},"certificate":[]}
183 Shape | ],"more":1},"certificate":[]}
183 Shape | ]},"certificate":[],"more":1}
183 Shape | ]},"certificate":[{}]}
183 Shape | ]}}
END

expect 'no folders and no rows' 'settled' "$({ "$program" check 2> /dev/null || true; } <<< "$begin"']},"certificate":[]}')"

# Further members; one that is there already takes the place of the one before.
each_row "$begin$folder$device" "$end" << 'END'
read |
read | ,"views":[],"pulls":[],"store":[]
read | ,"kind":"receive-only"
read | ,"device":18446744073709551615
read | ,"index_id":1
read | ,"max":9223372036854775807
183 Shape | ,"views":[1]
183 Shape | ,"pulls":{}
183 Shape | ,"more":1
183 Shape | ,"kind":5,"device":0
183 Shape | ,"device":18446744073709551616
183 Shape | ,"device":-0
183 Shape | ,"device":1.0
183 Shape | ,"device":1e3
183 Shape | ,"device":1.5e1
183 Shape | ,"own":{}
183 Shape | ,"own":[{}]
183 Shape | ,"store":[{}]
184 Range | ,"kind":"send"
184 Range | ,"device":0
184 Range | ,"index_id":0
184 Range | ,"max":9223372036854775808
END

# A number too large for a float is no JSON, wherever it stands, in a member that is dropped too; one that a float holds is
# of another kind.
vast=$(printf '9%.0s' {1..310})
held=1$(printf '0%.0s' {1..308})
each_row "$begin$folder$device" "$end" << END
181 NotJson | ,"device":1e400
181 NotJson | ,"device":-1e400
181 NotJson | ,"more":1e400
181 NotJson | ,"device":1e400,"device":1
181 NotJson | ,"device":$vast
181 NotJson | ,"more":$vast
181 NotJson | ,"device":$vast,"device":1
183 Shape | ,"device":$held
183 Shape | ,"more":1e3
read | ,"device":1.5e1,"device":1
read | ,"device":$held,"device":1
END

# So is half of a surrogate pair, and what nests too deep.
each_row "$begin$folder$device" "$end" << 'END'
181 NotJson | ,"kind":"\ud83d","kind":"send-only"
181 NotJson | ,"kind":["\udc00"],"kind":"send-only"
181 NotJson | ,"kind":{"\ud83d\ud83d\ude00":1},"kind":"send-only"
read | ,"kind":"\ud83d\ude00","kind":"send-only"
END

# kinds DEPTH: what is told of a device whose kind is so many brackets first, and then one of the kinds. Six stand around them.
kinds() {
  answer <<< "$begin$folder$device,\"kind\":$(nested "$1"),\"kind\":\"send-only\"$end"
}
expect '127 brackets in a member that is dropped' 'read' "$(kinds 121)"
expect '128 brackets in a member that is dropped' '181 NotJson' "$(kinds 122)"

each_row "$begin$folder$device" "$device$end" << 'END'
185 Twice docs 1 - | },
185 Twice docs - - | }]},{"folder":"docs","devices":[
read | }]},{"folder":"other","devices":[
184 Range | }]},{"folder":"a.b","devices":[
181 NotJson | }]},{"folder":"\ud800","devices":[
183 Shape | }]},{"folder":5,"devices":[
183 Shape | }]},{"more":1,"folder":"a","devices":[
END

each_row "$begin$folder$device"',"store":[{"name":"a","type":1,"modified_s":0},{"type":1,"modified_s":0' "]$end" << 'END'
read | ,"name":"b"}
185 Twice docs 1 a | ,"name":"a"}
187 RecordBad docs 1 b | ,"name":"b","text":"b"}
187 RecordBad docs 1 b | ,"name":"b","type":4,"target":""}
read | ,"name":"b","text":"","target":""}
183 Shape | ,"name":"b","type":4}
184 Range | ,"name":"b","modified_ns":1000000000}
END

# ---- what is refused of rows, views, links and messages

directory='{"type":1,"modified_s":0,"modified_by":1,"version":[[1,1]]'
blockless='{"type":0,"size":5,"modified_s":0,"modified_by":1,"version":[[1,1]]'
of_c=',"name":"c","sequence":0}}]}'

each_row "$begin"']},"certificate":[{"folder":"docs",' "$directory$of_c" << 'END'
read | "device":7,"record":
183 Shape | "device":7,"more":1,"record":
END
each_row "$begin"']},"certificate":[{"folder":"docs",' "$blockless$of_c" << 'END'
187 RecordBad docs 7 c | "device":7,"record":
184 Range | "device":0,"record":
END

each_row "$begin$folder$device"',"views":[{' "}]$others$end_of_links" << 'END'
read | "of":2,"index_id":0,"max":0,"records":[]
184 Range | "of":2,"index_id":-1,"max":0,"records":[]
184 Range | "of":0,"index_id":0,"max":0,"records":[]
read | "of":2,"index_id":18446744073709551615,"max":9223372036854775807,"records":[]
184 Range | "of":2,"index_id":0,"max":9223372036854775808,"records":[]
183 Shape | "of":2,"index_id":0,"max":0
183 Shape | "of":2,"index_id":0,"records":[]
183 Shape | "of":2,"index_id":0,"max":0,"records":[],"more":1
185 Twice docs 1 - | "of":2,"index_id":0,"max":0,"records":[]},{"of":2,"index_id":1,"max":1,"records":[]
186 Unshared docs 1 - | "of":1,"index_id":0,"max":0,"records":[]
186 Unshared docs 1 - | "of":3,"index_id":0,"max":0,"records":[]
END

each_row "$begin$folder$device$others" "$end_of_links" << 'END'
read | {"a":1,"b":2,"up":false,"epoch":0}
read | {"a":1,"b":3,"up":true,"epoch":9223372036854775807,"to_a":[],"to_b":[]}
184 Range | {"a":1,"b":2,"up":true,"epoch":9223372036854775808}
184 Range | {"a":1,"b":0,"up":true,"epoch":0}
183 Shape | {"a":1,"b":2,"up":1,"epoch":0}
183 Shape | {"a":1,"b":2,"up":true}
183 Shape | {"a":1,"b":2,"up":true,"epoch":0,"more":1}
185 Twice - 2 - | {"a":2,"b":3,"up":true,"epoch":0},{"a":2,"b":3,"up":false,"epoch":1}
189 LinkBad - 2 - | {"a":1,"b":2,"up":true,"epoch":0},{"a":2,"b":1,"up":true,"epoch":0}
189 LinkBad - 3 - | {"a":3,"b":2,"up":true,"epoch":0}
189 LinkBad - 2 - | {"a":2,"b":2,"up":true,"epoch":0}
189 LinkBad - 2 - | {"a":2,"b":4,"up":true,"epoch":0}
183 Shape | {"a":1,"b":2,"epoch":0,"up":true,"to_a":[{"folder":"docs","records":[]}]}
189 LinkBad - 1 - | {"a":1,"b":2,"epoch":0,"up":false,"to_b":[{"folder":"docs","full":true,"records":[]}]}
186 Unshared other 1 - | {"a":1,"b":2,"epoch":0,"up":true,"to_a":[{"folder":"other","full":true,"records":[]}]}
186 Unshared none 2 - | {"a":1,"b":2,"epoch":0,"up":true,"to_b":[{"folder":"none","full":true,"records":[]}]}
186 Unshared docs 4 - | {"a":1,"b":4,"epoch":0,"up":true,"to_b":[{"folder":"docs","full":true,"records":[]}]}
189 LinkBad - 1 - | {"a":1,"b":4,"epoch":0,"up":true,"to_b":[]}
END
