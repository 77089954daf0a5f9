# For the scripts beside it, which set top, work and runs: a document, and the times and memory of programs on it.

# make_document KIND: the document of this kind (see make_document.py) is the one that is measured from now on.
make_document() {
  python3 "$top/tools/bench/make_document.py" "$1" > "$work/document"
}

# measure NAME COMMAND..: runs the command RUNS times on the document, and keeps its processor seconds and its peak memory in
# KiB.
measure() {
  local name=$1
  shift
  rm -f "$work/$name.times"
  for _ in $(seq "$runs"); do
    /usr/bin/time -q -o "$work/$name.time" -f '%U %S %M' "$@" < "$work/document" > "$work/$name.out"
    awk '{ print $1 + $2, $3 }' "$work/$name.time" >> "$work/$name.times"
  done
}

# compare ONE OTHER: prints the best seconds and the most memory of both, and how many times as much the other takes.
compare() {
  awk -v bytes="$(stat -c %s "$work/document")" -v one="$1" -v other="$2" '
    FNR == 1 { file++ }
    FNR == 1 || $1 < seconds[file] { seconds[file] = $1 }
    $2 > memory[file] { memory[file] = $2 }
    function row(name, place) {
      printf "%-12s %7.2f s %7.0f MB, %5.1f bytes a byte of the document\n", name, seconds[place], memory[place] * 1024 / 1e6, memory[place] * 1024 / bytes
    }
    END {
      printf "document     %7.1f MB\n", bytes / 1e6
      row(one, 1)
      row(other, 2)
      printf "%s takes %.2f times as long, and %.2f times the memory\n", other, seconds[2] / seconds[1], memory[2] / memory[1]
    }' "$work/$1.times" "$work/$2.times"
}
