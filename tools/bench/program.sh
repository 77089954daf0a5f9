# For the scripts beside it, which set top and work: a program of their own over some of the repository's crates.

# start_program NAME USES CRATES..: makes the crate NAME, which uses these libraries (words of a line of crates.txt), in a
# folder with copies of the crates, lowest first, and goes there. Its source is for the caller to write.
start_program() {
  local name=$1 uses=$2 crate
  shift 2
  mkdir "$work/crates"
  for crate in "$@"; do
    cp -r "$top/crates/$crate" "$work/crates/$crate"
    grep "^$crate:" "$top/crates.txt" >> "$work/crates.txt"
  done
  cd "$work"
  git init -q
  rt new "crates/$name" start_io > "$work/log" 2>&1
  echo "$name: $uses" >> crates.txt
  cd "crates/$name"
  rm -rf BUILD.bazel ../../BUILD.bazel src/* specs proofs stdin stdout
}
