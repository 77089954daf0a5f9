# shellcheck shell=bash
# What the scripts that make, choose, compare and install the program share: the crates that it stands on, the digest of its
# sources, and what a manifest says. A script that reads this has set 'top', the folder of the repository.
#
# A program and its manifest stand in one folder: 'tools/release/' has the release, 'out/built/' what was built here.

release=$top/tools/release
built=$top/out/built

# program_crates [TOP]: the crates that the program stands on, the lowest first, each as 'CRATE: LOWER ..'.
program_crates() {
  awk -F: '
    function visit(crate, others, count, i, row) {
      if (seen[crate]++) return
      row = crate ":"
      count = split(uses[crate], others, " ")
      for (i = 1; i <= count; i++) if (others[i] in uses) {
        visit(others[i])
        row = row " " others[i]
      }
      print row
    }
    /^[a-z]/ { split($1, words, " "); uses[words[1]] = $2 }
    END { visit("syncaudit") }' "${1:-$top}/crates.txt"
}

# sources_digest [TOP]: a sum over the sums and paths of the sources that decide the program's bytes, in the order of the
# paths. These are src/ of the program's crates, crates.txt and HANDLES. Definitions and proofs leave no byte in it.
sources_digest() (
  cd "${1:-$top}" || exit
  folders=$(program_crates . | sed 's|\(.*\):.*|crates/\1/src|')
  # shellcheck disable=SC2086 # each word is a folder
  find crates.txt HANDLES $folders -type f ! -name '.*' | LC_ALL=C sort | xargs -d '\n' sha256sum | sha256sum | cut -d ' ' -f 1
)

# sum_of FILE: its sha256.
sum_of() {
  sha256sum < "$1" | cut -d ' ' -f 1
}

# told KEY FOLDER: what the manifest in this folder tells of the key; nothing where it doesn't.
told() {
  sed -n "s/^$1 //p" "$2/manifest" 2> /dev/null || true
}

# is_whole FOLDER: the program in this folder has the bytes that its manifest tells.
is_whole() {
  [ -x "$1/syncaudit" ] && [ -f "$1/manifest" ] && [ "$(sum_of "$1/syncaudit")" = "$(told program "$1")" ]
}

# is_of DIGEST FOLDER: the program in this folder was made of the sources with this digest.
is_of() {
  [ "$1" = "$(told sources "$2")" ]
}

# has_rt: the command that proves and builds is there.
has_rt() {
  command -v rt > /dev/null 2>&1
}

# strip_program FILE TO: the program without its symbols. The toolchain's own strip makes it, so no other version has a say.
strip_program() {
  local kit
  kit=$(dirname "$(rt doc)")
  (exec -a llvm-strip "$kit/toolchain/bin/clang" -o "$2" "$1")
}

# keep_built FILE TOP [LINES]: what rt built of the sources in TOP is the program that was built here. Its manifest has the
# lines of that file too.
keep_built() {
  rm -rf "$built"
  mkdir -p "$built" && strip_program "$1" "$built/syncaudit" || return
  {
    printf '%s\n' "toolchain $(rt version)" "program $(sum_of "$built/syncaudit")" "sources $(sources_digest "$2")"
    cat "${3:-/dev/null}"
  } > "$built/manifest"
}
