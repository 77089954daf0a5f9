# shellcheck shell=bash
# What ./install puts below a prefix, and what ./package packs.

release_of release
rm -rf "$place/out/built"
mkdir -p "$place/docs" "$place/auditor"
cp docs/documents.md docs/reasons.md docs/rows.md docs/*.schema.json docs/*.1 "$place/docs"
cp -r docs/completions "$place/docs"
cp -r auditor/completions auditor/syncthing-audit.1 auditor/audit.schema.json "$place/auditor"
cp -r examples "$place"

# The examples that the help of a command or the man page names.
examples_named() {
  {
    cat docs/syncaudit.1
    for command in $(helped); do
      help_of "$command"
    done
  } | tr -d '\\' | grep -oE 'examples/[a-z/-]*\.jsonl?' | sort -u
}

expect "no example in the help and the man page: $(examples_named)" [ "$(examples_named | wc -l)" -ge 4 ]
# A night has limits.
for unit in auditor/nightly/systemd/*.service; do
  expect "$unit has no limit of time or none of memory" [ "$(grep -cE '^(TimeoutStartSec|MemoryMax)=.' "$unit")" = 2 ]
done

# Whatever builds with Go takes no settings of its user's, and no other Go than Debian's.
for builder in $(grep -lE '^[^#]*\bgo build' tools/release/*.sh tools/disk-programs install package); do
  expect "$builder builds with settings of its user's" \
    [ "$(grep -c "GOENV=off GOFLAGS='' GOTOOLCHAIN=local " "$builder")" = "$(grep -cE '^[^#]*\bgo build' "$builder")" ]
done

for prefix in '' --help; do
  status=0
  "$place/install" "$prefix" > "$work/output" 2> "$work/error" || status=$?
  expect "install into '$prefix' has status $status" [ "$status" = 3 ]
done
status=0
"$place/install" "$work/prefix" > "$work/output" 2> "$work/error" || status=$?
expect "install has status $status" [ "$status" = 0 ]
files=(bin/syncaudit lib/syncaudit/syncaudit lib/syncaudit/waiting.sh share/man/man1/syncaudit.1 share/man/man1/syncthing-audit.1 share/bash-completion/completions/syncaudit
  share/zsh/site-functions/_syncaudit share/fish/vendor_completions.d/syncaudit.fish
  share/bash-completion/completions/syncthing-audit share/zsh/site-functions/_syncthing-audit
  share/fish/vendor_completions.d/syncthing-audit.fish
  share/doc/syncaudit/documents.md share/doc/syncaudit/reasons.md share/doc/syncaudit/rows.md share/doc/syncaudit/check-document.schema.json
  share/doc/syncaudit/explanation.schema.json share/doc/syncaudit/scenario.schema.json
  share/doc/syncaudit/audit.schema.json)
mapfile -O "${#files[@]}" -t files < <(examples_named | sed 's,^,share/doc/syncaudit/,')
for file in "${files[@]}"; do
  expect "install puts no $file below its prefix" [ -f "$work/prefix/$file" ]
  expect "install doesn't say that it puts $file" says "$work/prefix/$file" "$work/output"
done

# The installed command is the program, however it is called.
expect "what install puts isn't the release" cmp -s "$work/prefix/lib/syncaudit/syncaudit" "$place/tools/release/syncaudit"
ln -s "$work/prefix/bin/syncaudit" "$work/linked"
for called in "$work/prefix/bin/syncaudit" "$work/linked"; do
  status=0
  "$called" it 'a b' > "$work/output" 2> "$work/error" || status=$?
  expect "$called doesn't run the release: $(cat "$work/output" "$work/error")" answers 'release: it a b'
  expect "$called has status $status" [ "$status" = 1 ]
done
expect "$called says something by itself" is_silent
expect_waiting "$work/prefix/bin/syncaudit"
mkdir -p "$work/alone/bin"
cp "$work/prefix/bin/syncaudit" "$work/alone/bin"
status=0
"$work/alone/bin/syncaudit" check > "$work/output" 2> "$work/error" || status=$?
expect "the installed command without its program has status $status" [ "$status" = 127 ]
expect "it doesn't say what is missing: $(cat "$work/error")" tells "the program isn't in $work/alone/lib/syncaudit"

# ---- without Go, and off PATH

rm -f "$work/tools/go"
tools install mkdir
# install_by PATH: installs where these directories are on PATH.
install_by() {
  status=0
  PATH=$1 "$place/install" "$work/goless" > "$work/output" 2> "$work/error" || status=$?
}
mkdir -p "$place/auditor/src"
install_by "$work/tools"
expect "install without Go has status $status, where the exporter's sources are there" [ "$status" = 127 ]
expect "install without Go puts no program in place" [ -x "$work/goless/bin/syncaudit" ]
rmdir "$place/auditor/src"
install_by "$work/tools"
expect "install without Go puts an exporter in place" [ ! -e "$work/goless/bin/syncthing-audit" ]
expect "install without Go doesn't say what to do: $(cat "$work/error")" says 'apt-get install golang-go' "$work/error"
expect "install doesn't say that its programs aren't on PATH: $(cat "$work/error")" says "$work/goless/bin isn't on PATH" "$work/error"
install_by "$work/tools:$work/goless/bin"
expect "install says of a place on PATH that it isn't: $(cat "$work/error")" [ "$(grep -c PATH "$work/error")" = 0 ]

# ---- packages

cp package README.md CHANGELOG.md "$place"
echo 'date 2001-02-03' >> "$place/tools/release/manifest"
status=0
"$place/package" > "$work/output" 2> "$work/error" || status=$?
expect "package has status $status" [ "$status" = 0 ]
tar -C "$work" -xf "$place/out/syncaudit-1.2.3-linux-x86_64.tar.gz"
for file in "${files[@]}" README.md; do
  expect "the archive has no $file" [ -f "$work/syncaudit-1.2.3-linux-x86_64/$file" ]
done
if command -v dpkg-deb > /dev/null 2>&1; then
  dpkg-deb -R "$place/out/syncaudit_1.2.3_amd64.deb" "$work/deb"
  for file in bin/syncaudit lib/syncaudit/syncaudit lib/syncaudit/waiting.sh share/man/man1/syncaudit.1.gz share/zsh/vendor-completions/_syncaudit \
    share/zsh/vendor-completions/_syncthing-audit share/doc/syncaudit/copyright; do
    expect "the Debian package has no $file" [ -f "$work/deb/usr/$file" ]
  done
  expect "the Debian package's sums aren't those of its files" \
    env -C "$work/deb" md5sum --quiet --check DEBIAN/md5sums
fi
# A 'go' that builds nothing, and writes for what it is to build.
fake_go() {
  mkdir -p "$place/auditor/src"
  printf '#!/bin/sh\nwhile [ "$1" != -o ]; do shift; done\necho "exporter $GOARCH" > "$2"\n' > "$work/tools/go"
  chmod +x "$work/tools/go"
}

expect "package without Go makes archives for ARM" [ "$(ls "$place"/out/syncthing-audit-* 2> /dev/null | wc -l)" = 0 ]
if [ -d /usr/share/gocode/src/github.com/syncthing/syncthing/lib/db ]; then
  fake_go
  for out in out again; do
    PATH=$work/tools:$PATH "$place/package" > "$work/output" 2> "$work/error" || expect "package with Go has a status other than 0" false
    cp -r "$place/out" "$work/$out"
  done
  for machine in arm64:arm64 arm:armv6; do
    archive=syncthing-audit-1.2.3-linux-${machine#*:}
    expect "package doesn't say that it makes $archive" says "out/$archive.tar.gz" "$work/output"
    expect "the same files give other bytes of $archive" cmp -s "$work/out/$archive.tar.gz" "$work/again/$archive.tar.gz"
    tar -C "$work" -xf "$place/out/$archive.tar.gz"
    expect "$archive has the exporter for another machine" [ "$(cat "$work/$archive/bin/syncthing-audit")" = "exporter ${machine%:*}" ]
    for file in share/man/man1/syncthing-audit.1 share/bash-completion/completions/syncthing-audit share/zsh/site-functions/_syncthing-audit \
      share/fish/vendor_completions.d/syncthing-audit.fish README.md CHANGELOG.md; do
      expect "$archive has no $file" [ -f "$work/$archive/$file" ]
    done
    expect "$archive has files of the program that answers" [ "$(find "$work/$archive" -path '*syncaudit*' | wc -l)" = 0 ]
  done
  rm -r "$place/auditor/src" "$work/tools/go"
fi
change_sources
status=0
"$place/package" > "$work/output" 2>&1 || status=$?
expect "package packs a release of other sources" [ "$status" = 1 ]
expect "package doesn't say what is to be done: $(cat "$work/output")" says 'tools/release/make makes a new one' "$work/output"

# ---- without the program and rt

# bare_install: installs where only these tools are.
bare_install() {
  status=0
  PATH=$work/tools "$place/install" "$work/bare" > "$work/output" 2> "$work/error" || status=$?
}

rm -f "$place/tools/release/syncaudit" "$work/tools/rt" "$work/tools/go"
tools install mkdir
bare_install
expect "install without the program has status $status" [ "$status" = 127 ]
expect "install without the program and Go puts something in place" [ ! -e "$work/bare" ]
expect "install without Go says that it builds: $(cat "$work/error")" [ "$(grep -c 'built with Go' "$work/error")" = 0 ]
if [ -d /usr/share/gocode/src/github.com/syncthing/syncthing/lib/db ]; then
  fake_go
  bare_install
  expect "install without the program doesn't tell so by its status: $status" [ "$status" = 127 ]
  expect "install doesn't say that it builds: $(cat "$work/error")" says 'syncthing-audit is built with Go: a minute or two' "$work/error"
  expect "install without the program puts no syncthing-audit in place" [ "$(cat "$work/bare/bin/syncthing-audit")" = "exporter " ]
  expect "install puts a program in place that isn't there" [ ! -e "$work/bare/bin/syncaudit" ]
  expect "install puts what is of the program in place without it" [ "$(find "$work/bare" -path '*syncaudit*' | wc -l)" = 0 ]
  expect "install doesn't say what is missing: $(cat "$work/error")" says 'without the program there is no bin/syncaudit' "$work/error"
fi
