#!/usr/bin/env bash
# under_systemd.sh [DIR]: the units of auditor/nightly/ under a real systemd and a real mail server, with two real Syncthing devices of one user: the
# first night's mail comes, then that of a rotten file, and the monthly one; a timer that is late fires. One device makes its part with its Syncthing
# stopped, which runs again, also where the service is killed. By hand alone, as root. It needs Debian's packages debootstrap, systemd-container and
# syncthing, and a network for debootstrap; DIR keeps the Debian that it makes, so that the next run begins at once.
set -euo pipefail
top=$(dirname "$(dirname "$(dirname "$(readlink -f "$0")")")")
root=${1:-$(mktemp -d)}
mkdir -p "$root"
packages=systemd-sysv,dbus,dbus-user-session,libpam-systemd,python3,ca-certificates,syncthing,exim4-daemon-light,procps

if ! [ -e "$root/made" ]; then
  debootstrap --variant=minbase --include=$packages bookworm "$root/clean" http://deb.debian.org/debian > "$root/told"
  touch "$root/made"
fi
rm -rf "$root/machine"
cp -a "$root/clean" "$root/machine"

# within COMMAND..: runs a command in the machine, as root.
within() {
  nsenter -t "$leader" -m -u -i -n -p -r -w -C -- env -i PATH=/usr/sbin:/usr/bin:/sbin:/bin "$@"
}

# as USER COMMAND: runs a shell's command in the machine, as this user.
as() {
  local uid
  uid=$(within id -u "$1")
  within runuser -u "$1" -- env HOME="/home/$1" XDG_RUNTIME_DIR="/run/user/$uid" sh -c "cd; $2"
}

# until_there WHAT COMMAND..: waits until a command holds.
until_there() {
  local what=$1
  shift
  for _ in $(seq 120); do
    "$@" > "$root/told" 2>&1 && return
    sleep 1
  done
  echo "under_systemd.sh: waited for 120 seconds until $what" >&2
  exit 1
}

# expect WHAT COMMAND..: says whether a command holds.
expect() {
  local what=$1
  shift
  if "$@" > "$root/told" 2>&1; then
    echo "ok: $what"
  else
    echo "NOT: $what"
    failed=1
  fi
}

failed=0
kept=${1:-}
systemd-nspawn -D "$root/machine" --boot --register=no --keep-unit --private-network --bind-ro="$top:/syncaudit" \
  < /dev/null > "$root/boot" 2>&1 &
nspawn=$!
end() {
  kill "$nspawn"
  wait "$nspawn" || true
  [ -n "$kept" ] || rm -rf --one-file-system "$root"
}
trap end EXIT
until_there "the machine boots" pgrep -P "$nspawn"
leader=$(pgrep -P "$nspawn" | head -n 1)
until_there "systemd runs" within systemctl is-system-running --wait

# ---- a user with two devices, and what auditor/nightly/README.md says

within useradd -m -s /bin/bash me
within loginctl enable-linger me
within python3 - << 'END'
import sys
from pathlib import Path
sys.path.insert(0, "/syncaudit/auditor/test")
from syncthing import Device
devices = [Device(Path("/home/me"), name) for name in ("one", "two")]
for device in devices:
    device.configure(devices)
END
"$top/install" "$root/machine/home/me/.local" > "$root/told"
within chown -R me: /home/me
as me 'cd /syncaudit && install -D -m 600 auditor/nightly/watch.xml ~/.config/syncthing-audit/watch.xml &&
  install -D -m 600 auditor/nightly/part.conf ~/.config/syncthing-audit/part.conf &&
  install -D -m 644 -t ~/.config/systemd/user auditor/nightly/systemd/syncthing-audit-* &&
  cd && mkdir -p metrics && sed -i "s|<device place=\"~/.config/syncthing\"/>|<device place=\"~/one/home\"/><device place=\"~/two/home\"/>|
    s|<device place=\"laptop:\"/>||; s|me@example.org|me@localhost|
    s|<!-- <metrics path=.* -->|<metrics path=\"~/metrics/audit.prom\"/>|; s|<!-- <page path=.* -->|<page path=\"~/audit.html\"/>|" .config/syncthing-audit/watch.xml
  printf "%s\n" UNIT=syncthing-two.service "WORDS=--home $HOME/two/home" "SEND=install -m 600 \"\$PART\" $HOME/sent.part" >> .config/syncthing-audit/part.conf
  for one in one two; do
    printf "[Service]\nExecStart=/usr/bin/syncthing serve --home=%%h/$one/home --no-browser --no-restart\n[Install]\nWantedBy=default.target\n" \
      > .config/systemd/user/syncthing-$one.service
  done
  for one in 1 2 3 4; do head -c 300000 /dev/urandom > one/files/$one.raw; done
  systemctl --user daemon-reload; systemctl --user enable --now syncthing-one syncthing-two'
until_there "the devices are in step" as me 'test -e two/files/1.raw -a -e two/files/2.raw -a -e two/files/3.raw -a -e two/files/4.raw'
sleep 10

# night: the service's run; its status.
night() {
  as me 'systemctl --user start syncthing-audit-watch.service' > "$root/told" 2>&1 || true
  as me 'systemctl --user show -p ExecMainStatus --value syncthing-audit-watch.service'
}

# mailed COUNT: whether so many mails have come.
mailed() { as me "test \"\$(grep -c ^Subject: /var/mail/me)\" = $1"; }

# ---- the first night, one in which nothing is new, and one after a file has rotted

expect "the first night is in step" [ "$(night)" = 0 ]
until_there "its mail comes" mailed 1
expect "it says how all is" as me 'grep -q "^Subject: .*: in step$" /var/mail/me && grep -q "^2 devices, " /var/mail/me'
expect "a night in which nothing is new is in step" [ "$(night)" = 0 ]
as me 'cd two/files; was=$(stat -c %y 3.raw); printf XYZ | dd of=3.raw bs=1 seek=150000 conv=notrunc status=none; touch -d "$was" 3.raw'
as me 'mkdir -p .config/systemd/user/syncthing-audit-watch.timer.d
  printf "[Timer]\nOnCalendar=\nOnCalendar=*:*:00/15\nRandomizedDelaySec=0\nAccuracySec=1s\n" > .config/systemd/user/syncthing-audit-watch.timer.d/soon.conf
  systemctl --user daemon-reload; systemctl --user enable --now syncthing-audit-watch.timer'
until_there "the timer fires, and the mail of the rotten file comes" mailed 2
as me 'systemctl --user stop syncthing-audit-watch.timer'
until_there "the service has ended" as me 'test "$(systemctl --user show -p ActiveState --value syncthing-audit-watch.service)" != activating'
as me 'cat metrics/audit.prom /var/mail/me'
expect "the status is that of a cluster that isn't in step" \
  as me 'test "$(systemctl --user show -p ExecMainStatus --value syncthing-audit-watch.service)" = 1'
expect "the mail names the file and what is wrong" as me 'grep -q "^new: 3.raw in docs: StoreDiffers$" /var/mail/me && grep -q ": other bytes on the disk" /var/mail/me'
expect "the metrics tell one wrong name" as me 'grep -q "^syncthing_audit_names_wrong{.*} 1$" metrics/audit.prom'
expect "the page tells it" as me 'grep -q "NOT in step: 1 name wrong" audit.html'
expect "the next night finds the same rot" [ "$(night)" = 1 ]
expect "it isn't mailed again" mailed 2
as me 'sed -i "s/\"month\":\"[^\"]*\"/\"month\":\"2020-01\"/" .local/state/syncthing-audit/watch/watch.json'
expect "the next month has its night" [ "$(night)" = 1 ]
until_there "the monthly mail comes" mailed 3
as me 'printf "[Timer]\nRandomizedDelaySec=0\n" > .config/systemd/user/syncthing-audit-watch.timer.d/soon.conf
  sed -i "s/\"month\":\"[^\"]*\"/\"month\":\"2020-01\"/" .local/state/syncthing-audit/watch/watch.json; systemctl --user daemon-reload
  touch -d "2 days ago" .local/share/systemd/timers/stamp-syncthing-audit-watch.timer; systemctl --user start syncthing-audit-watch.timer'
until_there "a timer that is late fires" mailed 4

# ---- a device makes its part, and sends it; then the service is killed while it hashes

as me 'systemctl --user start syncthing-audit-part.service'
expect "the part is sent" as me 'test -s sent.part'
expect "Syncthing runs again" as me 'systemctl --user is-active syncthing-two'
expect "it was stopped meanwhile" as me 'journalctl --user -u syncthing-two -o cat | grep -q Stopped'
as me 'rm sent.part; for one in 1 2 3; do truncate -s 12G two/files/large$one; done
  systemctl --user start --no-block syncthing-audit-part.service'
until_there "it hashes" as me 'pgrep -x syncthing-audit'
expect "Syncthing is stopped meanwhile" as me '! systemctl --user is-active syncthing-two'
as me 'systemctl --user kill -s KILL syncthing-audit-part.service' 2> "$root/told" || true
until_there "Syncthing runs again after a kill" as me 'systemctl --user is-active syncthing-two'
expect "nothing is sent then" as me 'test ! -e sent.part'
exit "$failed"
