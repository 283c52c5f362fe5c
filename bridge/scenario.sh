#!/usr/bin/env bash
# A database on ext4 on an array, taken back to before a bad statement, and then the server killed in mid-run and begun again.
# It wants root, /dev/fuse, a loop device, nbdkit with its plugin for Python, nbdfuse, e2fsprogs and sqlite3; without one of
# them it says so and ends with status 0. It leaves no mount, no loop device and no process.
set -euo pipefail
here=$(cd "$(dirname "${BASH_SOURCE[0]}")" && pwd)
program=$(readlink -f "${LIMUVOSEL_PROGRAM:-$here/../crates/trap_cli/out/trap_cli}")

skip() { echo "bridge/scenario.sh: skipped, since $1"; exit 0; }
[ "$(id -u)" = 0 ] || skip "it isn't run as root"
[ -x "$program" ] || skip "the program isn't built"
[ -c /dev/fuse ] || skip "/dev/fuse isn't here"
for tool in nbdkit nbdfuse nbdinfo mkfs.ext4 e2fsck sqlite3 losetup; do
  command -v "$tool" >/dev/null || skip "$tool isn't here"
done
nbdkit --dump-plugin python >/dev/null 2>&1 || skip "nbdkit's plugin for Python isn't here"
losetup -f >/dev/null 2>&1 || skip "no loop device is here"

work=$(mktemp -d)
cd "$work"
mkdir array live past live_fs past_fs
passed=0

ok() { passed=$((passed + 1)); echo "ok $1"; }
fail() { echo "FAILED $1"; exit 1; }

# What is up, taken down in the other order.
loops=() mounts=() fuses=() servers=()
down() {
  for place in "${mounts[@]}"; do umount "$place" || return 1; done
  for device in "${loops[@]}"; do losetup -d "$device" || return 1; done
  for place in "${fuses[@]}"; do fusermount3 -u "$place" || return 1; done
  for pid in "${servers[@]}"; do kill "$pid" 2>/dev/null || true; wait "$pid" 2>/dev/null || true; done
  mounts=() loops=() fuses=() servers=()
}
leave() {
  status=$?
  set +e
  for place in past_fs live_fs; do mountpoint -q "$place" && umount -l "$place"; done
  for device in $(losetup -n -O NAME,BACK-FILE | awk -v w="$work" 'index($2, w) { print $1 }'); do losetup -d "$device"; done
  for place in past live; do mountpoint -q "$place" && fusermount3 -uz "$place"; done
  pkill -f "nbdkit.*$work" 2>/dev/null
  sleep 0.2
  rm -rf "$work"
  exit $status
}
trap leave EXIT

# serve: nbdkit over the array.
serve() {
  rm -f "$work/array.sock"
  nbdkit -f -U "$work/array.sock" python "$here/limuvosel_nbd.py" folder="$work/array" program="$program" \
    log="$work/bridge.log" &
  server=$!
  servers+=("$server")
  for _ in $(seq 200); do [ -S "$work/array.sock" ] && return 0; sleep 0.05; done
  fail "the array isn't served"
}

# attach FOLDER URI: the export as a loop device, whose name is in $device.
attach() {
  nbdfuse "$1" "$2" &
  for _ in $(seq 200); do [ -e "$1/nbd" ] && break; sleep 0.05; done
  fuses+=("$1")
  device=$(losetup -f --show "$1/nbd")
  loops+=("$device")
}

uri() { echo "nbd+unix:///${1:-}?socket=$work/array.sock"; }
bank() { sqlite3 -batch live_fs/bank.db "pragma synchronous = full; $1" >/dev/null; }

# --- a bad statement, and back

(cd array && "$program" create 1 3 16 4096 8192 1 2 20000 82580000 >/dev/null)
serve
attach live "$(uri)"
mkfs.ext4 -q "$device"
mount "$device" live_fs
mounts=(live_fs)
sqlite3 -batch live_fs/bank.db "pragma journal_mode = wal;
  begin;
  create table account (id integer primary key, owner text, cents integer);
  with recursive n(i) as (values (1) union all select i + 1 from n where i < 500)
  insert into account select i, 'owner ' || i, 100 * i from n;
  commit" >/dev/null
sync
good=$(date +%s%3N)
sleep 0.05
bank "delete from account"
bank "insert into account values (501, 'owner 501', 50100)"
sync
ok "a database on ext4 on the array"

# past COMMAND..: the file system as it was at the export named by $export, through an overlay, since a journal wants to be
# replayed: a past instant is what a power cut at that moment would have left.
past() {
  rm -f "$work/past.sock"
  nbdkit -f -U "$work/past.sock" --filter=cow nbd uri="$(uri "$export")" >/dev/null 2>&1 &
  over=$!
  for _ in $(seq 200); do [ -S "$work/past.sock" ] && break; sleep 0.05; done
  nbdfuse past "nbd+unix:///?socket=$work/past.sock" >/dev/null 2>&1 &
  for _ in $(seq 200); do [ -e past/nbd ] && break; sleep 0.05; done
  past_device=$(losetup -f --show past/nbd)
  mount "$past_device" past_fs && "$@"
  answer=$?
  umount past_fs 2>/dev/null || true
  losetup -d "$past_device"
  fusermount3 -u past
  kill "$over"
  wait "$over" 2>/dev/null || true
  return $answer
}
accounts() { sqlite3 -batch past_fs/bank.db "select count(*) from account" 2>/dev/null; }
# Whether the table is there without its accounts. Before it was made, and before the file system was, it isn't.
is_bad() { [ "$(past accounts 2>/dev/null)" -lt 500 ] 2>/dev/null; }

export="time/$good"
[ "$(past accounts)" = 500 ] || fail "the instant before by its time"
last=$(nbdinfo --list "$(uri)" | sed -n 's/^export="seq\/\([0-9]*\)".*/\1/p' | sort -n | tail -n 1)
low=0 high=$last steps=0
while [ $((high - low)) -gt 1 ]; do
  middle=$(((low + high) / 2))
  export="seq/$middle"
  if is_bad; then high=$middle; else low=$middle; fi
  steps=$((steps + 1))
done
export="seq/$low"
restore() {
  [ "$(sqlite3 -batch past_fs/bank.db 'pragma integrity_check')" = ok ] || return 1
  sqlite3 -batch past_fs/bank.db ".dump account" >"$work/account.sql"
}
[ "$(past accounts)" = 500 ] || fail "the instant before by its number"
past restore || fail "the database as it was isn't whole"
ok "the instant before was found at write $low of $last in $steps steps, and is whole"
sqlite3 -batch live_fs/bank.db "create table later as select * from account; drop table account" >/dev/null
sqlite3 -batch live_fs/bank.db <"$work/account.sql" >/dev/null
bank "insert or ignore into account select * from later; drop table later"
[ "$(sqlite3 -batch live_fs/bank.db 'select count(*) from account')" = 501 ] || fail "the accounts aren't all back"
ok "the accounts are back, with the one that came later"
down || fail "not everything was taken down"
ok "all was taken down"

# --- the server killed in mid-run

serve
attach live "$(uri)"
mount "$device" live_fs
mounts=(live_fs)
(
  for id in $(seq 1000 5000); do
    sqlite3 -batch live_fs/bank.db "pragma synchronous = full; insert into account values ($id, 'later', 1)" >/dev/null 2>&1 || break
    echo "$id" >>"$work/acknowledged"
  done
) &
writer=$!
for _ in $(seq 200); do [ -s acknowledged ] && [ "$(wc -l <acknowledged)" -ge 20 ] && break; sleep 0.1; done
kill -9 "$server"
wait "$writer" 2>/dev/null || true
umount -l live_fs
mounts=()
losetup -d "${loops[0]}" 2>/dev/null || true
loops=()
fusermount3 -uz live || true
fuses=() servers=()
for _ in $(seq 100); do pgrep -f "trap_cli session" >/dev/null || break; sleep 0.1; done
serve
attach live "$(uri)"
e2fsck -fp "$device" >"$work/e2fsck" 2>&1 || [ $? -le 1 ] || { cat "$work/e2fsck"; fail "e2fsck"; }
mount "$device" live_fs
mounts=(live_fs)
[ "$(sqlite3 -batch live_fs/bank.db 'pragma integrity_check')" = ok ] || fail "the database isn't whole after the kill"
there=$(sqlite3 -batch live_fs/bank.db 'select id from account where id >= 1000' | sort)
lost=$(comm -23 <(sort acknowledged) <(echo "$there") | wc -l)
[ "$lost" = 0 ] || fail "$lost acknowledged rows are gone"
ok "after the kill every one of $(wc -l <acknowledged) acknowledged rows is there"
down || fail "not everything was taken down"
echo "$passed passed, 0 failed"
