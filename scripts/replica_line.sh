#!/usr/bin/env bash
# Runs replicate.sh between two folders, over a line that is whole, cut, stalled, repeated, or broken at its far end, and compares the
# replica's image with the array's. PROGRAM is another program than the built one.
set -uo pipefail
root=$(cd "$(dirname "${BASH_SOURCE[0]}")/.." && pwd)
if [ -z "${PROGRAM:-}" ]; then
  command -v rt >/dev/null || { echo "replica line: skipped, since rt isn't here"; exit 0; }
  "$root/limuvosel" >/dev/null </dev/null || true
fi
export LIMUVOSEL=${PROGRAM:-$root/crates/trap_cli/out/trap_cli}
base=$(mktemp -d)
trap 'rm -rf "$base"' EXIT
cd "$base" || exit 1
passed=0 failed=0

check() { # what, whether
  if [ "$2" = yes ]; then passed=$((passed + 1)); else failed=$((failed + 1)); echo "not so: $1"; tail -n 5 "$base/log"; fi
}

is() { # what, wanted, got
  [ "$2" = "$3" ] && check "$1" yes || check "$1: $3, and not $2" no
}

lines() { # how many W lines, and the first time
  awk -v count="$1" -v time="$2" 'BEGIN { srand(time)
    for (i = 0; i < count; i++) printf "W %d %d %08x%024d\n", time + i, int(rand() * 8), int(rand() * 2147483647) + 1, 0 }'
}

image() { # the array's blocks, as hexadecimal digits
  seq 0 7 | sed 's/^/R /' | (cd array && "$LIMUVOSEL" session) | sed 's/^is //' | tr -d '\n'
}

replica() {
  (cd far && "$LIMUVOSEL" replica-export) | od -An -v -tx1 | tr -d ' \n'
}

follow() { # a line's command; its status is replicate.sh's
  "$root/scripts/replicate.sh" --pause 1 --tries "${tries:-5}" --longest "${longest:-60}" array "$@" 2>log
}

level() { # what
  is "$1: the images" "$(image)" "$(replica)"
}

mkdir array far
(cd array && "$LIMUVOSEL" create 7 3 1 16 4 1 2 400 20000 && lines 20 100 | "$LIMUVOSEL" session) >/dev/null
(cd far && "$LIMUVOSEL" replica-create 7 16 8) >/dev/null

# Each line runs in the folder of both: what comes goes to `apply` in far/.
cat >whole <<'SH'
cd far && exec "$LIMUVOSEL" apply
SH
# The first three times the line is cut after more and more bytes.
cat >cut <<'SH'
count=$(cat count 2>/dev/null || echo 0); echo $((count + 1)) >count
if [ $((count % 2)) -eq 1 ] && [ "$count" -lt 7 ]; then head -c $((count * 97)) | (cd far && "$LIMUVOSEL" apply); else cd far && exec "$LIMUVOSEL" apply; fi
SH
cat >stalled <<'SH'
count=$(cat count 2>/dev/null || echo 0); echo $((count + 1)) >count
[ "$count" -ne 1 ] || sleep 30
cd far && exec "$LIMUVOSEL" apply
SH
cat >repeated <<'SH'
cat >stream; cd far && cat ../stream ../stream | "$LIMUVOSEL" apply
SH
# The far side is killed in the middle of its frames.
cat >killed <<'SH'
count=$(cat count 2>/dev/null || echo 0); echo $((count + 1)) >count
if [ "$count" -eq 1 ]; then (head -c 300; sleep 30) | (cd far; "$LIMUVOSEL" apply & sleep 1; kill -9 $!); exit 1; fi
cd far && exec "$LIMUVOSEL" apply
SH
time=200
for kind in whole cut stalled repeated killed; do
  rm -f count
  longest=60
  [ $kind != stalled ] || longest=2
  follow sh "$base/$kind"
  is "$kind: status" 0 $?
  level $kind
  is "$kind: the last round sent nothing" yes "$(tail -n 1 log | grep -q 'frames 0 held 0' && echo yes)"
  (cd array && lines 12 $time | "$LIMUVOSEL" session) >/dev/null
  time=$((time + 100))
done

tries=2 follow sh -c 'exec cat >/dev/null'
is "a far side that says nothing: status" 1 $?
tries=2 follow sh -c 'exit 127'
is "no far side: status" 1 $?
flock -n array/replicate.lock sh -c "'$root/scripts/replicate.sh' array sh '$base/whole' 2>log; echo \$? >status"
is "a second one: status" 4 "$(cat status)"
follow sh "$base/whole"
level "after these"
rm far/replica.trap
head -c 128 /dev/zero | (cd far && "$LIMUVOSEL" replica-load 7 16 8 9999 1) >/dev/null
follow sh "$base/whole"
is "a replica that is ahead: status" 3 $?
is "it is said" yes "$(grep -q 'ahead' log && echo yes)"
rm far/replica.trap
(cd far && "$LIMUVOSEL" replica-create 8 16 8) >/dev/null
follow sh "$base/whole"
is "another array's replica: status" 3 $?
is "it is said" yes "$(grep -q 'stranger 7' log && echo yes)"
echo "replica line: $passed passed, $failed failed"
[ $failed -eq 0 ]
