#!/usr/bin/env bash
# Brings a replica up to its array: asks the far side how far it is, sends it the frames of the writes since, and goes on
# until nothing is left. Stopped anywhere, it goes on from there the next time.
#
#   replicate.sh [--through COMMAND] [--tries N] [--pause S] [--longest S] FOLDER COMMAND...
#
#   FOLDER     the array's folder
#   COMMAND    what runs `limuvosel apply` in the replica's folder, over standard input:
#                ssh backup 'cd /srv/replica && limuvosel apply'
#   --through  what the frames go through on this side, as `zstd -q`; the far side's command undoes it
#   --tries    how many rounds may fail one after the other, 8
#   --pause    seconds before the first new try, 1; each further one waits twice as long, at most a minute
#   --longest  seconds that a round may last, 3600; one that is cut off there counts as failed
#
# One line a round on standard error. Status 0: the replica has all that the array had in the last round. 1: the rounds
# failed. 2: the words aren't right. 3: no round can help: the array doesn't keep what comes after the replica's number, or
# the replica is ahead of it, or isn't its own. 4: another one runs for this folder.
set -uo pipefail
program=${LIMUVOSEL:-limuvosel}
through=cat tries=8 pause=1 longest=3600

say() {
  echo "replicate: $1" >&2
}

usage() {
  sed -n '/^#   replicate/p' "$0" | sed 's/^#  */usage: /' >&2
  exit 2
}

is_number() {
  [[ $1 =~ ^[1-9][0-9]{0,8}$ ]]
}

while [[ ${1:-} == --* ]]; do
  [ $# -ge 2 ] || usage
  case $1 in
    --through) through=$2 ;;
    --tries) is_number "$2" || usage; tries=$2 ;;
    --pause) is_number "$2" || usage; pause=$2 ;;
    --longest) is_number "$2" || usage; longest=$2 ;;
    *) usage ;;
  esac
  shift 2
done
[ $# -ge 2 ] || usage
folder=$1
shift
[ -d "$folder" ] || { say "$folder is no folder"; exit 2; }
exec 9>"$folder/replicate.lock" || exit 2
flock -n 9 || { say "another one runs for $folder"; exit 4; }
said=$(mktemp)
trap 'rm -f "$said"' EXIT

# The far side, over what comes: its last words into `said`, and its status. It must not hold the lock.
far() {
  timeout -k 5 "$longest" "$@" >"$said" 9>&-
}

# The frames after a number.
frames() {
  (cd "$folder" && exec timeout -k 5 "$longest" "$program" send "$1" 9>&-)
}

# The number that the far side has applied, from its summary line.
applied() {
  sed -n 's/^applied \([0-9]*\) frames .*/\1/p' "$said"
}

# One round. 0: frames were applied; 1: nothing was left to send; 2: it failed; 3: no round can help.
round() {
  local from sent took
  true | $through | far "$@" || { say "the far side ended with status $?: $(tail -n 1 "$said")"; return 2; }
  from=$(applied)
  [ -n "$from" ] || { say "the far side gave no number: $(tail -n 1 "$said")"; return 2; }
  frames "$from" | $through | far "$@"
  set -- "${PIPESTATUS[@]}"
  sent=$1 took=$3
  case $sent in
    0) ;;
    14) say "from $from: the array says: $(frames "$from" | tail -n 1)"; return 3 ;;
    *) say "from $from: send ended with status $sent"; return 2 ;;
  esac
  [ "$2" -eq 0 ] || { say "from $from: $through ended with status $2"; return 2; }
  say "from $from: $(tr '\n' ' ' <"$said" | sed 's/ $//')"
  case $(tail -n 1 "$said") in "fault stranger"*|"fault no block"*) return 3 ;; esac
  [ "$took" -eq 0 ] || { say "from $from: the far side ended with status $took"; return 2; }
  [ "$(applied)" != "$from" ]
}

failed=0 wait=$pause
while :; do
  round "$@"
  case $? in
    0) failed=0 wait=$pause ;;
    1) exit 0 ;;
    3) exit 3 ;;
    *)
      failed=$((failed + 1))
      [ "$failed" -lt "$tries" ] || { say "$tries rounds failed, one after the other"; exit 1; }
      say "the next try is in $wait s"
      sleep "$wait"
      wait=$((wait * 2 > 60 ? 60 : wait * 2))
      ;;
  esac
done
