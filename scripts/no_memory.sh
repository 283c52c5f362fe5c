#!/usr/bin/env bash
# Refuses each request for memory of `session` and `create` in turn, by the kit's `rt try --fail-alloc`: the program ends with
# status 10 and prints nothing but its fault line. That no byte of the input is taken then isn't seen here: the clause `unread` of
# `run` says it. It proves nothing and is no part of the gate; each try takes half a minute, since the kit builds the program anew.
set -uo pipefail
root=$(cd "$(dirname "$0")/.." && pwd)
program=${PROGRAM:-$root/crates/trap_cli/out/trap_cli}
command -v rt >/dev/null || { echo 'no_memory: skipped, rt is not here'; exit 0; }
[ -x "$program" ] || { echo "no_memory: skipped, no program at $program"; exit 0; }
folder=$(mktemp -d)
trap 'rm -rf "$folder"' EXIT
(cd "$folder" && "$program" create 7 3 1 16 4 1 2 8 2048 >/dev/null) || exit 1
data=()
for file in log.trap m00.trap m01.trap m02.trap; do
  data+=(--data "$file=$folder/$file")
done
failed=0
passed=0
# One command with its Nth request refused, from the first on until none is left.
try() { # name, then the program's words
  name=$1
  shift
  for number in $(seq 1 200); do
    (cd "$root/crates/trap_cli" && rt try --fail-alloc "$number" "${data[@]}" -- "$@") <"$folder/lines" >"$folder/said" 2>"$folder/told"
    status=$?
    if [ "$status" = 0 ]; then
      echo "no_memory: $name makes $((number - 1)) requests"
      return
    fi
    if [ "$status" = 10 ] && { [ ! -s "$folder/said" ] || [ "$(cat "$folder/said")" = 'fault memory' ]; }; then
      passed=$((passed + 1))
    else
      echo "no_memory: $name, request $number: status $status, said: $(head -c 80 "$folder/said")"
      failed=$((failed + 1))
    fi
  done
  echo "no_memory: $name makes more than 200 requests"
  failed=$((failed + 1))
}
printf 'R 0\nQ\n' >"$folder/lines"
try session session
data=()
: >"$folder/lines"
try create create 8 3 1 16 4 1 2 8 2048
echo "no_memory: $passed passed, $failed failed"
[ "$failed" = 0 ]
