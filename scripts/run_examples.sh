#!/usr/bin/env bash
# Runs each examples/NAME.session on the built program, over a new array in an empty folder, and compares what it says
# with NAME.replies and its exit status with NAME.status (0 where there is no such file). The array has eight blocks of
# 16 bytes, or what NAME.create says. Each examples/NAME/run.sh must end with `NAME: ok`, or say why it is skipped.
set -uo pipefail
root=$(cd "$(dirname "$0")/.." && pwd)
if ! command -v rt >/dev/null; then
  echo "examples: skipped, since the Rattle kit isn't here"
  exit 0
fi
"$root/limuvosel" >/dev/null </dev/null
program=$root/crates/trap_cli/out/trap_cli
[ -x "$program" ] || { echo "examples: the program isn't built"; exit 1; }

passed=0
failed=0
for session in "$root"/examples/*.session; do
  [ -e "$session" ] || continue
  name=$(basename "$session" .session)
  replies=${session%.session}.replies
  want=0
  [ -e "${session%.session}.status" ] && want=$(cat "${session%.session}.status")
  array="7 3 1 16 4 1 2 8 2048"
  [ -e "${session%.session}.create" ] && array=$(cat "${session%.session}.create")
  folder=$(mktemp -d)
  (cd "$folder" && "$program" create $array >/dev/null && "$program" session <"$session" >said)
  status=$?
  if [ "$status" = "$want" ] && cmp -s "$folder/said" "$replies"; then
    passed=$((passed + 1))
  else
    failed=$((failed + 1))
    echo "examples: $name: status $status, wanted $want; what it says against what it should say:"
    diff "$folder/said" "$replies" | head -n 10
  fi
  rm -rf "$folder"
done
for case in "$root"/examples/*/run.sh; do
  [ -e "$case" ] || continue
  name=$(basename "$(dirname "$case")")
  said=$(bash "$case" 2>&1)
  status=$?
  if [ "$status" = 0 ] && [ "${said##*$'\n'}" = "$name: ok" ]; then
    passed=$((passed + 1))
  elif [ "$status" = 0 ] && [[ $said == "$name: skipped"* ]]; then
    echo "examples: $said"
  else
    failed=$((failed + 1))
    echo "examples: $name: status $status; what it says:"
    echo "$said" | tail -n 10
  fi
done
echo "examples: $passed passed, $failed failed"
[ "$failed" = 0 ]
