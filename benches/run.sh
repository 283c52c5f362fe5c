#!/usr/bin/env bash
# Times a session of 100,000 `R` lines against a C program that makes one read and one write a line, on a memory file
# system.
# It is no part of the gate.
set -euo pipefail
root=$(cd "$(dirname "$0")/.." && pwd)
"$root/limuvosel" >/dev/null </dev/null || true
program=$root/crates/trap_cli/out/trap_cli
folder=$(mktemp -d /dev/shm/limuvosel.XXXXXX)
trap 'rm -rf "$folder"' EXIT
cc -O2 -o "$folder/same_calls" "$root/benches/same_calls.c"
cd "$folder"
awk 'BEGIN { for (i = 0; i < 100000; i++) print "R " i % 8 }' >reads
"$program" create 7 3 1 16 8 1 2 8 2048 >/dev/null
printf 'W 1 3 11111111111111111111111111111111\n' | "$program" session >/dev/null

# the best of nine runs, in milliseconds
best() {
  python3 - "$@" <<'PY'
import subprocess, sys, time
times = []
for _ in range(9):
    with open('reads') as lines, open('said', 'w') as said:
        start = time.perf_counter()
        subprocess.run(sys.argv[1:], stdin=lines, stdout=said, check=True)
        times.append(time.perf_counter() - start)
print(f'{min(times) * 1000:.1f}')
PY
}

ours=$(best "$program" session)
theirs=$(best ./same_calls m00.trap 16)
echo "100,000 R lines: limuvosel $ours ms, C $theirs ms, ratio $(python3 -c "print(f'{$ours / $theirs:.2f}')")"
