#!/usr/bin/env bash
# Times mounting an array with 2^17 records of whole blocks of 4096 bytes, in a memory file system, against a C program that reads
# and checks the same bytes. It is no part of the gate.
set -euo pipefail
root=$(cd "$(dirname "$0")/.." && pwd)
program=${PROGRAM:-$root/crates/trap_cli/out/trap_cli}
[ -n "${PROGRAM:-}" ] || "$root/limuvosel" >/dev/null </dev/null || true
folder=$(mktemp -d /dev/shm/limuvosel.XXXXXX)
trap 'rm -rf "$folder"' EXIT
cc -O2 -o "$folder/mounting" "$root/benches/mounting.c"
cd "$folder"
python3 - "$program" "$folder/mounting" <<'PY'
import random, resource, subprocess, sys

COUNT = 1 << 17
subprocess.run([sys.argv[1]] + f'create 7 5 16 4096 1024 1 2 {COUNT} {COUNT * 4133}'.split(), stdout=subprocess.DEVNULL, check=True)
random.seed(1)
session = subprocess.Popen([sys.argv[1], 'session'], stdin=subprocess.PIPE, stdout=subprocess.DEVNULL)
for number in range(COUNT):
    session.stdin.write(f'W {number} {random.randrange(4096)} {random.randbytes(4096).hex()}\n'.encode())
session.stdin.close()
assert session.wait() == 0


def spent(words):
    before = resource.getrusage(resource.RUSAGE_CHILDREN)
    subprocess.run(words, stdin=subprocess.DEVNULL, check=True)
    after = resource.getrusage(resource.RUSAGE_CHILDREN)
    return after.ru_utime + after.ru_stime - before.ru_utime - before.ru_stime


ours = min(spent([sys.argv[1], 'session']) for _ in range(9))
theirs = min(spent([sys.argv[2]]) for _ in range(9))
print(f'mounting {COUNT} records of whole blocks: limuvosel {ours * 1e3:.0f} ms, C {theirs * 1e3:.0f} ms, ratio {ours / theirs:.2f}')
PY
