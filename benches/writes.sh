#!/usr/bin/env bash
# Times the processor's part of a session of 4,000 `W` lines over blocks of 4096 bytes, in a memory file system, against a C
# program with the same digits, code, reads, writes and syncs. It is no part of the gate.
set -euo pipefail
root=$(cd "$(dirname "$0")/.." && pwd)
program=${PROGRAM:-$root/crates/trap_cli/out/trap_cli}
[ -n "${PROGRAM:-}" ] || "$root/limuvosel" >/dev/null </dev/null || true
folder=$(mktemp -d /dev/shm/limuvosel.XXXXXX)
trap 'rm -rf "$folder"' EXIT
cc -O2 -o "$folder/writes" "$root/benches/writes.c"
cd "$folder"
python3 - "$program" "$folder/writes" <<'PY'
import os, random, resource, subprocess, sys

random.seed(1)
with open('lines', 'w') as lines:
    for number in range(4000):
        block = random.randbytes(4096)
        lines.write(f'W {number} {random.randrange(4096)} {block.hex()}\n')


def spent(words):
    for name in os.listdir('.'):
        if name.endswith('.trap'):
            os.remove(name)
    subprocess.run([sys.argv[1]] + 'create 7 5 16 4096 1024 1 2 4096 16928768'.split(), stdout=subprocess.DEVNULL, check=True)
    with open('lines') as lines:
        before = resource.getrusage(resource.RUSAGE_CHILDREN)
        said = subprocess.run(words, stdin=lines, capture_output=True, check=True).stdout
        after = resource.getrusage(resource.RUSAGE_CHILDREN)
    return after.ru_utime + after.ru_stime - before.ru_utime - before.ru_stime, said


ours, theirs = [], []
for _ in range(9):
    (mine, said), (other, wanted) = spent([sys.argv[1], 'session']), spent([sys.argv[2]])
    assert said == wanted, (said[-80:], wanted[-80:])
    ours.append(mine)
    theirs.append(other)
print(f'a W line: limuvosel {min(ours) / 4000 * 1e6:.1f} us, C {min(theirs) / 4000 * 1e6:.1f} us, '
      f'ratio {min(ours) / min(theirs):.2f}')
PY
