#!/usr/bin/env bash
# Times an `A` line by the number of parities that it takes back, over an array with blocks of 4096 bytes in a memory file
# system. Beside each session of `A 0 0` lines runs one of as many `A LAST 0` lines, which takes no parity back: the
# difference is the parities' own. It is no part of the gate.
set -euo pipefail
root=$(cd "$(dirname "$0")/.." && pwd)
"$root/limuvosel" >/dev/null </dev/null || true
exec python3 - "$root/crates/trap_cli/out/trap_cli" <<'PY'
import os, subprocess, sys, tempfile, time

program = sys.argv[1]
# (later writes of the block, lines in a session)
CHAINS = [(1, 20000), (100, 1000), (10000, 10)]
# the bytes of a block that each write changes
KINDS = {'every byte': 4096, '16 bytes': 16}


def seconds(folder, line, lines):
    with open(os.path.join(folder, 'lines'), 'w') as out:
        out.write(f'{line}\n' * lines)
    times = []
    for _ in range(9):
        with open(os.path.join(folder, 'lines')) as source:
            start = time.perf_counter()
            subprocess.run([program, 'session'], stdin=source, stdout=subprocess.DEVNULL, cwd=folder, check=True)
            times.append(time.perf_counter() - start)
    return min(times)


for kind, changed in KINDS.items():
    for writes, lines in CHAINS:
        with tempfile.TemporaryDirectory(dir='/dev/shm') as folder:
            ring = max(16464, writes * 4129)
            subprocess.run([program] + f'create 7 3 1 4096 4 1 2 {writes} {ring}'.split(), cwd=folder, check=True,
                           stdout=subprocess.DEVNULL)
            blocks = [value * changed + '00' * (4096 - changed) for value in ('aa', '55')]
            said = subprocess.run([program, 'session'], cwd=folder, check=True, capture_output=True, text=True,
                                  input=''.join(f'W {number} 0 {blocks[number % 2]}\n' for number in range(writes)))
            assert said.stdout.count('ok ') == writes, said.stdout[-80:]
            back, present = seconds(folder, 'A 0 0', lines), seconds(folder, f'A {writes} 0', lines)
            parities = (back - present) / lines
            print(f'{kind} changed by each of {writes} later writes: {parities * 1e6:.1f} us a line, '
                  f'{parities / writes * 1e9:.0f} ns a parity')
PY
