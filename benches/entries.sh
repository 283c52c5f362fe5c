#!/usr/bin/env bash
# Times mounting an array of 2^20 blocks with 2^20 retained writes, the most of both, in a memory file system, and says how
# much memory the program then has, beside a small array and one of the same size without a write. It is no part of the gate.
set -euo pipefail
root=$(cd "$(dirname "$0")/.." && pwd)
"$root/limuvosel" >/dev/null </dev/null || true
exec python3 - "$root/crates/trap_cli/out/trap_cli" <<'PY'
import re, subprocess, sys, tempfile, time

program = sys.argv[1]
MOST = 1 << 20
# a write of a block of 16 bytes of which the last 8 change: 26 bytes, and a code of 12
RECORD = 38
BIG = f'create 7 5 16 16 {MOST // 4} 1 2 {MOST} {RECORD * MOST}'
SMALL = 'create 7 5 16 16 16 1 2 8 2048'


def write(folder, step):
    """Writes each block once, each `step` blocks after the one before."""
    with open(f'{folder}/lines', 'w') as lines:
        for number in range(MOST):
            lines.write(f'W {number} {number * step % MOST} {"00" * 8}{"ab" * 8}\n')
    with open(f'{folder}/lines') as lines:
        subprocess.run([program, 'session'], stdin=lines, stdout=subprocess.DEVNULL, cwd=folder, check=True)


def memory(folder):
    """The most memory in KiB that a session has had when it answers its first line, and how many writes it says."""
    session = subprocess.Popen([program, 'session'], stdin=subprocess.PIPE, stdout=subprocess.PIPE, text=True, cwd=folder)
    session.stdin.write('I\n')
    session.stdin.flush()
    said = session.stdout.readline()
    with open(f'/proc/{session.pid}/status') as status:
        peak = re.search(r'VmHWM:\s+(\d+) kB', status.read()).group(1)
    session.stdin.close()
    session.wait()
    return peak, int(said.split()[2])


def mounting(folder):
    times = []
    for _ in range(9):
        start = time.perf_counter()
        subprocess.run([program, 'session'], stdin=subprocess.DEVNULL, cwd=folder, check=True)
        times.append(time.perf_counter() - start)
    return min(times)


for name, words, step in [('64 blocks, at most 8 entries, none there', SMALL, 0),
                          ('2^20 blocks, at most 2^20 entries, none there', BIG, 0),
                          ('the same with 2^20 entries, of blocks one after the other', BIG, 1),
                          ('the same with 2^20 entries, of blocks far from one another', BIG, 514229)]:
    with tempfile.TemporaryDirectory(dir='/dev/shm') as folder:
        subprocess.run([program] + words.split(), cwd=folder, check=True, stdout=subprocess.DEVNULL)
        if step:
            write(folder, step)
        peak, entries = memory(folder)
        assert entries == (MOST if step else 0), entries
        spent = mounting(folder)
        each = f', {spent / MOST * 1e9:.0f} ns an entry' if step else ''
        print(f'{name}: {peak} KiB, mounted in {spent * 1000:.1f} ms{each}')
PY
