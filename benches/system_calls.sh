#!/usr/bin/env bash
# Counts the system calls of a `W` line, of an `R` line, of an `A` line and of mounting, on the built program over an array
# in a memory file system. It is no part of the gate.
set -euo pipefail
root=$(cd "$(dirname "$0")/.." && pwd)
for tool in strace python3; do
  command -v $tool >/dev/null || { echo "system calls: $tool isn't here"; exit 1; }
done
"$root/limuvosel" >/dev/null </dev/null || true
exec python3 - "$root/crates/trap_cli/out/trap_cli" <<'PY'
import collections, os, re, struct, subprocess, sys, tempfile, time

program = sys.argv[1]
ENTRIES = 1 << 17
CALLS = ['pread64', 'pwrite64', 'fdatasync', 'fsync', 'read', 'write']


def run(folder, words, lines=''):
    return subprocess.run([program] + words, input=lines, capture_output=True, text=True, cwd=folder, check=True)


def count(folder, lines):
    """How often each system call is made by a session of these lines."""
    trace = os.path.join(folder, 'trace')
    subprocess.run(['strace', '-qq', '-o', trace, '-e', 'trace=' + ','.join(CALLS), program, 'session'],
                   input=lines, capture_output=True, text=True, cwd=folder, check=True)
    with open(trace) as lines_of_trace:
        return collections.Counter(re.match(r'(\w+)\(', line).group(1) for line in lines_of_trace if '(' in line)


def shown(calls):
    return ', '.join(f'{calls[name]} {name}' for name in CALLS if calls[name])


with tempfile.TemporaryDirectory(dir='/dev/shm') as folder:
    run(folder, 'create 7 5 16 4096 1024 1 16 1000 33554432'.split())
    block = 'ab' * 4096
    run(folder, ['session'], ''.join(f'W 1 {number} {block}\n' for number in range(4)))
    none = count(folder, '')
    print('mounting five members and four records:', shown(none))
    print('a W line of 4096 bytes:', shown(count(folder, f'W 2 9 {block}\n') - none))
    none = count(folder, '')
    print('an R line:', shown(count(folder, 'R 9\n') - none))
    run(folder, ['session'], ''.join(f'W 3 20 {digits * 4096}\n' for digits in ['cd', 'ef'] * 50))
    none = count(folder, '')
    for back in (0, 1, 100):
        print(f'an A line over {back} later writes:', shown(count(folder, f'A {105 - back} 20\n') - none))
    os.remove(os.path.join(folder, 'm00.trap'))
    run(folder, ['session'])
    none = count(folder, '')
    for number in range(0, 80, 16):
        calls = count(folder, f'R {number}\n') - none
        if calls['pread64'] > 1:
            print('an R line of a block of the lost member:', shown(calls))
            break

with tempfile.TemporaryDirectory(dir='/dev/shm') as folder:
    run(folder, 'create 7 3 1 16 4 1 2 8 144'.split())
    # Nothing is retained, and the next record begins ten bytes before the ring's end.
    with open(os.path.join(folder, 'log.trap'), 'r+b') as log:
        log.seek(64 + 2 + 6)
        log.write(struct.pack('>7Q', 2, 0, 134, 2, 134, 2, 0))
    run(folder, ['session'], f'W 1 0 {"ab" * 16}\n')
    none = count(folder, '')
    print('an A line over a later write whose record goes on at the ring\'s start:',
          shown(count(folder, 'A 2 0\n') - none))

with tempfile.TemporaryDirectory(dir='/dev/shm') as folder:
    ring = 40 * ENTRIES
    run(folder, f'create 7 3 1 16 4 1 2 {ENTRIES} {ring}'.split())
    run(folder, ['session'], ''.join(f'W {number} {number % 8} {number:032x}\n' for number in range(ENTRIES)))
    calls = count(folder, '')
    times = []
    for _ in range(5):
        start = time.perf_counter()
        run(folder, ['session'])
        times.append(time.perf_counter() - start)
    print(f'mounting {ENTRIES} records:', shown(calls) + f'; {min(times) * 1000:.0f} ms, '
          f'{min(times) / ENTRIES * 1e9:.0f} ns a record')
PY
