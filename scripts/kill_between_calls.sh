#!/usr/bin/env bash
# Kills the built program before each of its system calls in turn, in a session and while an array is made. Then the array
# is mounted whole, and with each member's file removed, and must hold every line whose reply was given, and at most one more.
# A write that was killed while its row was drained must hold, whatever a power cut made of the place that wasn't synced.
set -uo pipefail
root=$(cd "$(dirname "$0")/.." && pwd)
for tool in rt strace python3; do
  if ! command -v $tool >/dev/null; then
    echo "stops: skipped, since $tool isn't here"
    exit 0
  fi
done
if ! strace -o /dev/null true 2>/dev/null; then
  echo "stops: skipped, since strace may not trace here"
  exit 0
fi
"$root/limuvosel" >/dev/null </dev/null
exec python3 - "$root/crates/trap_cli/out/trap_cli" <<'PY'
import os, shutil, subprocess, sys, tempfile
from concurrent.futures import ThreadPoolExecutor

program = sys.argv[1]
CALLS = ['openat', 'flock', 'unlink', 'read', 'pread64', 'pwrite64', 'fdatasync', 'fsync', 'rename', 'write', 'close']
MOST = 100
ARRAY = 'create 7 3 1 16 4 1 2 8 2048'.split()
MEMBERS = ['m00.trap', 'm01.trap', 'm02.trap']

# (block, contents) of each write; blocks 0 and 1 share a row, and block 0 is written twice
WRITES = [(0, '11' * 16), (1, '22' * 16), (0, '33' * 16), (7, '44' * 16)]
LINES = ''.join(f'W {time} {block} {digits}\nR {block}\n' for time, (block, digits) in enumerate(WRITES, 1))
READS = ''.join(f'R {block}\n' for block in range(8))


def image(count):
    blocks = ['00' * 16] * 8
    for block, digits in WRITES[:count]:
        blocks[block] = digits
    return ''.join(f'is {digits}\n' for digits in blocks)


def run(folder, words, lines='', inject=None):
    command = [program] + words
    if inject:
        command = ['strace', '-qq', '-o', '/dev/null', '-e', f'trace={inject[0]}',
                   '-e', f'inject={inject[0]}:signal=KILL:when={inject[1]}'] + command
    return subprocess.run(command, input=lines, capture_output=True, text=True, cwd=folder)


def reads(folder, without, lines=READS):
    """What the array in a copy of the folder answers to these lines, without one of its members."""
    with tempfile.TemporaryDirectory() as copy:
        for name in os.listdir(folder):
            if name != without:
                shutil.copy(os.path.join(folder, name), copy)
        after = run(copy, ['session'], lines)
        return after.returncode, after.stdout


def stop_in_session(call, number):
    with tempfile.TemporaryDirectory() as folder:
        run(folder, ARRAY)
        stopped = run(folder, ['session'], LINES, (call, number))
        if stopped.returncode == 0:
            return None
        given = stopped.stdout.count('\n')
        # every second line is a write
        least = (given + 1) // 2
        wanted = {(0, image(count)) for count in (least, min(least + 1, len(WRITES)))}
        bad = [name for name in [None] + MEMBERS if reads(folder, name) not in wanted]
        return [f'before {call} number {number} of a session, {given} replies given: wrong without {name}' for name in bad]


def stop_in_create(call, number):
    with tempfile.TemporaryDirectory() as folder:
        stopped = run(folder, ARRAY, '', (call, number))
        if stopped.returncode == 0:
            return None
        bad = []
        for name in [None] + MEMBERS:
            status, said = reads(folder, name)
            made = (status, said) == (0, image(0))
            none = (status, said) == (3, 'fault not an array\n')
            if not (made or (none and 'created' not in stopped.stdout)):
                bad.append(f'before {call} number {number} of create: status {status} without {name}')
        return bad


# block 1 is written whole, then block 0 of the same row; the place of row 0 on member 0, block 0's, and on member 2, the parity
WHOLE, TORN = f'W 100 1 {"22" * 16}\n', f'W 101 0 {"11" * 16}\n'
BOTH = f'is {"11" * 16}\nis {"22" * 16}\n'
PLACE = slice(16, 32)


def place(folder, name):
    with open(os.path.join(folder, name), 'rb') as member:
        return member.read()[PLACE]


def put_place(folder, name, contents):
    with open(os.path.join(folder, name), 'r+b') as member:
        member.seek(PLACE.start)
        member.write(contents)


def stop_in_drain(call, number):
    """Killed between the writes to member 0 and to member 2, both blocks must read as written, without member 1."""
    with tempfile.TemporaryDirectory() as folder:
        run(folder, ARRAY)
        run(folder, ['session'], WHOLE)
        run(folder, ['session'], TORN, (call, number))
        if place(folder, 'm00.trap') != b'\x11' * 16 or place(folder, 'm02.trap') != b'\x22' * 16:
            return None
        # before the sync a power cut may keep the place, give it back, or leave any bytes; after it, keep it alone
        cuts = [b'\x11' * 16, bytes(16), bytes(range(16))] if call == 'fdatasync' else [b'\x11' * 16]
        bad = []
        for contents in cuts:
            put_place(folder, 'm00.trap', contents)
            status, said = reads(folder, 'm01.trap', 'R 0\nR 1\n')
            if (status, said) != (0, BOTH):
                bad.append(f'before {call} number {number} of a drain, the place as {contents.hex()}: {said!r}')
        return bad


torn = set()
passed = failed = 0
with ThreadPoolExecutor(os.cpu_count()) as pool:
    for stop in (stop_in_session, stop_in_create, stop_in_drain):
        for call in CALLS:
            for bad in pool.map(lambda number: stop(call, number), range(1, MOST + 1)):
                if bad is None:
                    continue
                if stop is stop_in_drain:
                    torn.add(call)
                if bad:
                    failed += 1
                    print('\n'.join(f'stops: {line}' for line in bad))
                else:
                    passed += 1
for call in ('fdatasync', 'pwrite64'):
    if call not in torn:
        failed += 1
        print(f'stops: no {call} stands between the writes of a drain')
print(f'stops: {passed} passed, {failed} failed')
sys.exit(failed > 0)
PY
