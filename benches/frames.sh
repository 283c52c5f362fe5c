#!/usr/bin/env bash
# Times the processor's part of `send` and of `apply` over 20,000 writes of blocks of 4096 bytes, in a memory file system, against a C
# program with the same reads, writes and syncs. Counts the system calls of a frame. It is no part of the gate.
set -euo pipefail
root=$(cd "$(dirname "$0")/.." && pwd)
program=${PROGRAM:-$root/crates/trap_cli/out/trap_cli}
[ -n "${PROGRAM:-}" ] || "$root/limuvosel" >/dev/null </dev/null || true
folder=$(mktemp -d /dev/shm/limuvosel.XXXXXX)
trap 'rm -rf "$folder"' EXIT
cc -O2 -D_GNU_SOURCE -o "$folder/frames" "$root/benches/frames.c"
cd "$folder"
exec python3 - "$program" "$folder/frames" <<'PY'
import collections, os, random, re, resource, shutil, subprocess, sys

ours, theirs = sys.argv[1:]
WRITES = 20000
random.seed(1)


def run(words, given=b''):
    return subprocess.run([ours] + words, input=given, capture_output=True, check=True).stdout


run(f'create 7 5 16 4096 1024 1 2 {WRITES} {WRITES * 4133}'.split())
blocks = {}
lines = []
for number in range(WRITES):
    at = random.randrange(4096)
    block = bytearray(blocks.get(at, bytes(4096)))
    if number % 4 == 0:
        block[:] = random.randbytes(4096)
    else:
        for _ in range(8):
            spot = random.randrange(4080)
            block[spot:spot + 16] = random.randbytes(16)
    blocks[at] = block
    lines.append(f'W {number} {at} {block.hex()}\n')
run(['session'], ''.join(lines).encode())
frames = run(['send', '0'])
first = 192 + 12 + 2 * 4096
length = len(frames) - WRITES * 8
run('replica-create 7 4096 4096'.split())
shutil.copy('replica.trap', 'new.replica')


def spent(words, given):
    before = resource.getrusage(resource.RUSAGE_CHILDREN)
    said = subprocess.run(words, input=given, capture_output=True, check=True).stdout
    after = resource.getrusage(resource.RUSAGE_CHILDREN)
    return after.ru_utime + after.ru_stime - before.ru_utime - before.ru_stime, said


def compare(what, mine, other, given):
    times = ([], [])
    for _ in range(5):
        said = []
        for words, spents in zip((mine, other), times):
            shutil.copy('new.replica', 'replica.trap')
            time, text = spent(words, given)
            spents.append(time)
            said.append(text)
        assert said[0] == said[1], (len(said[0]), len(said[1]), said[0][-80:], said[1][-80:])
    one, two = min(times[0]), min(times[1])
    print(f'{what}: limuvosel {one / WRITES * 1e6:.2f} us a frame, C {two / WRITES * 1e6:.2f} us, ratio {one / two:.2f}')


compare('send', [ours, 'send', '0'], [theirs, 'log.trap', str(first), str(length)], b'')
compare('apply', [ours, 'apply'], [theirs, 'replica.trap'], frames)
print(f'bytes on the line: {len(frames)} for {WRITES} frames, of {WRITES * 4096} bytes of blocks')

if shutil.which('strace'):
    CALLS = ['pread64', 'pwrite64', 'fdatasync', 'fsync', 'read', 'write']
    shutil.copy('new.replica', 'replica.trap')
    for words, given in ((['send', '0'], b''), (['apply'], frames)):
        subprocess.run(['strace', '-qq', '-o', 'trace', '-e', 'trace=' + ','.join(CALLS), ours] + words,
                       input=given, capture_output=True, check=True)
        with open('trace') as trace:
            calls = collections.Counter(re.match(r'(\w+)\(', line).group(1) for line in trace if '(' in line)
        print(f'{words[0]}, calls a frame:', ', '.join(f'{calls[name] / WRITES:.3f} {name}' for name in CALLS if calls[name]))
PY
