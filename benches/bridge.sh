#!/usr/bin/env bash
# Times requests of one block of 4096 bytes at depth 1 and 16, read and written, by the program alone (lines through a pipe) and
# through the block device (nbdkit and libnbd), in a memory file system and on a disk. It is no part of the gate.
set -euo pipefail
root=$(cd "$(dirname "$0")/.." && pwd)
program=${PROGRAM:-$root/crates/trap_cli/out/trap_cli}
[ -n "${PROGRAM:-}" ] || "$root/limuvosel" >/dev/null </dev/null || true
exec /usr/bin/python3 - "$program" "$root/bridge/limuvosel_nbd.py" <<'PY'
import os, random, shutil, signal, subprocess, sys, tempfile, time

import nbd

PROGRAM, PLUGIN = sys.argv[1:]
COUNT = 2000
BLOCKS = 4096
random.seed(1)
PLACES = [random.randrange(BLOCKS) for _ in range(COUNT)]
DATA = [random.randbytes(4096) for _ in range(16)]


def make(folder):
    subprocess.run([PROGRAM] + f'create 7 5 16 4096 {BLOCKS // 4} 1 2 50000 206650000'.split(), cwd=folder, check=True, stdout=subprocess.DEVNULL)


def alone(folder, depth, is_write):
    """Microseconds a line, with `depth` lines under way at a time."""
    session = subprocess.Popen([PROGRAM, 'session'], cwd=folder, stdin=subprocess.PIPE, stdout=subprocess.PIPE)
    session.stdin.write(b'I\n')
    session.stdin.flush()
    last = int(session.stdout.readline().split()[4])
    lines = [b'W %d %d %s\n' % (last, place, DATA[i % 16].hex().encode()) if is_write else b'R %d\n' % place for i, place in enumerate(PLACES)]
    start = time.perf_counter()
    sent = 0
    for done in range(COUNT):
        while sent < COUNT and sent - done < depth:
            session.stdin.write(lines[sent])
            sent += 1
        session.stdin.flush()
        session.stdout.readline()
    spent = time.perf_counter() - start
    session.stdin.close()
    session.wait()
    return spent / COUNT * 1e6


def through(folder, depth, is_write):
    """The same through the block device."""
    socket = os.path.join(folder, 'sock')
    server = subprocess.Popen(['nbdkit', '-f', '-U', socket, 'python', PLUGIN, f'folder={folder}', f'program={PROGRAM}', 'same=keep'],
                              stderr=subprocess.DEVNULL)
    while not os.path.exists(socket):
        time.sleep(0.01)
    handle = nbd.NBD()
    handle.connect_unix(socket)
    start = time.perf_counter()
    under_way = []
    for i, place in enumerate(PLACES):
        while len(under_way) >= depth:
            handle.poll(-1)
            under_way = [cookie for cookie in under_way if not handle.aio_command_completed(cookie)]
        buffer = nbd.Buffer.from_bytearray(bytearray(DATA[i % 16])) if is_write else nbd.Buffer(4096)
        call = handle.aio_pwrite if is_write else handle.aio_pread
        under_way.append(call(buffer, place * 4096))
    while under_way:
        handle.poll(-1)
        under_way = [cookie for cookie in under_way if not handle.aio_command_completed(cookie)]
    spent = time.perf_counter() - start
    handle.shutdown()
    server.send_signal(signal.SIGTERM)
    server.wait()
    os.unlink(socket) if os.path.exists(socket) else None
    return spent / COUNT * 1e6


for name, where in (('memory', '/dev/shm'), ('disk', os.environ.get('DISK', '/var/tmp'))):
    for is_write in (False, True):
        for depth in (1, 16):
            times = []
            for kind in (alone, through):
                folder = tempfile.mkdtemp(dir=where)
                make(folder)
                times.append(min(kind(folder, depth, is_write) for _ in range(3)))
                shutil.rmtree(folder)
            print(f'{name}, {"write" if is_write else "read"}, depth {depth}: program {times[0]:.0f} us, bridge {times[1]:.0f} us')
PY
