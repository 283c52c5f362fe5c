#!/usr/bin/env bash
# Changes a byte of a log record while a session of the built program runs. A line that needs the record must be answered
# `fault damaged OFFSET` with the record's offset, and end the session with status 4; lines that don't are answered as
# before. Mounting then finds the same damage, and with the byte back all is there.
set -uo pipefail
root=$(cd "$(dirname "$0")/.." && pwd)
for tool in rt python3; do
  if ! command -v $tool >/dev/null; then
    echo "damage: skipped, since $tool isn't here"
    exit 0
  fi
done
"$root/limuvosel" >/dev/null </dev/null
exec python3 - "$root/crates/trap_cli/out/trap_cli" <<'PY'
import os, subprocess, sys, tempfile

program = sys.argv[1]
ARRAY = 'create 7 3 1 16 4 1 2 8 2048'.split()
ZERO, ONE, TWO, THREE = ('%02x' % byte + '00' * 15 for byte in range(4))
# The ring begins at byte 236 of the log: 192 bytes, then a slot of 12 + 2 x 16. Each record has 26 bytes and a code of 9.
WRITES = [f'W 100 0 {ONE}', f'W 101 1 {THREE}', f'W 102 0 {TWO}']
FIRST, SECOND, THIRD = (236 + 35 * index for index in range(3))
TIME = range(10, 18)  # where a record has its time
LITERAL = 26 + 4  # where it has the one byte that isn't zero
# what a session answers, and the records that it reads again for it
ANSWERS = {
    'A 0 0': (ZERO, [THIRD, FIRST]),
    'A 1 0': (ONE, [THIRD]),
    'A 3 0': (TWO, []),
    'A 1 1': (ZERO, [SECOND]),
    'T 99 0': (ZERO, [THIRD, FIRST]),
    'T 101 0': (ONE, [THIRD]),
    'T 102 1': (THREE, []),
}


class Session:
    def __init__(self, folder):
        self.process = subprocess.Popen([program, 'session'], stdin=subprocess.PIPE, stdout=subprocess.PIPE,
                                        text=True, cwd=folder)

    def ask(self, lines):
        """The first reply, which is awaited, to lines that are sent at once."""
        self.process.stdin.write(lines)
        self.process.stdin.flush()
        return self.process.stdout.readline()

    def end(self):
        """What else is said, and the status."""
        self.process.stdin.close()
        said = self.process.stdout.read()
        return said, self.process.wait()


def whole(folder, lines):
    done = subprocess.run([program, 'session'], input=lines, capture_output=True, text=True, cwd=folder)
    return done.stdout, done.returncode


def exchange(folder, offset, byte=None):
    """Puts a byte of the log in the place of another one, and gives the other one. Without a byte all bits are turned."""
    with open(os.path.join(folder, 'log.trap'), 'r+b') as log:
        log.seek(offset)
        old = log.read(1)[0]
        log.seek(offset)
        log.write(bytes([old ^ 255 if byte is None else byte]))
    return old


def case(folder, line, record, place):
    """What was wrong where the byte at that place of a record is changed before the line."""
    answer, needed = ANSWERS[line]
    session = Session(folder)
    if session.ask('R 0\n') != f'is {TWO}\n':
        return 'the first reply'
    # A literal begins with no zero byte. Another byte in its place would be another right record.
    old = exchange(folder, record + place, 0 if place == LITERAL else None)
    fault = f'fault damaged {record}\n'
    wanted = (fault, ('', 4)) if record in needed else (f'at {answer}\n', (f'is {TWO}\n', 0))
    got = session.ask(f'{line}\nR 0\n'), session.end()
    mounted = whole(folder, 'R 0\n')
    exchange(folder, record + place, old)
    if got != wanted:
        return f'{got}, wanted {wanted}'
    # Mounting finds a time that is too high by the next record, whose time is below it.
    found = record + 35 if place in TIME and record != THIRD else record
    if mounted != (f'fault damaged {found}\n', 4):
        return f'mounting said {mounted}'
    if whole(folder, f'{line}\n') != (f'at {answer}\n', 0):
        return 'with the byte back the answer is another one'
    return None


passed = failed = 0
with tempfile.TemporaryDirectory() as folder:
    subprocess.run([program] + ARRAY, cwd=folder, capture_output=True)
    whole(folder, '\n'.join(WRITES))
    for line in ANSWERS:
        for record in (FIRST, SECOND, THIRD):
            for place in range(35) if line == 'A 0 0' else (0, LITERAL):
                wrong = case(folder, line, record, place)
                if wrong is None:
                    passed += 1
                else:
                    failed += 1
                    print(f'damage: {line}, byte {place} of the record at {record}: {wrong}')
print(f'damage: {passed} passed, {failed} failed')
sys.exit(failed > 0)
PY
