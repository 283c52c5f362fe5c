#!/usr/bin/env bash
# Tries the built program where files, streams and limits of the system aren't as they should be: closed and full streams, a
# second program in the folder, files that can't be opened, too few descriptors, links, leftovers, bytes that aren't UTF-8, a
# full disk, signals in mid-call. What this machine has no means for is skipped, and said.
# `real_files.sh PROGRAM` tries another program.
set -uo pipefail
root=$(cd "$(dirname "$0")/.." && pwd)
if ! command -v python3 >/dev/null; then
  echo "real files: skipped, since python3 isn't here"
  exit 0
fi
if [ $# = 1 ]; then
  set -- "$(realpath "$1")"
else
  if ! command -v rt >/dev/null; then
    echo "real files: skipped, since rt isn't here"
    exit 0
  fi
  "$root/limuvosel" >/dev/null </dev/null
  set -- "$root/crates/trap_cli/out/trap_cli" "$root/limuvosel"
fi
exec python3 - "$@" <<'PY'
import fcntl, itertools, os, resource, shutil, signal, subprocess, sys, tempfile, time

room = tempfile.mkdtemp(prefix='real-files-')
os.chmod(room, 0o755)
program = shutil.copy(sys.argv[1], os.path.join(room, 'program'))
wrapper = sys.argv[2] if len(sys.argv) > 2 else None
is_root = os.geteuid() == 0
NOBODY = 65534
MEMBERS = ['m00.trap', 'm01.trap', 'm02.trap']
FILES = ['log.trap', 'new.trap'] + MEMBERS
ARRAY = 'create 7 3 1 16 4 1 2 8 2048'.split()
ONE, TWO, ZERO = (byte + '00' * 15 for byte in ('01', '02', '00'))
WRITE, READ = f'W 100 0 {ONE}\n', 'R 0\n'
HISTORY = '1 100 0 35 -\n'


class Skip(Exception):
    pass


class Folder:
    """A folder, with an array that has one write where it is asked for."""

    def __init__(self, array=True, user=None, path=None):
        self.path = path or tempfile.mkdtemp(dir=room)
        self.user = user
        if user is not None:
            os.chown(self.path, user, user)
        if array:
            for words, lines in (ARRAY, ''), (['session'], WRITE):
                done = self.run(words, lines)
                assert done.status == 0, done

    def at(self, name):
        return os.path.join(self.path, name)

    def bytes(self):
        """What is in each file, and where each link leads."""
        found = {}
        for name in os.listdir(self.path):
            if os.path.islink(self.at(name)):
                found[name] = os.readlink(self.at(name))
            elif os.path.isfile(self.at(name)):
                with open(self.at(name), 'rb') as file:
                    found[name] = file.read()
        return found

    def empty(self):
        """Removes the files, and gives their names."""
        names = sorted(os.listdir(self.path))
        for name in names:
            os.remove(self.at(name))
        return names

    def run(self, words, lines='', **how):
        return Run(self, words, lines, **how)

    def is_whole(self):
        """The array has its write, and no member is recorded lost: any one of them may go."""
        for gone in [None] + MEMBERS:
            copy = Folder(array=False)
            for name in self.bytes():
                if name != gone:
                    shutil.copy(self.at(name), copy.at(name))
            if not copy.run(['session'], READ).answers(0, f'is {ONE}\n'):
                return False
        return True


class Run:
    """A run of the program in a folder: its status, what it said, and its words on standard error."""

    def __init__(self, folder, words, lines='', closed=(), limits=(), ignored=(), trace=(), name=None, output=subprocess.PIPE):
        def before():
            for number in ignored:
                signal.signal(number, signal.SIG_IGN)
            if folder.user is not None:
                os.setgroups([])
                os.setgid(folder.user)
                os.setuid(folder.user)
            for stream in closed:
                os.close(stream)
            for number, most in limits:
                resource.setrlimit(number, (most, most))
        done = subprocess.run(list(trace) + [name or program] + words, input=lines.encode(), stdout=output,
                              stderr=subprocess.PIPE, cwd=folder.path, preexec_fn=before, timeout=60)
        self.status = done.returncode
        self.said = (done.stdout or b'').decode(errors='replace')
        told = done.stderr.decode(errors='replace').splitlines(keepends=True)
        self.told = ''.join(line for line in told if not line.startswith('strace: '))

    def __repr__(self):
        return f'status {self.status}, {self.said!r} on standard output, {self.told!r} on standard error'

    def answers(self, status, said):
        return (self.status, self.said, self.told) == (status, said, '')

    def is_refused(self, *words):
        """There was no bank: status 10, nothing said, and one sentence with these words."""
        return (self.status, self.said, self.told.count('\n')) == (10, '', 1) and all(word in self.told for word in words)


def inject(call, what, *paths):
    """The words before a program that has this call, on these files, answered otherwise."""
    if not shutil.which('strace') or subprocess.run(['strace', '-o', '/dev/null', 'true'], capture_output=True).returncode:
        raise Skip('strace')
    words = ['strace', '-qq', '-o', '/dev/null', '-e', f'trace={call}', '-e', f'inject={call}:{what}']
    return words + [word for path in paths for word in ('-P', path)]


def nobody():
    if not is_root:
        raise Skip('root, to be another user')
    return NOBODY


class Held:
    """A session that has given its first reply and waits for more lines."""

    def __init__(self, folder, line=READ):
        self.process = subprocess.Popen([program, 'session'], stdin=subprocess.PIPE, stdout=subprocess.PIPE,
                                        stderr=subprocess.PIPE, cwd=folder.path, text=True)
        self.first = self.ask(line)

    def ask(self, line):
        self.process.stdin.write(line)
        self.process.stdin.flush()
        return self.process.stdout.readline()

    def end(self):
        said, told = self.process.communicate()
        return self.process.returncode, said, told


def closed_streams():
    made = Folder(array=False)
    made.run(ARRAY)
    fresh = made.bytes()
    names = [None] if wrapper is None else [None, wrapper]
    subsets = [closed for count in range(4) for closed in itertools.combinations(range(3), count)]
    for name, closed in itertools.product(names, subsets):
        how = f'{closed} closed' + (', by the wrapper' if name else '')
        folder = Folder(array=False)
        done = folder.run(ARRAY, closed=closed, name=name)
        yield f'create, {how}', (done.answers(9, '') if 1 in closed else done.answers(0, 'created 7\n')), done
        yield f'the array of create, {how}', folder.bytes() == fresh, sorted(folder.bytes())
        folder = Folder()
        before = folder.bytes()
        done = folder.run(['history'], closed=closed, name=name)
        yield f'history, {how}', (done.answers(9, '') if 1 in closed else done.answers(0, HISTORY)), done
        yield f'the array of history, {how}', folder.bytes() == before, 'it changed'
        done = folder.run(['session'], READ + f'W 101 0 {TWO}\n', closed=closed, name=name)
        wanted = (0, f'is {ONE}\nok 2\n')
        if 0 in closed:
            wanted = (8, '' if 1 in closed else 'fault input\n')
        elif 1 in closed:
            wanted = (9, '')
        yield f'session, {how}', done.answers(*wanted), done
        if 0 in closed or 1 in closed:
            # The first reply fails, so the write after it isn't begun.
            yield f'the array of a session, {how}', folder.bytes() == before, 'it changed'


def full_streams():
    folder = Folder()
    with open('/dev/full', 'w') as full:
        for words, lines in (['session'], READ), (['history'], ''):
            done = folder.run(words, lines, output=full)
            yield f'{words[0]} to a full output', done.answers(9, ''), done
        done = Folder(array=False).run(ARRAY, output=full)
        yield 'create to a full output', done.answers(9, ''), done
    yield 'the array after full outputs', folder.is_whole(), 'it is not whole'
    reader, writer = os.pipe()
    os.close(reader)
    done = folder.run(['session'], READ, output=writer)
    yield 'session to an output that nobody reads', done.answers(9, ''), done
    os.close(writer)


def second_program():
    folder = Folder()
    held = Held(folder)
    before = folder.bytes()
    for words in (['session'], ['history'], ARRAY):
        done = folder.run(words, f'W 200 0 {TWO}\n')
        yield f'{words[0]} beside a session', done.is_refused('another program'), done
    yield 'the files beside a session', folder.bytes() == before, 'they changed'
    done = Folder().run(['session'], READ)
    yield 'session in another folder', done.answers(0, f'is {ONE}\n'), done
    reply = held.ask(f'W 101 0 {TWO}\n')
    yield 'the session that was first', (reply, held.end()) == ('ok 2\n', (0, '', '')), reply
    done = folder.run(['session'], READ)
    yield 'the write of the session that was first', done.answers(0, f'is {TWO}\n'), done
    held = Held(folder)
    held.process.kill()
    held.end()
    done = folder.run(['session'], READ)
    yield 'session after a killed one', done.answers(0, f'is {TWO}\n'), done
    folder = Folder()
    for error in 'EOPNOTSUPP', 'ENOSYS', 'ENOLCK', 'EINVAL', 'EBADF':
        done = folder.run(['session'], READ, trace=inject('flock', f'error={error}'))
        right = (done.status, done.said, done.told.count('\n')) == (0, f'is {ONE}\n', 1) and "can't be locked" in done.told
        yield f'no locks in the file system: {error}', right, done
    done = folder.run(['session'], READ, trace=inject('flock', 'error=EIO'))
    yield 'a lock that fails', done.is_refused('Input/output error'), done


def unopenable():
    for name in 'log.trap', 'm01.trap':
        folder = Folder()
        before = folder.bytes()
        for error, reason in (('EACCES', 'Permission denied'), ('EPERM', 'Operation not permitted'), ('EROFS', 'Read-only'),
                              ('EMFILE', 'Too many open files'), ('ENFILE', 'Too many open files'), ('ELOOP', 'links'),
                              ('ENOTDIR', 'Not a directory'), ('ENOMEM', 'memory'), ('ETXTBSY', 'busy')):
            for words in (['session'], ['history'], ARRAY):
                done = folder.run(words, READ, trace=inject('openat', f'error={error}', name))
                yield f'{words[0]}, {name} with {error}', done.is_refused(name, reason), done
        yield f'the files after {name} could not be opened', folder.bytes() == before, 'they changed'
        yield f'the array after {name} could not be opened', folder.is_whole(), 'it is not whole'
    folder = Folder()
    os.mkdir(folder.at('m03.trap'))
    done = folder.run(['session'], READ)
    yield 'a folder under the name of a file', done.is_refused('m03.trap', 'Is a directory'), done
    folder = Folder()
    done = folder.run(['session'], READ, trace=inject('openat', 'error=EACCES', '.'))
    yield 'a folder that cannot be opened', done.is_refused('folder', 'Permission denied'), done


def absent():
    for error in 'ENOENT', 'ENXIO', 'ENODEV', 'EIO':
        folder = Folder()
        done = folder.run(['session'], READ, trace=inject('openat', f'error={error}', 'm00.trap'))
        yield f'session, m00.trap with {error}', done.answers(0, f'is {ONE}\n'), done
        os.remove(folder.at('m01.trap'))
        done = folder.run(['session'], READ)
        yield f'm01.trap gone after m00.trap with {error}', done.answers(5, 'fault lost 0 1\n'), done
        folder = Folder()
        done = folder.run(['session'], READ, trace=inject('openat', f'error={error}', 'log.trap'))
        yield f'session, log.trap with {error}', done.answers(3, 'fault not an array\n'), done
    folder = Folder()
    os.remove(folder.at('m00.trap'))
    os.symlink('/nowhere/m00.trap', folder.at('m00.trap'))
    done = folder.run(['session'], READ)
    yield 'session, a link that leads nowhere', done.answers(0, f'is {ONE}\n'), done


def no_permission():
    user = nobody()
    for name, mode in (('m01.trap', 0o000), ('log.trap', 0o000), ('log.trap', 0o444), ('m02.trap', 0o444)):
        folder = Folder(user=user)
        before = folder.bytes()
        os.chmod(folder.at(name), mode)
        for words in (['session'], ['history'], ARRAY):
            done = folder.run(words, READ)
            yield f'{words[0]}, {name} with mode {mode:o}', done.is_refused(name, 'Permission denied'), done
        yield f'the files after {name} with mode {mode:o}', folder.bytes() == before, 'they changed'
        os.chmod(folder.at(name), 0o644)
        yield f'the array after {name} with mode {mode:o}', folder.is_whole(), 'it is not whole'
    folder = Folder(user=user)
    os.chmod(folder.path, 0o333)
    done = folder.run(['session'], READ)
    yield 'a folder that cannot be read', done.is_refused('folder', 'Permission denied'), done
    os.chmod(folder.path, 0o555)
    done = folder.run(['session'], READ)
    yield 'session in a folder that cannot be written', done.answers(0, f'is {ONE}\n'), done
    folder = Folder(array=False, user=user)
    os.chmod(folder.path, 0o555)
    done = folder.run(ARRAY)
    yield 'create in a folder that cannot be written', done.answers(7, 'fault members 0 0\n') and not folder.bytes(), done


def few_descriptors():
    statuses = set()
    # One is taken to load the program.
    for most in range(4, 12):
        folder = Folder()
        before = folder.bytes()
        done = folder.run(['session'], READ, limits=[(resource.RLIMIT_NOFILE, most)])
        statuses.add(done.status)
        right = done.answers(0, f'is {ONE}\n') or done.is_refused('Too many open files')
        yield f'session with {most} descriptors', right and folder.bytes() == before, done
        yield f'the array after {most} descriptors', folder.is_whole(), 'it is not whole'
        folder = Folder(array=False)
        done = folder.run(ARRAY, limits=[(resource.RLIMIT_NOFILE, most)])
        if done.status != 0:
            yield f'create with {most} descriptors', done.is_refused('Too many') or (
                done.status in (6, 7) and 'created' not in done.said and 'new.trap' not in folder.bytes()), done
    yield 'statuses of few descriptors', statuses == {0, 10}, statuses


def unfinished():
    made = Folder(array=False)
    made.run(ARRAY)
    fresh = made.bytes()
    for kind, put in ('symbolic link', os.symlink), ('hard link', os.link):
        folder = Folder(array=False)
        victim = os.path.join(room, f'victim of a {kind}')
        with open(victim, 'w') as file:
            file.write('precious')
        put(victim, folder.at('new.trap'))
        done = folder.run(ARRAY)
        with open(victim) as file:
            kept = file.read()
        yield f'create over a {kind}', done.answers(0, 'created 7\n') and folder.bytes() == fresh, done
        yield f'what a {kind} leads to', kept == 'precious', kept
    folder = Folder(array=False)
    with open(folder.at('new.trap'), 'w') as file:
        file.write('left by a stopped run' * 1000)
    done = folder.run(ARRAY)
    yield 'create over what a stopped run left', done.answers(0, 'created 7\n') and folder.bytes() == fresh, done
    folder = Folder(array=False)
    os.mkdir(folder.at('new.trap'))
    done = folder.run(ARRAY)
    yield 'create over a folder', done.answers(7, 'fault members 0 0\n') and os.listdir(folder.path) == ['new.trap'], done
    folder = Folder(array=False)
    os.symlink('/nowhere/m00.trap', folder.at('m00.trap'))
    done = folder.run(ARRAY)
    links = os.path.islink(folder.at('m00.trap'))
    yield 'create over a link that leads nowhere', done.answers(7, 'fault members 0 0\n') and links, done


def words():
    folder = Folder()
    for name in b'\xff\xfe', '\u00fcber'.encode(), b'two words':
        path = os.path.join(room.encode(), name)
        shutil.copy(program, path)
        done = folder.run(['history'], name=path)
        yield f'a program called {name!r}', done.answers(0, HISTORY), done
    done = folder.run([b'\xff'])
    yield 'a word that is not UTF-8', done.answers(2, ''), done
    done = folder.run([b'history', b'\xc3\x28'])
    yield 'a second word that is not UTF-8', done.answers(2, ''), done
    for long in 300, 5000:
        done = folder.run(['h' * long])
        yield f'a word of {long} bytes', done.answers(2, 'fault usage\n'), done
    yield 'the array after wrong words', folder.is_whole(), 'it is not whole'


def full_disk():
    if not is_root:
        raise Skip('root, to make a small disk')
    path = tempfile.mkdtemp(dir=room)
    if subprocess.run(['mount', '-t', 'tmpfs', '-o', 'size=256k', 'none', path], capture_output=True).returncode:
        raise Skip('a small disk')
    try:
        folder = Folder(path=path, array=False)
        done = folder.run('create 7 3 1 16 4 1 2 8 1000000'.split())
        yield 'create, no space for the log', done.answers(6, 'fault log\n') and folder.empty() == MEMBERS, done
        done = folder.run('create 7 3 1 4096 24 1 2 8 100000'.split())
        yield 'create, no space for a member', done.answers(7, 'fault members 2 2\n') and folder.empty() == MEMBERS[:2], done
        Folder(path=path)
        with open(folder.at('filler'), 'wb') as filler:
            try:
                filler.write(bytes(1 << 20))
            except OSError:
                pass
        # A file's space is taken when it is made, so a full disk stops no write.
        done = folder.run(['session'], f'W 101 0 {TWO}\n' + READ)
        yield 'session on a full disk', done.answers(0, f'ok 2\nis {TWO}\n'), done
    finally:
        subprocess.run(['umount', path])


def file_size():
    limits = [(resource.RLIMIT_FSIZE, 1000)]
    folder = Folder(array=False)
    done = folder.run(ARRAY, limits=limits, ignored=[signal.SIGXFSZ])
    yield 'create beyond the greatest file', done.answers(6, 'fault log\n') and folder.empty() == MEMBERS, done
    done = folder.run(ARRAY, limits=limits)
    yield 'create killed beyond the greatest file', done.status == -signal.SIGXFSZ and done.said == '', done
    for name in MEMBERS:
        os.remove(folder.at(name))
    done = folder.run(ARRAY)
    yield 'create after a killed one', done.answers(0, 'created 7\n') and 'new.trap' not in folder.bytes(), done


def signals():
    folder = Folder()
    held = Held(folder)
    for time_of_write in range(101, 111):
        held.process.send_signal(signal.SIGSTOP)
        time.sleep(0.01)
        held.process.send_signal(signal.SIGCONT)
        reply = held.ask(f'W {time_of_write} 0 {TWO}\n')
        yield 'a write after a stop', reply == f'ok {time_of_write - 99}\n' or reply == 'no full\n', reply
    done = held.end()
    yield 'a session that was stopped', done == (0, '', ''), done
    folder = Folder(array=False)
    maker = subprocess.Popen([program] + 'create 7 3 1 4096 4096 1 2 8 100000'.split(), stdout=subprocess.PIPE, cwd=folder.path)
    while maker.poll() is None:
        maker.send_signal(signal.SIGSTOP)
        time.sleep(0.002)
        maker.send_signal(signal.SIGCONT)
        time.sleep(0.002)
    said = maker.communicate()[0]
    yield 'create that was stopped again and again', (maker.returncode, said) == (0, b'created 7\n'), said
    for call in 'write', 'pread64', 'pwrite64', 'fdatasync', 'fsync', 'openat', 'flock':
        folder = Folder(array=False)
        # Loading the program makes calls of its own, on other files.
        trace = inject(call, 'error=EINTR:when=1+2', *(FILES if call in ('openat', 'pread64') else []))
        done = folder.run(ARRAY, trace=trace)
        yield f'create, {call} interrupted', done.answers(0, 'created 7\n'), done
        done = folder.run(['session'], WRITE + READ, trace=trace)
        yield f'session, {call} interrupted', done.answers(0, f'ok 1\nis {ONE}\n'), done
        done = folder.run(['history'], trace=trace)
        yield f'history, {call} interrupted', done.answers(0, HISTORY), done
        yield f'the array after interrupted {call}', folder.is_whole(), 'it is not whole'


def fewer_bytes():
    folder = Folder(array=False)
    folder.run('create 7 3 1 4096 4 1 2 8 100000'.split())
    reader, writer = os.pipe()
    # A reply doesn't fit into the pipe, so a stop in mid-call has taken a part of it.
    fcntl.fcntl(writer, 1031, 4096)
    session = subprocess.Popen([program, 'session'], stdin=subprocess.PIPE, stdout=writer, cwd=folder.path)
    os.close(writer)
    session.stdin.write(READ.encode() * 20)
    session.stdin.close()
    said = b''
    while some := os.read(reader, 1000):
        said += some
        session.send_signal(signal.SIGSTOP)
        time.sleep(0.001)
        session.send_signal(signal.SIGCONT)
    os.close(reader)
    yield 'replies that are written in parts', (session.wait(), said) == (0, (b'is ' + b'0' * 8192 + b'\n') * 20), len(said)


def cut_files():
    # Cut or lengthened by a byte that no request touches: seen at the sync of what is written.
    for name, fault, status in (('m00.trap', 'fault members 0 0\n', 7), ('m02.trap', 'fault members 2 2\n', 7),
                                ('log.trap', 'fault log\n', 6)):
        for change in -1, 1:
            folder = Folder()
            session = subprocess.Popen([program, 'session'], stdin=subprocess.PIPE, stdout=subprocess.PIPE, cwd=folder.path)
            session.stdin.write(READ.encode())
            session.stdin.flush()
            first = session.stdout.readline()
            size = os.path.getsize(folder.at(name)) + change
            os.truncate(folder.at(name), size)
            said, _ = session.communicate(WRITE.replace('100', '101').encode())
            found = first.decode(), said.decode(), session.returncode, os.path.getsize(folder.at(name))
            yield f'{name} changed by {change} in a session', found == (f'is {ONE}\n', fault, status, size), found
    # A cut that a read meets.
    folder = Folder()
    session = subprocess.Popen([program, 'session'], stdin=subprocess.PIPE, stdout=subprocess.PIPE, cwd=folder.path)
    session.stdin.write(READ.encode())
    session.stdin.flush()
    first = session.stdout.readline()
    os.truncate(folder.at('m00.trap'), 16)
    said, _ = session.communicate(READ.encode())
    found = said.decode(), session.returncode, os.path.getsize(folder.at('m00.trap'))
    yield 'm00.trap is cut before a read', found == ('fault members 0 0\n', 7, 16), found


passed = failed = 0
try:
    for case in (closed_streams, full_streams, second_program, unopenable, absent, no_permission, few_descriptors, unfinished,
                 words, full_disk, file_size, signals, fewer_bytes, cut_files):
        try:
            for what, is_right, found in case():
                if is_right:
                    passed += 1
                else:
                    failed += 1
                    print(f'real files: {what}: {found}')
        except Skip as missing:
            print(f'real files: {case.__name__}: the rest is skipped, since this needs {missing}')
finally:
    shutil.rmtree(room, ignore_errors=True)
print(f'real files: {passed} passed, {failed} failed')
sys.exit(failed > 0)
PY
