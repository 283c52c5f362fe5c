"""A plugin of nbdkit that serves a Limuvosel array as a block device.

One `session` of the program serves the present and the past. The export's name is the instant: `""` is live and
writable, `seq/N` is the volume after write N, and `time/MS` or `time/2026-12-01T10:36:58Z` is the volume at that time.

    nbdkit -f -U array.sock python limuvosel_nbd.py folder=/srv/array

README.md beside this file has the options and what they mean.
"""

import calendar
import errno
import fcntl
import os
import struct
import subprocess
import sys
import threading
import time
from builtins import open as open_file

import nbdkit

API_VERSION = 2

# The pipe from the program holds this many bytes of replies, and no more are ever owed: so the program never waits for
# a reader, and whoever writes lines never waits for good.
PIPE_BYTES = 1 << 20
OWED_BYTES = PIPE_BYTES - (1 << 16)

# Lines that one piece of a request sends before it reads their replies.
READ_LINES = 256
WRITE_LINES = 512

# A session takes 2^40 bytes of input at most; it is ended by `Q` and begun again well before.
INPUT_BYTES = 1 << 39

LOG_LINE_BYTES = 100

OPTIONS = {
    "folder": None,
    "program": "limuvosel",
    "full": "enospc",
    "roll": "10",
    "same": "skip",
    "warn": "80",
    "log": None,
}

server = None


class Stopped(Exception):
    """The array can't be served any more."""


class Refused(Exception):
    """A line of the session was refused."""

    def __init__(self, reply):
        super().__init__(reply.decode("ascii", "replace"))
        self.reply = reply


class Geometry:
    """The numbers of an array, from the 64 bytes at the front of its log."""

    HEADER = struct.Struct(">B4sQBBHIBBIQ29s")

    def __init__(self, header):
        if len(header) != self.HEADER.size:
            raise ValueError("the log is too short")
        (gate, magic, self.id, self.members, self.chunk, self.block, self.rows, self.slots, self.gap, self.entries,
         self.ring, zero) = self.HEADER.unpack(header)
        if gate != 0xA5 or magic != b"TRPL" or any(zero):
            raise ValueError("it doesn't begin with a valid header")
        if not (3 <= self.members <= 16 and 16 <= self.block <= 4096 and self.rows > 0):
            raise ValueError("its header has numbers that are out of range")

    @property
    def volume(self):
        return self.rows * (self.members - 1)


class Log:
    """Lines for the operator, each of at most 100 bytes."""

    def __init__(self, path):
        self.path = path
        self.lock = threading.Lock()

    def say(self, text):
        stamp = time.strftime("%Y-%m-%dT%H:%M:%SZ", time.gmtime())
        line = f"{stamp} {text}".encode("utf-8", "replace")[: LOG_LINE_BYTES - 1].replace(b"\n", b" ") + b"\n"
        with self.lock:
            if self.path is None:
                sys.stderr.buffer.write(line)
                sys.stderr.buffer.flush()
            else:
                with open_file(self.path, "ab", buffering=0) as file:
                    file.write(line)


class Child:
    """The program's `session`, its lines sent under a lock and its replies read in the order of their tickets."""

    def __init__(self, program, folder):
        self.process = subprocess.Popen(
            [program, "session"],
            cwd=folder,
            stdin=subprocess.PIPE,
            stdout=subprocess.PIPE,
            stderr=subprocess.PIPE,
            bufsize=0,
            close_fds=True,
        )
        for pipe in (self.process.stdin, self.process.stdout):
            try:
                fcntl.fcntl(pipe.fileno(), fcntl.F_SETPIPE_SZ, PIPE_BYTES)
            except OSError:
                pass
        self.owed_limit = min(OWED_BYTES, fcntl.fcntl(self.process.stdout.fileno(), fcntl.F_GETPIPE_SZ) * 15 // 16)
        self.replies = os.fdopen(os.dup(self.process.stdout.fileno()), "rb", buffering=1 << 16)
        self.sent_bytes = 0

    def close(self):
        """Ends the session by `Q`, and answers its exit status."""
        try:
            self.process.stdin.write(b"Q\n")
            self.process.stdin.close()
        except OSError:
            pass
        status = self.process.wait()
        self.replies.close()
        self.process.stdout.close()
        self.process.stderr.close()
        return status

    def last_words(self):
        """What the program printed on standard error, once it has ended."""
        try:
            self.process.wait(timeout=5)
        except subprocess.TimeoutExpired:
            return ""
        return self.process.stderr.read().decode("utf-8", "replace").strip().split("\n")[-1]


class Server:
    """An array in a folder, served by one session of the program."""

    def __init__(self, options):
        self.options = options
        self.log = Log(options["log"])
        with open_file(os.path.join(options["folder"], "log.trap"), "rb") as file:
            self.geometry = Geometry(file.read(64))
        self.block = self.geometry.block
        self.size = self.geometry.volume * self.block
        # Lines are sent under `sending`; a write's lines also under `writing`, which a change of part of a block holds
        # from its read to its write.
        self.writing = threading.RLock()
        self.sending = threading.Lock()
        self.turn = threading.Condition()
        # Each request that waits for its replies has a lock of its own here, under its ticket, so that only the one
        # whose turn it is wakes up. Whoever waits to send waits for `turn`.
        self.readers = {}
        self.senders = 0
        self.next_ticket = 0
        self.next_reply = 0
        self.owed = 0
        self.failed = None
        self.open_past = {}
        self.last_time = 0
        self.first = 0
        self.last = 0
        self.has_warned = False
        self.child = None

    # --- the session

    def start(self):
        """Begins the session. When this returns the program has mounted the array and holds the folder's lock."""
        self.child = Child(self.options["program"], self.options["folder"])
        self.learn_span()
        now = now_ms()
        if self.last_time > now:
            self.log.say(f"the last write's time is {self.last_time - now} ms ahead of the clock")
        if self.options["full"] == "roll":
            if self.ask([b"K %d" % self.first], [64])[0] == b"no line":
                self.fail("full=roll needs a program with the line K")
                raise Stopped(self.failed)

    def learn_span(self):
        """Asks for the retained range."""
        reply = self.ask([b"I"], [96])[0]
        fields = reply.split(b" ")
        if len(fields) != 5 or fields[0] != b"is":
            self.fail("unknown reply to I")
            raise Stopped(self.failed)
        self.first, self.last, base_time, last_time = (int(field) for field in fields[1:])
        self.last_time = max(self.last_time, last_time)
        return self.first, self.last, base_time, last_time

    def fail(self, why):
        """No request is answered from now on."""
        with self.turn:
            if self.failed is None:
                self.failed = why
                self.log.say(f"stopped serving: {why}")
            self.turn.notify_all()
            for lock in self.readers.values():
                lock.release()
            self.readers.clear()

    def ask(self, lines, reply_bytes):
        """Sends lines and answers their replies, which are at most as long as given. Lines of other requests may come
        before and after them, and not between them."""
        with self.sending:
            ticket, owed = self.send(lines, reply_bytes)
        return self.take(ticket, len(lines), owed)

    def send(self, lines, reply_bytes):
        """Sends lines; the caller holds `sending`. Answers the ticket of the first, and the bytes owed."""
        owed = sum(reply_bytes)
        with self.turn:
            # The limit holds for one request at least, so that a single long reply always goes.
            self.wait_to_send(lambda: self.owed == 0 or self.owed + owed <= self.child.owed_limit)
            if self.failed:
                raise Stopped(self.failed)
            if self.child.sent_bytes > INPUT_BYTES:
                self.wait_to_send(lambda: self.next_reply == self.next_ticket)
                self.begin_again()
            if self.failed:
                raise Stopped(self.failed)
            self.owed += owed
            ticket = self.next_ticket
            self.next_ticket += len(lines)
        data = b"\n".join(lines) + b"\n"
        view = memoryview(data)
        try:
            while view:
                view = view[self.child.process.stdin.write(view):]
        except OSError:
            self.fail(self.why_ended())
            raise Stopped(self.failed) from None
        self.child.sent_bytes += len(data)
        return ticket, owed

    def wait_to_send(self, may_send):
        """Waits until this holds, or serving has stopped; the caller holds `turn`."""
        self.senders += 1
        self.turn.wait_for(lambda: self.failed or may_send())
        self.senders -= 1

    def begin_again(self):
        """Ends the session by `Q` and begins another. Nothing is owed."""
        status = self.child.close()
        if status != 0:
            self.failed = f"the session ended with status {status}"
            self.log.say(f"stopped serving: {self.failed}")
            return
        self.child = Child(self.options["program"], self.options["folder"])

    def take(self, ticket, count, owed):
        """Reads so many replies, when it is their turn."""
        lock = None
        with self.turn:
            if self.next_reply != ticket and not self.failed:
                lock = self.readers[ticket] = threading.Lock()
                lock.acquire()
        if lock:
            # It is released when the replies before these have been read.
            lock.acquire()
        if self.failed:
            raise Stopped(self.failed)
        replies = []
        for _ in range(count):
            line = self.child.replies.readline()
            if not line.endswith(b"\n") or line.startswith(b"fault "):
                self.fail(line.decode("ascii", "replace").strip() if line.startswith(b"fault ") else self.why_ended())
                raise Stopped(self.failed)
            replies.append(line[:-1])
        with self.turn:
            self.next_reply += count
            self.owed -= owed
            lock = self.readers.pop(self.next_reply, None)
            if lock:
                lock.release()
            if self.senders:
                self.turn.notify_all()
        return replies

    def why_ended(self):
        words = self.child.last_words()
        status = self.child.process.poll()
        return f"the session ended with status {status}" + (f": {words}" if words else "")

    # --- blocks

    def read_blocks(self, instant, first, count):
        """The contents of successive blocks at an instant, and now where that is None."""
        parts = []
        size = 2 * self.block + 4
        step = max(1, min(READ_LINES, self.child.owed_limit // size))
        for start in range(first, first + count, step):
            numbers = range(start, min(start + step, first + count))
            lines = [instant.line(block) if instant else b"R %d" % block for block in numbers]
            for reply in self.ask(lines, [size] * len(lines)):
                parts.append(self.contents(reply, b"at " if instant else b"is "))
        return b"".join(parts)

    def contents(self, reply, begin):
        if reply.startswith(begin) and len(reply) == 3 + 2 * self.block:
            try:
                return bytes.fromhex(reply[3:].decode("ascii"))
            except ValueError:
                pass
        if reply.startswith((b"no kept ", b"no ahead ")):
            raise Refused(reply)
        self.fail("unknown reply to a read")
        raise Stopped(self.failed)

    def write_blocks(self, changes):
        """Writes blocks, each with its new contents, in order. Each is durable when this returns."""
        for start in range(0, len(changes), WRITE_LINES):
            piece = changes[start : start + WRITE_LINES]
            while piece:
                piece = self.write_piece(piece)

    def write_piece(self, changes):
        """Writes them, and answers those that have to be written again after room was made."""
        with self.writing, self.sending:
            now = max(self.last_time, now_ms())
            self.last_time = now
            lines = [b"W %d %d %s" % (now, block, data.hex().encode("ascii")) for block, data in changes]
            ticket, owed = self.send(lines, [64] * len(lines))
        refused = []
        for (block, data), reply in zip(changes, self.take(ticket, len(lines), owed)):
            if reply.startswith(b"ok "):
                self.last = max(self.last, int(reply[3:]))
            elif reply == b"no full":
                refused.append((block, data))
            elif reply == b"no worn":
                raise OSError(errno.ENOSPC, "the array is worn")
            else:
                self.fail("unknown reply to a write")
                raise Stopped(self.failed)
        self.warn_where_full()
        if not refused:
            return []
        if self.options["full"] != "roll":
            raise OSError(errno.ENOSPC, "the history is full")
        self.drop_oldest()
        return refused

    def warn_where_full(self):
        percent = 100 * (self.last - self.first) // self.geometry.entries
        if percent >= self.options["warn"] and not self.has_warned:
            self.has_warned = True
            self.log.say(f"{percent} percent of the entries are in use")
        elif percent < self.options["warn"]:
            self.has_warned = False

    def drop_oldest(self):
        """Gives up part of the history from its old end, and nothing that an open past export needs."""
        first, last, _, _ = self.learn_span()
        upto = first + max(1, (last - first) * self.options["roll"] // 100)
        with self.turn:
            if self.open_past:
                upto = min(upto, min(self.open_past.values()))
        if upto <= first:
            raise OSError(errno.ENOSPC, "the history is full, and an open past export holds its old end")
        reply = self.ask([b"K %d" % upto], [64])[0]
        if reply != b"ok %d" % upto:
            self.fail("unknown reply to K")
            raise Stopped(self.failed)
        self.first = upto


class Instant:
    """A retained instant: a number, or a time with the last number at or below it unknown."""

    def __init__(self, word, number):
        self.word = word
        self.number = number

    def line(self, block):
        return b"%s %d %d" % (self.word, self.number, block)


class Handle:
    """A connection to one export."""

    def __init__(self, instant):
        self.instant = instant


def now_ms():
    return time.time_ns() // 1_000_000


def parse_time(text):
    """Milliseconds since 1970: decimal digits, or a date and time of day in UTC."""
    if text.isascii() and text.isdigit():
        return int(text)
    whole, _, part = text.removesuffix("Z").partition(".")
    if not text.endswith("Z") or (part and not part.isdigit()) or len(part) > 3:
        raise ValueError(text)
    seconds = calendar.timegm(time.strptime(whole, "%Y-%m-%dT%H:%M:%S"))
    return 1000 * seconds + int(part.ljust(3, "0") if part else 0)


def instant_of(name):
    """The instant that an export's name stands for, None for the present. Answers ENOENT where it isn't retained."""
    if name == "":
        return None
    kind, _, rest = name.partition("/")
    try:
        number = {"seq": int, "time": parse_time}[kind](rest)
        if number < 0:
            raise ValueError(rest)
    except (KeyError, ValueError):
        raise OSError(errno.ENOENT, f"no export {name}") from None
    first, last, base_time, last_time = server.learn_span()
    if kind == "seq":
        if not first <= number <= last:
            raise OSError(errno.ENOENT, f"{number} is not within {first} and {last}")
        return Instant(b"A", number)
    if number < base_time:
        raise OSError(errno.ENOENT, f"{number} is before {base_time}")
    # Later writes may have the last one's time: so from there on the view is by number.
    return Instant(b"A", last) if number >= last_time else Instant(b"T", number)


def answered(call):
    """Runs a call and turns its end into an error of nbdkit where it didn't do what was asked."""
    try:
        return call()
    except Stopped:
        nbdkit.set_error(errno.EIO)
        raise
    except Refused:
        nbdkit.set_error(errno.EIO)
        raise
    except OSError as e:
        nbdkit.set_error(e.errno or errno.EIO)
        raise


# --- the calls of nbdkit


def thread_model():
    return nbdkit.THREAD_MODEL_PARALLEL


def config(key, value):
    if key not in OPTIONS:
        raise RuntimeError(f"unknown option {key}")
    OPTIONS[key] = value


def config_complete():
    if OPTIONS["folder"] is None:
        raise RuntimeError("folder=PATH is required")
    for key in ("roll", "warn"):
        if not OPTIONS[key].isdigit() or not 1 <= int(OPTIONS[key]) <= 100:
            raise RuntimeError(f"{key} is a percentage from 1 to 100")
        OPTIONS[key] = int(OPTIONS[key])
    if OPTIONS["full"] not in ("enospc", "roll"):
        raise RuntimeError("full is enospc or roll")
    if OPTIONS["same"] not in ("skip", "keep"):
        raise RuntimeError("same is skip or keep")
    OPTIONS["folder"] = os.path.realpath(OPTIONS["folder"])
    if "/" in OPTIONS["program"]:
        OPTIONS["program"] = os.path.realpath(OPTIONS["program"])
    if OPTIONS["log"] is not None:
        OPTIONS["log"] = os.path.realpath(OPTIONS["log"])


def get_ready():
    global server
    server = Server(OPTIONS)


def after_fork():
    try:
        server.start()
    except Stopped as e:
        raise RuntimeError(f"the array can't be served: {e}") from None


def cleanup():
    if server is not None and server.child is not None and server.failed is None:
        server.child.close()


def list_exports(readonly, is_tls):
    first, last, base_time, last_time = answered(server.learn_span)
    exports = [("", f"the present, after write {last} at {last_time}")]
    exports.append((f"seq/{first}", f"the oldest retained instant, at {base_time}"))
    exports.append((f"seq/{last}", f"the newest retained instant, at {last_time}"))
    return exports


def default_export(readonly, is_tls):
    return ""


def open(readonly):  # noqa: A001, nbdkit's name
    instant = answered(lambda: instant_of(nbdkit.export_name()))
    handle = Handle(instant)
    if instant is not None:
        first = instant.number if instant.word == b"A" else server.first
        with server.turn:
            server.open_past[id(handle)] = first
    return handle


def close(h):
    with server.turn:
        server.open_past.pop(id(h), None)


def export_description(h):
    return "the present" if h.instant is None else h.instant.line(0).decode("ascii").rsplit(" ", 1)[0]


def get_size(h):
    return server.size


def block_size(h):
    # nbdkit wants a preferred size of 512 bytes at least.
    return (1, max(512, server.block), 0xFFFFFFFF)


def can_write(h):
    return h.instant is None


def can_flush(h):
    return True


def can_fua(h):
    return nbdkit.FUA_NATIVE


def can_multi_conn(h):
    return True


def can_trim(h):
    return False


def can_zero(h):
    return h.instant is None


def is_rotational(h):
    return False


def pread(h, buf, offset, flags):
    answered(lambda: fill(h, buf, offset))


def fill(h, buf, offset):
    first = offset // server.block
    end = -(-(offset + len(buf)) // server.block)
    data = server.read_blocks(h.instant, first, end - first)
    skip = offset - first * server.block
    buf[:] = data[skip : skip + len(buf)]


def pwrite(h, buf, offset, flags):
    answered(lambda: change(bytes(buf), offset))


def zero(h, count, offset, flags):
    answered(lambda: change(bytes(count), offset))


def change(data, offset):
    """Writes the bytes. Blocks that are covered in part are read, changed and written with no other write between."""
    block = server.block
    first = offset // block
    end = -(-(offset + len(data)) // block)
    before = offset - first * block
    after = end * block - (offset + len(data))
    if before or after:
        with server.writing:
            old = server.read_blocks(None, first, end - first)
            new = old[:before] + data + old[len(old) - after :]
            write_changed(first, old, new)
    elif OPTIONS["same"] == "skip":
        write_changed(first, server.read_blocks(None, first, end - first), data)
    else:
        write_changed(first, None, data)


def write_changed(first, old, new):
    block = server.block
    changes = []
    for i in range(0, len(new), block):
        data = new[i : i + block]
        if old is None or OPTIONS["same"] == "keep" or old[i : i + block] != data:
            changes.append((first + i // block, data))
    server.write_blocks(changes)


def flush(h, flags):
    # Every write is durable when it is answered: only that the program lives is left to tell.
    if server.failed is not None or server.child.process.poll() is not None:
        if server.failed is None:
            server.fail(server.why_ended())
        nbdkit.set_error(errno.EIO)
        raise RuntimeError("the array isn't served any more")
