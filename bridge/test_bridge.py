"""Tries the plugin as a user would, through nbdkit and libnbd. test.sh beside it runs this."""

import errno
import os
import random
import signal
import subprocess
import sys
import tempfile
import threading
import time
import traceback

import nbd

HERE = os.path.dirname(os.path.realpath(__file__))
PLUGIN = os.path.join(HERE, "limuvosel_nbd.py")
MODEL = os.path.join(HERE, "model_program.py")
PROGRAM = os.environ["LIMUVOSEL_PROGRAM"]


class Served:
    """An array in a folder of its own, and an nbdkit that serves it."""

    def __init__(self, numbers, folder=None, **options):
        self.folder = folder or tempfile.mkdtemp(prefix="bridge.")
        self.socket = os.path.join(self.folder, "array.sock")
        self.log = os.path.join(self.folder, "bridge.log")
        if numbers is not None:
            words = [str(number) for number in numbers]
            subprocess.run([PROGRAM, "create", *words], cwd=self.folder, check=True, stdout=subprocess.DEVNULL)
        self.handles = []
        self.options = {"folder": self.folder, "program": PROGRAM, "log": self.log, **options}

    def __enter__(self):
        words = [f"{key}={value}" for key, value in self.options.items()]
        if os.path.exists(self.socket):
            os.unlink(self.socket)
        self.server = subprocess.Popen(
            ["nbdkit", "-f", "-U", self.socket, "python", PLUGIN, *words], stderr=subprocess.PIPE
        )
        end = time.monotonic() + 20
        while not os.path.exists(self.socket) and self.server.poll() is None and time.monotonic() < end:
            time.sleep(0.01)
        return self

    def __exit__(self, *_):
        # nbdkit ends when the last connection is gone.
        for handle in self.handles:
            try:
                handle.shutdown()
            except nbd.Error:
                pass
        if self.server.poll() is None:
            self.server.send_signal(signal.SIGTERM)
        self.words = self.server.communicate(timeout=30)[1].decode("utf-8", "replace")

    def child(self):
        """The process of the session."""
        found = subprocess.run(["pgrep", "-P", str(self.server.pid)], capture_output=True, text=True).stdout.split()
        return int(found[0])

    def connect(self, export=""):
        # The socket is there before anything listens on it.
        end = time.monotonic() + 20
        while True:
            handle = nbd.NBD()
            handle.set_export_name(export)
            try:
                handle.connect_unix(self.socket)
            except nbd.Error as failed:
                if failed.errnum == errno.ECONNREFUSED and self.server.poll() is None and time.monotonic() < end:
                    time.sleep(0.01)
                    continue
                raise
            self.handles.append(handle)
            return handle

    def logged(self):
        with open(self.log) as file:
            return file.read()


def small(block, entries=2000, chunk=4, rows=64):
    ring = entries * (26 + block + 7)
    return [7, 3, chunk, block, rows, 1, 2, entries, max(ring, 2 * (26 + 2 * (block + 7)))]


def refused(number, call):
    """That a call ends with this error."""
    try:
        call()
    except nbd.Error as e:
        assert e.errnum == number, f"errno {e.errnum} in place of {number}: {e}"
        return
    raise AssertionError(f"no error where {errno.errorcode[number]} was wanted")


def test_a_volume_of_64_mib_is_copied_in_and_out():
    folder = tempfile.mkdtemp(prefix="bridge.")
    rows = 8192
    with Served([1, 3, 16, 4096, rows, 1, 2, 40000, 40000 * 4129], folder) as served:
        image = os.path.join(folder, "image")
        with open(image, "wb") as file:
            state = random.Random(1)
            for _ in range(64):
                file.write(state.randbytes(1 << 18) + bytes((1 << 20) - (1 << 18)))
        uri = f"nbd+unix:///?socket={served.socket}"
        subprocess.run(["nbdcopy", image, uri], check=True)
        subprocess.run(["nbdcopy", uri, os.path.join(folder, "copy")], check=True)
        subprocess.run(["cmp", image, os.path.join(folder, "copy")], check=True)


def test_unaligned_writes_of_many_connections_are_all_there():
    for block in (16, 512, 4096):
        with Served(small(block)) as served:
            size = 64 * 2 * block
            model = bytearray(size)
            workers = 6
            lock = threading.Lock()
            faults = []

            # Each worker has every sixth stretch of bytes, so that blocks are shared and bytes aren't.
            stretch = max(5, block // 3)

            def work(worker):
                try:
                    handle = served.connect()
                    state = random.Random(100 * block + worker)
                    for _ in range(25):
                        place = state.randrange(size // (workers * stretch)) * workers + worker
                        data = state.randbytes(state.randrange(1, stretch + 1))
                        with lock:
                            model[place * stretch : place * stretch + len(data)] = data
                        handle.pwrite(data, place * stretch)
                    handle.shutdown()
                except Exception:  # noqa: BLE001, told below
                    faults.append(traceback.format_exc())

            threads = [threading.Thread(target=work, args=(worker,)) for worker in range(workers)]
            for thread in threads:
                thread.start()
            for thread in threads:
                thread.join()
            assert not faults, faults[0]
            handle = served.connect()
            assert handle.pread(size, 0) == model, f"blocks of {block}"
            assert handle.get_size() == size
            assert handle.can_multi_conn() and handle.can_fua() and not handle.can_trim()
            handle.shutdown()


def test_zeros_and_equal_blocks_are_not_written():
    with Served(small(512, entries=4)) as served:
        handle = served.connect()
        handle.pwrite(b"\x01" * 1024, 0)
        handle.pwrite(b"\x01" * 1024, 0)
        handle.zero(512 * 100, 2048)
        handle.pwrite(b"\x01" * 512 + b"\x02" * 512, 0, nbd.CMD_FLAG_FUA)
        handle.flush()
        assert handle.pread(1024, 0) == b"\x01" * 512 + b"\x02" * 512
        handle.zero(512, 0)
        assert handle.pread(1024, 0) == bytes(512) + b"\x02" * 512
        refused(errno.ENOSPC, lambda: handle.pwrite(b"\x03" * 512, 0))
        assert handle.pread(512, 0) == bytes(512)
        handle.shutdown()
    assert "percent of the entries" in served.logged()


def test_a_past_export_stays_while_the_present_is_written():
    with Served(small(512)) as served:
        live = served.connect()
        live.pwrite(b"\x01" * 512, 512)
        time.sleep(0.01)
        moment = time.time_ns() // 1_000_000
        time.sleep(0.01)
        by_number = served.connect("seq/1")
        by_time = served.connect(f"time/{moment}")
        live.pwrite(b"\x02" * 1024, 512)
        assert by_number.pread(1024, 512) == b"\x01" * 512 + bytes(512)
        assert by_time.pread(1024, 512) == b"\x01" * 512 + bytes(512)
        assert served.connect(f"time/{moment}").pread(512, 512) == b"\x01" * 512
        assert live.pread(1024, 512) == b"\x02" * 1024
        assert by_number.is_read_only()
        refused(errno.EPERM, lambda: by_number.pwrite(b"\x03" * 512, 0))
        text = time.strftime("%Y-%m-%dT%H:%M:%SZ", time.gmtime(moment // 1000 + 5))
        assert served.connect(f"time/{text}").pread(512, 512) == b"\x02" * 512
        for name in ("seq/99", "seq/-1", "seq/x", "time/soon", "other"):
            try:
                served.connect(name)
            except nbd.Error:
                continue
            raise AssertionError(f"export {name} was opened")
        listing = subprocess.run(
            ["nbdinfo", "--list", f"nbd+unix:///?socket={served.socket}"], capture_output=True, text=True
        ).stdout
        assert 'export="seq/0"' in listing and 'export="seq/3"' in listing, listing


def test_nothing_is_answered_after_the_program_died():
    with Served(small(512)) as served:
        handle = served.connect()
        handle.pwrite(b"\x01" * 512, 0)
        os.kill(served.child(), signal.SIGKILL)
        refused(errno.EIO, lambda: handle.pwrite(b"\x02" * 512, 0))
        refused(errno.EIO, lambda: handle.pread(512, 0))
        refused(errno.EIO, handle.flush)
    lines = [line for line in served.logged().split("\n") if "stopped serving" in line]
    assert len(lines) == 1 and len(lines[0]) <= 100, lines
    with Served(None, served.folder) as again:
        assert again.connect().pread(512, 0) == b"\x01" * 512


def test_a_member_that_is_cut_short_stops_serving_or_is_lost():
    with Served(small(4096)) as served:
        handle = served.connect()
        handle.pwrite(b"\x01" * 4096, 0)
        os.truncate(os.path.join(served.folder, "m00.trap"), 16)
        try:
            assert handle.pread(4096, 0) == b"\x01" * 4096
        except nbd.Error as e:
            assert e.errnum == errno.EIO, e
            assert "fault members 0 0" in served.logged()


def test_a_second_server_is_refused():
    with Served(small(512)) as served:
        served.connect().pwrite(b"\x01" * 512, 0)
        second = Served(None, served.folder)
        second.socket = os.path.join(served.folder, "second.sock")
        with second:
            second.server.wait(timeout=20)
        assert second.server.returncode != 0
        assert served.connect().pread(512, 0) == b"\x01" * 512


def test_history_rolls_where_the_program_can_give_it_up():
    with Served(small(16, entries=10), program=MODEL, full="roll", roll="30") as served:
        handle = served.connect()
        for i in range(1, 9):
            handle.pwrite(bytes([i]) * 16, 0)
        past = served.connect("seq/8")
        for i in range(9, 20):
            try:
                handle.pwrite(bytes([i]) * 16, 0)
            except nbd.Error as e:
                assert e.errnum == errno.ENOSPC and i == 19, (i, e)
                break
        assert past.pread(16, 0) == bytes([8]) * 16
        past.shutdown()
        # The connection's end reaches the plugin a little later.
        deadline = time.monotonic() + 5
        while time.monotonic() < deadline:
            try:
                handle.pwrite(b"\x63" * 16, 0)
                break
            except nbd.Error:
                time.sleep(0.05)
        assert handle.pread(16, 0) == b"\x63" * 16


def test_what_is_no_array_is_not_served():
    folder = tempfile.mkdtemp(prefix="bridge.")
    with open(os.path.join(folder, "log.trap"), "wb") as file:
        file.write(bytes(192))
    for options in ({}, {"same": "maybe"}, {"warn": "0"}, {"colour": "red"}):
        with Served(None, folder, **options) as served:
            served.server.wait(timeout=20)
        assert served.server.returncode != 0, options


def main():
    passed = failed = 0
    wanted = sys.argv[1:]
    for name, test in list(globals().items()):
        if name.startswith("test_") and (not wanted or name in wanted):
            begin = time.monotonic()
            try:
                test()
                passed += 1
                print(f"ok {name} ({time.monotonic() - begin:.1f} s)", flush=True)
            except Exception:  # noqa: BLE001, it is printed
                failed += 1
                print(f"FAILED {name}\n{traceback.format_exc()}", flush=True)
    print(f"{passed} passed, {failed} failed")
    return 1 if failed else 0


sys.exit(main())
