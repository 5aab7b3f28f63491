#!/usr/bin/env python3
"""Runs `fixd` against real devices that stall, fail, fill up, go away or change: devices.py [--long] [PROGRAM]

Tested is what docs/messages.md and docs/formats.md say of a failed read or write, on pipes, files and devices of the
system: which status and line come, and what stands on the output. A line of the table says what was done, what has to
come, and what came. A fault is any other status, a line that isn't that status's, output that isn't what is due (or,
where a front of it is due, no front), an answer that comes later than the row before it was whole, or a run that hangs.
Where the page leaves several ends open, all are named. The script ends with 1 where there is a fault. With `--long` an
input of 5 GiB comes too, some minutes. Outside the gate: it needs a built program and Linux; as root, it also reads a
file as another user and fills a file system of 4 KiB.
"""
import contextlib
import fcntl
import itertools
import os
import pty
import random
import re
import resource
import select
import shutil
import signal
import socket
import struct
import subprocess
import sys
import tempfile
import threading
import time
import tty

HERE = os.path.dirname(os.path.abspath(__file__))
EXAMPLES = os.path.normpath(os.path.join(HERE, "..", "examples"))
AVERAGE = os.path.join(EXAMPLES, "average", "average.bundle")
HALF = os.path.join(EXAMPLES, "half", "half.bundle")
SOURCE = os.path.join(EXAMPLES, "half", "half.fixd")
ROWS = b"u\n1\n1\n-.5\n0.25\n"
PAGE = b"out1\n0.5\n0.75\n0.125\n0.1875\n"
BOUND = b"accepted\nout1 5/2^12\n"
LINES = {
    0: b"", 1: rb"fixd: rejected: [A-Za-z]+ at [a-z]+ \d+\n", 2: rb"fixd: usage: synth, check, run, show or demo\n",
    3: rb"fixd: source: [A-Za-z0-9]+ at byte \d+\n", 4: rb"fixd: bundle: [A-Za-z]+ at line \d+\n",
    5: rb"fixd: row: [A-Za-z]+ at line \d+( column \w+)?\n", 6: rb"fixd: read fault\n", 7: rb"fixd: write fault\n",
    8: rb"fixd: out of memory\n", 9: rb"fixd: not found: (node|output) \d+\n", 10: rb"fixd: over the limit\n",
}
LONG = 120  # seconds after which a run hangs


def told(status):
    """A status, or the signal that ended the program."""
    return "hangs" if status is None else str(status) if status >= 0 else signal.Signals(-status).name


class Table:
    """A program, the table of what it did, and the count of faults."""

    def __init__(self, program):
        self.program, self.faults = program, 0
        print("| what | has to come | came | |\n|---|---|---|---|")

    def start(self, words, **options):
        given = {"stdin": subprocess.DEVNULL, "stdout": subprocess.PIPE, "stderr": subprocess.PIPE, **options}
        return subprocess.Popen([self.program, *words], **given)

    def end(self, child, data=None):
        """Status, output and line of a run that gets this input."""
        try:
            output, line = child.communicate(data, timeout=LONG)
            return child.returncode, output or b"", line or b""
        except subprocess.TimeoutExpired:
            child.kill()
            child.communicate()
            return None, b"", b""

    def call(self, words, data=None, **options):
        given = {"stdin": subprocess.PIPE, **options} if data is not None else options
        return self.end(self.start(words, **given), data)

    def row(self, what, seen, ends, front=False, line=True):
        """One line of the table. `ends` has the output that is due at each status; with `front`, any front of it will
        do."""
        status, output, note = seen
        due = ends.get(status)
        right = (due is not None
                 and (output in due if isinstance(due, tuple) else due.startswith(output) if front else output == due))
        if line and right and status in LINES:
            right = re.fullmatch(LINES[status], note) is not None
        self.faults += not right
        has = " or ".join(told(end) for end in ends)
        shown = "" if right else f"FAULT: {output[:120]!r} {note[:120]!r}"
        print(f"| {what} | {has} | {told(status)}, {len(output)} bytes | {shown} |", flush=True)

    def skip(self, what, why):
        print(f"| {what} | | left out: {why} | |")


def line_within(stream, seconds):
    """The next line of a pipe, or what stood there in so many seconds."""
    got, until = b"", time.monotonic() + seconds
    while not got.endswith(b"\n") and select.select([stream], [], [], max(0, until - time.monotonic()))[0]:
        byte = os.read(stream.fileno(), 1)
        if not byte:
            break
        got += byte
    return got


def try_pieces(table, _):
    """Rows come in pieces of one and two bytes, with pauses; each answer has to be there before the next piece is."""
    for size in (1, 2):
        child = table.start(["run", AVERAGE], stdin=subprocess.PIPE)
        page = b""
        for at in range(0, len(ROWS), size):
            piece = ROWS[at : at + size]
            os.write(child.stdin.fileno(), piece)
            time.sleep(0.01)
            if b"\n" in piece:
                page += line_within(child.stdout, 20)
        early = page
        status, output, note = table.end(child)
        table.row(f"rows in pieces of {size}, each answer before the next piece",
                  (status, early if not output else output, note), {0: PAGE})


def try_stalled_input(table, _):
    """A pipe set non-blocking: a read that would wait is one that fails. What the whole lines before it give is
    printed."""
    for given, page in ((b"", b""), (b"u\n1", b"out1\n"), (b"u\n1\n1\n-.", b"out1\n0.5\n0.75\n")):
        source, sink = os.pipe()
        os.set_blocking(source, False)
        os.write(sink, given)
        table.row(f"a non-blocking pipe with {len(given)} bytes", table.call(["run", AVERAGE], stdin=source), {6: page})
        os.close(source), os.close(sink)


def try_signals(table, _):
    """Signals while a read waits. A stop that is continued and an ignored signal change nothing; what ends a program
    ends it."""
    pairs = [("stopped and continued", [signal.SIGSTOP, signal.SIGCONT], [], {0: PAGE}),
             ("window, child and urgent signals", [signal.SIGWINCH, signal.SIGCHLD, signal.SIGURG], [], {0: PAGE}),
             ("ignored signals", [signal.SIGHUP, signal.SIGINT, signal.SIGTERM, signal.SIGUSR1, signal.SIGALRM],
              [signal.SIGHUP, signal.SIGINT, signal.SIGTERM, signal.SIGUSR1, signal.SIGALRM], {0: PAGE}),
             ("SIGTERM", [signal.SIGTERM], [], {-signal.SIGTERM: PAGE[:9]}),
             ("SIGINT", [signal.SIGINT], [], {-signal.SIGINT: PAGE[:9]})]
    for name, sent, ignored, ends in pairs:
        def begin():
            # a shell in the background leaves SIGINT ignored
            for number in (signal.SIGINT, signal.SIGTERM):
                signal.signal(number, signal.SIG_DFL)
            for number in ignored:
                signal.signal(number, signal.SIG_IGN)
        child = table.start(["run", AVERAGE], stdin=subprocess.PIPE, preexec_fn=begin)
        os.write(child.stdin.fileno(), ROWS[:4])
        page = line_within(child.stdout, 20) + line_within(child.stdout, 20)
        for _ in range(20 if 0 in ends else 1):
            for number in sent:
                time.sleep(0.005)
                child.send_signal(number)
        with contextlib.suppress(BrokenPipeError):
            if 0 not in ends:
                child.wait(LONG)
            os.write(child.stdin.fileno(), ROWS[4:])
        status, output, note = table.end(child)
        table.row(f"{name} while a read waits", (status, page + output, note), ends)


def reset_socket():
    """A socket with two lines in it, whose other end is cut off."""
    with socket.socket() as door:
        door.bind(("127.0.0.1", 0))
        door.listen(1)
        here = socket.create_connection(door.getsockname())
        there, _ = door.accept()
    return here, there


def try_other_inputs(table, folder):
    """Inputs that can't be read, end at once, never end, or are cut off."""
    with open(os.path.join(folder, "nothing"), "wb") as file:
        table.row("an input that is only written", table.call(["run", AVERAGE], stdin=file), {6: b""})
    inside = os.open(folder, os.O_RDONLY)
    table.row("a directory as input", table.call(["run", AVERAGE], stdin=inside), {6: b""})
    os.close(inside)
    for device in ("/dev/null", "/dev/zero", "/dev/full"):
        with open(device, "rb") as file:
            table.row(f"{device} as input", table.call(["run", AVERAGE], stdin=file), {5: b""})
    here, there = reset_socket()
    child = table.start(["run", AVERAGE], stdin=here)
    there.sendall(ROWS[:4])
    page = line_within(child.stdout, 20) + line_within(child.stdout, 20)
    there.setsockopt(socket.SOL_SOCKET, socket.SO_LINGER, struct.pack("ii", 1, 0))
    there.close()
    status, output, note = table.end(child)
    table.row("a connection that is reset", (status, page + output, note), {6: PAGE[:9]})
    here.close()
    leader, follower = pty.openpty()
    tty.setraw(follower)
    child = table.start(["run", AVERAGE], stdin=follower)
    os.write(leader, ROWS[:4])
    page = line_within(child.stdout, 20) + line_within(child.stdout, 20)
    os.close(follower), os.close(leader)
    status, output, note = table.end(child)
    table.row("a terminal that hangs up", (status, page + output, note), {6: PAGE[:9], 0: PAGE[:9]})


def many(folder):
    """A file of 40,000 rows, and the page that they give."""
    path = os.path.join(folder, "many.csv")
    word, page = 0, [b"out1"]
    with open(path, "wb") as file:
        file.write(b"u\n")
        for k in range(40000):
            up = k % 3 != 0
            file.write(b"1\n" if up else b"0\n")
            word = ((2048 * word) >> 12) + (2048 if up else 0)
            value = f"{word / 4096:.12f}".rstrip("0").rstrip(".")
            page.append(value.encode())
    return path, b"\n".join(page) + b"\n"


def commands():
    """A call of each command that prints."""
    return [["check", AVERAGE], ["show", AVERAGE], ["run", AVERAGE], ["synth", "--width", "16", "--tries", "0", SOURCE],
            ["demo", "1"]]


def full_system(table, rows, page):
    """A file system of one page of 4,096 bytes, which lives as long as the shell that mounts it."""
    if os.geteuid() != 0 or not shutil.which("unshare"):
        return table.skip("a file system of 4 KiB that fills up", "it takes root and unshare")
    script = ('d=$(mktemp -d) && mount -t tmpfs -o size=4k none "$d" || exit 99; "$1" run "$2" < "$3" > "$d/page"; '
              's=$?; cat "$d/page"; exit $s')
    ran = subprocess.run(["unshare", "-m", "sh", "-c", script, "sh", table.program, AVERAGE, rows], capture_output=True,
                         timeout=LONG)
    if ran.returncode == 99:
        return table.skip("a file system of 4 KiB that fills up", "mount isn't allowed")
    return table.row("a file system of 4 KiB that fills up", (ran.returncode, ran.stdout, ran.stderr), {7: page[:4096]})


def try_full(table, folder):
    """A full device: at once, and in the middle of a block. What stands is a front of what is due, to the last byte
    that had room."""
    for words in commands():
        with open("/dev/full", "wb") as full:
            given = {"data": ROWS} if words[0] == "run" else {}
            table.row(f"{words[0]} into /dev/full", table.call(words, stdout=full, **given), {7: b""})
    rows, page = many(folder)
    for limit, ignored in itertools.product((0, 7, 8191, 100000), (True, False)):
        def narrow():
            signal.signal(signal.SIGXFSZ, signal.SIG_IGN if ignored else signal.SIG_DFL)
            resource.setrlimit(resource.RLIMIT_FSIZE, (limit, limit))
        path = os.path.join(folder, "page")
        with open(rows, "rb") as source, open(path, "wb") as sink:
            status, _, note = table.call(["run", AVERAGE], stdin=source, stdout=sink, preexec_fn=narrow)
        with open(path, "rb") as sink:
            seen = status, sink.read(), note
        ends = {7: page[:limit]} if ignored else {7: page[:limit], -signal.SIGXFSZ: page[:limit]}
        table.row(f"a limit of {limit:,} bytes, SIGXFSZ {'ignored' if ignored else 'as it comes'}", seen, ends)
    full_system(table, rows, page)


def try_readers(table, folder):
    """A reader that goes away, one that reads slowly, and one that never reads while the pipe can't wait."""
    rows, page = many(folder)
    for handler in (signal.SIG_DFL, signal.SIG_IGN):
        with open(rows, "rb") as source:
            child = table.start(["run", AVERAGE], stdin=source,
                                preexec_fn=lambda: signal.signal(signal.SIGPIPE, handler))
            got = line_within(child.stdout, 20)
            child.stdout.close()
            child.stdout = None
            status, _, note = table.end(child)
        name = "as it comes" if handler == signal.SIG_DFL else "ignored"
        table.row(f"a reader that goes away behind a line, SIGPIPE {name}", (status, got, note), {7: page}, front=True)
    with open(rows, "rb") as source:
        child = table.start(["run", AVERAGE], stdin=source)
        fcntl.fcntl(child.stdout.fileno(), fcntl.F_SETPIPE_SZ, 4096)
        got = b"".join(iter(lambda: os.read(child.stdout.fileno(), 701), b""))
        status, _, note = table.end(child)
    table.row("a reader that takes 701 bytes at a time from a pipe of 4 KiB", (status, got, note), {0: page})
    source, sink = os.pipe()
    os.set_blocking(sink, False)
    with open(rows, "rb") as file:
        status, _, note = table.call(["run", AVERAGE], stdin=file, stdout=sink)
    os.close(sink)
    with os.fdopen(source, "rb") as file:
        table.row("a non-blocking pipe that nobody reads", (status, file.read(), note), {7: page}, front=True)


def try_closed(table, _):
    """Standard streams that are closed: the input matters to `run` alone, the output to whoever prints, the notes to no
    status."""
    for count in (1, 2, 3):
        for closed in itertools.combinations(range(3), count):
            names = ", ".join(str(stream) for stream in closed)
            for words in (["check", AVERAGE], ["run", AVERAGE]):
                due = BOUND if words[0] == "check" else PAGE
                status = 6 if words[0] == "run" and 0 in closed else 7 if 1 in closed else 0
                seen = table.call(words, data=ROWS, preexec_fn=lambda: [os.close(stream) for stream in closed])
                table.row(f"{words[0]}, closed: {names}", seen, {status: due if status == 0 else b""},
                          line=2 not in closed)
    with open("/dev/null", "rb") as file:
        table.row("an output that is only read", table.call(["check", AVERAGE], stdout=file), {7: b""})


def refused(folder):
    """Words and input that end with each status that has a line, but 8."""
    def put(name, text):
        path = os.path.join(folder, name)
        with open(path, "wb") as file:
            file.write(text)
        return path
    with open(HALF, "rb") as file:
        text = file.read()
    narrow = put("narrow", text.replace(b"plain 1:1 3:1", b"plain 1:1 1:0"))
    great = put("great", b"")
    os.truncate(great, 1048577)
    quotient = put("quotient.fixd", b"def q(x: Real): Real = { require(-1 <= x && x <= 1) 1 / x }")
    return [(1, ["check", narrow], b""), (2, ["check"], b""), (3, ["synth", "--width", "8", put("empty", b"")], b""),
            (4, ["run", SOURCE], b""), (5, ["run", AVERAGE], b"v\n"), (6, ["run", os.path.join(folder, "gone")], b""),
            (9, ["synth", "--width", "8", "--tries", "0", quotient], b""), (10, ["synth", "--width", "8", great], b"")]


def try_notes(table, folder):
    """The error stream fails: no status changes, and nothing is printed that wasn't."""
    for status, words, data in refused(folder):
        table.row(f"status {status}, the line can be written", table.call(words, data=data), {status: b""})
        with open("/dev/full", "wb") as full:
            table.row(f"status {status}, the line into /dev/full", table.call(words, data=data, stderr=full),
                      {status: b""}, line=False)
        source, sink = os.pipe()
        os.close(source)
        table.row(f"status {status}, nobody reads the line", table.call(words, data=data, stderr=sink), {status: b""},
                  line=False)
        os.close(sink)
    with open("/dev/full", "wb") as full:
        table.row("status 7, output and line into /dev/full", table.call(["check", AVERAGE], stdout=full, stderr=full),
                  {7: b""}, line=False)


def padded(folder, path, size, byte):
    """The text of a file, made as long as that by a byte at its end."""
    made = os.path.join(folder, "padded")
    with open(path, "rb") as file:
        text = file.read()
    with open(made, "wb") as file:
        file.write(text + byte * (size - len(text)))
    return made


def try_names(table, folder):
    """Names that no file has, that can't be spelled or followed; and files just within the limit, and a byte above
    it."""
    loop, shelf = os.path.join(folder, "loop"), socket.socket(socket.AF_UNIX)
    os.symlink(loop, loop)
    shelf.bind(os.path.join(folder, "socket"))
    for what, name, ends in [
        ("no FILE of this name", os.path.join(folder, "gone"), {6: b""}), ("an empty name", "", {6: b""}),
        ("a name that isn't UTF-8", b"\xff.bundle", {2: b""}), ("a name of 256 bytes", "n" * 256, {6: b""}),
        ("a name of 5,000 bytes", "n/" * 2500, {6: b""}), ("a file as a folder", AVERAGE + "/x", {6: b""}),
        ("links in a ring", loop, {6: b""}),
        ("a socket", shelf.getsockname(), {6: b""}), ("a directory", folder, {6: b""}),
        ("/dev/null", "/dev/null", {4: b""}),
        ("/dev/zero", "/dev/zero", {10: b""})]:
        table.row(f"FILE is {what}", table.call(["check", name]), ends)
    shelf.close()
    for size, ends in ((67108864, {4: b""}), (67108865, {10: b""})):
        table.row(f"a FILE of {size:,} bytes", table.call(["check", padded(folder, AVERAGE, size, b"\n")]), ends)
    with open(SOURCE, "rb") as file:
        start = b"fixd bundle 1\nsource 1048576\n" + file.read()
    for size, ends in ((1048576, {0: start}), (1048577, {10: b""})):
        status, output, note = table.call(["synth", "--width", "16", "--tries", "0",
                                           padded(folder, SOURCE, size, b" ")])
        table.row(f"a source of {size:,} bytes", (status, output[: len(start)], note), ends)


def try_rights(table, folder):
    """A FILE that may not be read; as root, by another user."""
    path = shutil.copy(AVERAGE, os.path.join(folder, "locked"))
    os.chmod(path, 0)
    other = {"user": 65534, "group": 65534} if os.geteuid() == 0 else {}
    try:
        table.row("a FILE that may not be read", table.call(["check", path], cwd="/", **other), {6: b""})
    except PermissionError:
        table.skip("a FILE that may not be read", "another user can't run the program")


def try_pipes(table, folder):
    """A FIFO can't be read at a place: 6. Without a writer the system makes whoever opens it wait, and so `fixd`
    waits."""
    path = os.path.join(folder, "fifo")
    os.mkfifo(path)
    child = table.start(["check", path])
    time.sleep(0.5)
    waits = child.poll() is None
    with open(path, "wb"):
        seen = table.end(child)
    table.row(f"a FIFO, which is waited for ({waits}) until somebody writes", seen, {6: b""})
    with open(AVERAGE, "rb") as file:
        table.row("/dev/stdin, a file", table.call(["check", "/dev/stdin"], stdin=file), {0: BOUND})
    table.row("/dev/stdin, a pipe", table.call(["check", "/dev/stdin"], data=b""), {6: b""})


def lengthened(path):
    """The bundle of a file, with a comment in its source that makes that a megabyte."""
    with open(path, "rb") as file:
        first, count, rest = file.read().split(b"\n", 2)
    source, rest = rest[: int(count.split()[1])], rest[int(count.split()[1]) :]
    comment = b"\n//" + b"x" * (1000000 - len(source) - 3)
    return b"\n".join([first, b"source 1000000", source + comment + rest])


class Change:
    """A FILE that another thread changes over and over while `check` reads it."""

    def __init__(self, folder):
        self.path, self.other = os.path.join(folder, "changed"), os.path.join(folder, "other")
        self.texts = [lengthened(AVERAGE), lengthened(HALF)]
        self.draw, self.ended = random.Random(11), threading.Event()

    def put(self, path, text, front=0):
        """Writes a text over what stands there, from this place on."""
        with open(os.open(path, os.O_WRONLY | os.O_CREAT, 0o600), "wb") as file:
            file.seek(front)
            for at in range(front, len(text), 65536):
                file.write(text[at : at + 65536])
                file.flush()

    def shrink(self):
        os.truncate(self.path, self.draw.randrange(len(self.texts[0])))
        self.put(self.path, self.texts[0])

    def grow(self):
        front = self.draw.randrange(len(self.texts[0]))
        os.truncate(self.path, front)
        self.put(self.path, self.texts[0], front)

    def replace(self):
        for text in self.texts[::-1]:
            self.put(self.other, text)
            os.rename(self.other, self.path)

    def rewrite(self):
        for text in self.texts[::-1]:
            self.put(self.path, text)

    def remove(self):
        os.remove(self.path)
        self.put(self.path, self.texts[0])

    def check(self, table, change):
        """What `check` answers while the file is changed."""
        self.ended.clear()
        self.put(self.path, self.texts[0])
        def go_on():
            while not self.ended.is_set():
                change()
        child = table.start(["check", self.path])
        changer = threading.Thread(target=go_on)
        changer.start()
        seen = table.end(child)
        self.ended.set()
        changer.join()
        return seen


def try_changes(table, folder):
    """A FILE of a megabyte that shrinks, grows, is replaced, rewritten or removed over and over while it is read. What
    was read is judged, whatever it is: accepted or not, nothing is printed but at status 0, and a file that is gone is
    6."""
    change = Change(folder)
    whole = []
    for text in change.texts[::-1]:
        change.put(change.path, text)
        start = time.monotonic()
        whole.append(table.call(["check", change.path])[1])
    times = max(10, min(200, int(10 / (time.monotonic() - start))))
    mixed = {0: tuple(whole), 1: b"", 3: b"", 4: b""}
    for name, act, ends in [("shrinks and is made whole", change.shrink, {0: (BOUND,), 4: b""}),
                            ("is cut and grows", change.grow, {0: (BOUND,), 4: b""}),
                            ("is replaced by rename", change.replace, mixed), ("is rewritten", change.rewrite, mixed),
                            ("is removed and made again", change.remove, {0: (BOUND,), 4: b"", 6: b""})]:
        seen = [change.check(table, act) for _ in range(times)]
        for once in sorted(set(seen), key=str):
            table.row(f"a FILE that {name} while it is read, {seen.count(once)} of {times}", once, ends)


def try_long(table, _):
    """An input of more bytes than 32 bits count, blank behind two lines."""
    size = 5 << 30
    child = table.start(["run", AVERAGE], stdin=subprocess.PIPE)
    block, left = b"\n" * 65536, size - len(ROWS)
    with contextlib.suppress(BrokenPipeError), child.stdin:
        child.stdin.write(ROWS)
        while left:
            left -= child.stdin.write(block[:left])
    child.stdin = None
    table.row(f"an input of {size:,} bytes", table.end(child), {0: PAGE})


def main():
    words = sys.argv[1:]
    parts = [try_pieces, try_stalled_input, try_signals, try_other_inputs, try_full, try_readers, try_closed, try_notes,
             try_names, try_rights,
             try_pipes, try_changes]
    if words[:1] == ["--long"]:
        words, parts = words[1:], [*parts, try_long]
    program = words[0] if words else os.path.join(HERE, "..", "build", "fixd")
    if not os.access(program, os.X_OK):
        sys.exit("devices: build it first: make run")
    table = Table(os.path.realpath(program))
    for part in parts:
        with tempfile.TemporaryDirectory() as folder:
            os.chmod(folder, 0o755)
            part(table, folder)
    print(f"\n{table.faults} faults")
    sys.exit(1 if table.faults else 0)


if __name__ == "__main__":
    main()
