"""fixd-tools explain WORDS..: runs `fixd WORDS`, passes output and status on, and tells the line on the notes as a
compiler would."""
from __future__ import annotations

import json
import os
import re
import stat
import subprocess
import sys
import threading
from collections import deque

from . import explain_bundle, explain_rows, explain_search, explain_source, explain_words
from .bundles import is_bundle, parsed
from .explain_rows import Rows
from .fixd import Fixd, Trouble, find, readable
from .reader import Fault
from .sources import function_of
from .told import Told

HELP = "run 'fixd WORDS', and explain how it ends"
DESCRIPTION = """Runs 'fixd WORDS' with this input and output, and ends with its status. Its line on the error stream
is told with the place in the file, what was expected there and how it is mended. Of 'not found' it searches on:
without the demands, with the other rounding and in wider words."""
SHAPES = {
    1: r"rejected: (?P<kind>\w+) at (?P<part>\w+) (?P<index>\d+)", 3: r"source: (?P<kind>\w+) at byte (?P<at>\d+)",
    4: r"bundle: (?P<kind>\w+) at line (?P<line>\d+)",
    5: r"row: (?P<kind>\w+) at line (?P<line>\d+)(?: column (?P<name>\w+))?",
    9: r"not found: (?P<what>\w+) (?P<index>\d+)",
}
WINDOW = 1 << 22


def add_to(parser) -> None:
    """Adds this subcommand's words."""
    parser.add_argument("--json", action="store_true", help="tell the findings as JSON on the error stream")
    parser.add_argument("--no-search", action="store_true", help="of 'not found', don't search on")
    parser.add_argument("words", nargs="...", metavar="WORDS",
                        help="the words of a call of fixd, as: synth --width 16 f.fixd")


class Kept:
    """The first bytes of an input and the last ones, so that a bad line can be shown."""

    def __init__(self):
        self.head, self.last, self.size, self.cut = b"", deque(), 0, 0

    def add(self, data: bytes) -> None:
        """Adds what was read; of what is far back only the count of its lines is kept."""
        if len(self.head) < WINDOW:
            self.head += data[:WINDOW - len(self.head)]
        self.last.append(data)
        self.size += len(data)
        while self.size - len(self.last[0]) > WINDOW:
            self.cut += self.last[0].count(b"\n")
            self.size -= len(self.last.popleft())

    def line(self, number: int):
        """Returns a line, counted from 1, or None where it isn't kept or isn't there."""
        for text, cut in ((self.head, 0), (b"".join(self.last), self.cut)):
            lines = text.split(b"\n")
            if 0 < number - cut <= len(lines) and (number - cut < len(lines) or lines[-1]):
                return lines[number - cut - 1]
        return None

    def first(self):
        """Returns the first line that isn't empty with its number, or None."""
        for k, line in enumerate(self.head.split(b"\n"), 1):
            if line.strip(b"\r"):
                return k, line
        return None


def run_with_rows(fixd: Fixd, words: list, kept: Kept):
    """Runs a call that reads rows: what is read is kept on its way, and handed on at once."""
    child = subprocess.Popen([fixd.path, *words], stdin=subprocess.PIPE, stderr=subprocess.PIPE)

    def hand_on():
        try:
            while True:
                data = os.read(0, 65536)
                if not data:
                    break
                kept.add(data)
                child.stdin.write(data)
                child.stdin.flush()
        except (BrokenPipeError, OSError):
            pass
        finally:
            try:
                child.stdin.close()
            except OSError:
                pass

    thread = threading.Thread(target=hand_on, daemon=True)
    thread.start()
    notes = child.stderr.read().decode("utf-8", "replace")
    status = child.wait()
    if status in (0, 5):
        thread.join(2)
    return status, notes


def run_on_file(fixd: Fixd, words: list, kept: Kept):
    """Runs a call whose rows are a plain file: it reads the file itself, and the file is looked at behind it, up to the
    bad line."""
    begin = os.lseek(0, 0, os.SEEK_CUR)
    ran = subprocess.run([fixd.path, *words], stdin=0, stderr=subprocess.PIPE, check=False)
    notes, offset, lines = ran.stderr.decode("utf-8", "replace"), begin, 0
    bad = re.search(r" at line (\d+)", notes)
    wanted = int(bad[1]) if bad and ran.returncode == 5 else 0
    while offset - begin < WINDOW or lines < wanted:
        data = os.pread(0, 1 << 18, offset)
        if not data:
            break
        kept.add(data)
        offset += len(data)
        lines += data.count(b"\n")
    return ran.returncode, notes


def run(words) -> int:
    """Runs the subcommand."""
    fixd, call = find(words.fixd), explain_words.taken_apart(words.words)
    kept = Kept()
    sys.stdout.flush()
    if call.command in explain_words.OF_ROWS and not call.wrong:
        plain = stat.S_ISREG(os.fstat(0).st_mode)
        status, notes = (run_on_file if plain else run_with_rows)(fixd, words.words, kept)
    else:
        try:
            ran = subprocess.run([fixd.path, *words.words], stderr=subprocess.PIPE, check=False)
        except OSError as fault:
            raise Trouble(f"{fixd.path} can't be run: {fault.strerror}") from None
        status, notes = ran.returncode, ran.stderr.decode("utf-8", "replace")
    sys.stderr.write(notes)
    sys.stderr.flush()
    found = findings(fixd, call, words, status, notes, kept)
    if words.json:
        print(json.dumps({"status": status, "line": notes.strip(), "findings": [it.as_value() for it in found]},
                         ensure_ascii=False), file=sys.stderr)
    else:
        for it in found:
            it.print_to(sys.stderr)
    # a program that a signal ended has the status that a shell gives it
    return status if status >= 0 else 128 - status


def findings(fixd, call, words, status: int, notes: str, kept: Kept) -> list:
    """Returns what there is to say of how a call ended."""
    line = notes.strip().splitlines()[-1] if notes.strip() else ""
    shape = re.match(r"fixd: " + SHAPES[status], line) if status in SHAPES else None
    said = shape.groupdict() if shape else {}
    try:
        if status == 0:
            return surplus(call, kept) if kept.head else []
        if status == 2:
            return explain_words.of_words(words.words)
        if status in SHAPES and not shape:
            return [Told(f"'{line}' isn't a line that this companion knows: is {fixd.path} another version of fixd?")]
        before = surplus(call, kept, int(said["line"])) if status == 5 and kept.head else []
        return [*before, explained(fixd, call, words, status, said, kept)]
    except (Trouble, Fault) as trouble:
        return [Told(f"no more can be told: {trouble}")]


def explained(fixd, call, words, status: int, said: dict, kept: Kept) -> Told:
    if status == 1:
        return explain_bundle.of_rejected(call.file, readable(call.file), said["kind"], said["part"],
                                          int(said["index"]))
    if status == 3:
        return source_told(call, said["kind"], int(said["at"]))
    if status == 4:
        return explain_bundle.of_text(call.file, readable(call.file), said["kind"], int(said["line"]))
    if status == 5:
        return row_told(call, said, kept)
    if status == 6:
        return explain_words.of_file(call.file)
    if status == 9 and not words.no_search:
        return explain_search.told(fixd, call.file, call, said["what"], int(said["index"]))
    return Told(*OTHERS.get(status, (f"status {status}: no line is known for it",))[:1],
                hints=list(OTHERS.get(status, ("",))[1:]))


OTHERS = {7: ("the output is full or closed",
              "make room, or read the output to its end, and run again: what was printed is right"),
          8: ("there wasn't enough memory",
              "raise the limit (ulimit -v), or end other programs; a great bundle takes some times its size"),
          9: ("nothing was found", "run it without --no-search to see what is"),
          10: ("FILE or the input is too long: a source has at most 1,048,576 bytes, a bundle 67,108,864, an input "
               "1,099,511,627,776",
               "cut the input into parts, each with its header; of a program with state only where a run starts")}


def source_told(call, kind: str, at: int) -> Told:
    """Returns what there is to say of a fault in a source, or in the source of a bundle."""
    data = readable(call.file)
    if call.command == "synth" and is_bundle(data):
        try:
            name = parsed(data).name + ".fixd"
        except (ValueError, IndexError):
            name = "f.fixd"
        return Told(f"'{call.file}' is a bundle, not a source",
                    hints=[f"its source is the lines behind the second: tail -n +3 {call.file} begins with it; "
                    f"count=$(sed -n '2s/source //p' {call.file}); tail -n +3 {call.file} | head -c $count > {name}"])
    if call.command == "synth":
        found = explain_source.told(data, kind, at, call.file, call.options.get("--function"))
        if call.file.endswith(".csv"):
            found.hints.insert(0, "these look like rows: synth takes a source, as FILE.fixd, and 'fixd run' takes rows, "
                                  "by the standard input")
        return found
    count = int(data.split(b"\n", 2)[1].split()[1])
    return explain_source.told(data.split(b"\n", 2)[2][:count], kind, at, call.file, parsed(data).name, first_line=3)


def inputs_of(call) -> list:
    bundle = parsed(readable(call.file))
    return function_of(bundle.source, bundle.name).inputs


def text_of(line) -> str:
    return (line or b"").rstrip(b"\r").removeprefix(b"\xef\xbb\xbf").decode("utf-8", "replace")


def rows_name() -> str:
    """Returns the name of the file that is the input, where it is one."""
    try:
        path = os.readlink("/proc/self/fd/0")
    except OSError:
        return "rows"
    return (os.path.relpath(path) if len(os.path.relpath(path)) < len(path)
            else path) if os.path.isfile(path) else "rows"


def row_told(call, said: dict, kept: Kept) -> Told:
    """Returns what there is to say of a bad row."""
    number, first = int(said["line"]), kept.first()
    rows = Rows(inputs_of(call), rows_name(), call.command, int(call.options.get("--units", 0)))
    if first:
        rows.header_line, rows.header = first[0], text_of(first[1])
    line = kept.line(number)
    if line is not None and line.startswith((b"\xff\xfe", b"\xfe\xff")):
        return Told("the rows are UTF-16, and have to be UTF-8", rows_name(), 1,
                    hints=["iconv -f UTF-16 -t UTF-8 ROWS > NEW"])
    rows.number, rows.line = number, None if line is None else text_of(line)
    if first is None:
        rows.header = None
    return explain_rows.told(said["kind"], rows, said["name"] or "")


def surplus(call, kept: Kept, before: int = 1 << 62) -> list:
    """Returns a warning where rows before a line have more fields than the header, by the lines that are kept: `fixd`
    takes such rows."""
    first = kept.first()
    if not first:
        return []
    header, found, more = text_of(first[1]), None, 0
    names = len(explain_rows.fields_of(header))
    for k, line in enumerate(kept.head.split(b"\n"), 1):
        if first[0] < k < before and line.count(b",") >= names and len(explain_rows.fields_of(text_of(line))) > names:
            more += 1
            found = found or (k, text_of(line))
    return [explain_rows.of_surplus(rows_name(), *found, header, more - 1)] if found else []
