"""Tells what is wrong with the words of a call of `fixd`, and with the file that they name."""
from __future__ import annotations

import difflib
import os
import re
from dataclasses import dataclass, field

from .fixd import WIDTHS
from .told import Told, listed

COMMANDS = ["synth", "check", "show", "widths", "rust", "run", "mixed", "node", "migrate", "demo"]
OF_ROWS = ("run", "mixed", "node")
OPTIONS = {"synth": ["--width", "--function", "--seed", "--tries", "--round"], "node": ["--units"]}
GREATEST = {"--seed": 2 ** 64 - 1, "--tries": 100_000, "--units": 1024}
LETTERS = {"-w": "--width", "-f": "--function", "-s": "--seed", "-t": "--tries", "-r": "--round", "-u": "--units",
           "-n": "--units"}
OTHER_NAMES = {"synthesise": "synth", "synthesize": "synth", "compile": "synth", "build": "synth", "verify": "check",
               "validate": "check", "print": "show", "dump": "show"}
USES = {"synth": "fixd synth --width 16 FILE > f.bundle", "run": "fixd run FILE < rows.csv",
        "mixed": "fixd mixed FILE < rows.csv", "node": "fixd node --units 2 FILE < rows.csv",
        "demo": "fixd demo 100"}


@dataclass
class Call:
    """The words of a call, taken apart: the command, its files, its options, and what is wrong."""
    command: str = ""
    files: list = field(default_factory=list)
    options: dict = field(default_factory=dict)
    wrong: list = field(default_factory=list)
    meant: list = field(default_factory=list)

    @property
    def file(self) -> str:
        return self.files[0] if self.files else ""

    def add(self, head, *hints):
        """Adds a finding; what begins with a list's name is a note, all else a hint."""
        notes = [it for it in hints if it.startswith(("commands: ", "options of "))]
        self.wrong.append((head, [it for it in hints if it not in notes], notes))


def use_of(command: str) -> str:
    """Returns how a command is called."""
    return USES.get(command, f"fixd {command} FILE")


def taken_apart(words: list) -> Call:
    """Returns a call's parts, and all that is wrong with its words."""
    call = Call(words[0] if words else "")
    if call.command not in COMMANDS:
        say_commands(call, words)
        return call
    read_options(call, words[1:])
    look_at_options(call)
    look_at_files(call)
    return call


def say_commands(call: Call, words: list) -> None:
    shown = f"commands: {', '.join(COMMANDS)}"
    if not words:
        call.add("no command is named",
                 "begin with: fixd synth --width 16 FILE > f.bundle, then fixd check f.bundle, then fixd run f.bundle "
                 "< rows.csv", shown)
        return
    if words[0] in ("--help", "-h", "help", "--version", "-V", "-?"):
        call.add(f"there is no '{words[0]}'",
                 "the help is the manual page: man fixd (before it is installed: man docs/fixd.1)",
                 "the first steps: fixd synth --width 16 FILE > f.bundle; fixd check f.bundle; fixd run f.bundle < "
                 "rows.csv", shown)
        return
    like = OTHER_NAMES.get(words[0]) or next(iter(difflib.get_close_matches(words[0], COMMANDS, 1, 0.6)), None)
    head = f"no command is called '{words[0]}'"
    if any(word in COMMANDS for word in words[1:]):
        call.add(head, "the command comes first, before options and FILE", shown)
    else:
        call.add(head, *([f"is '{like}' meant? {use_of(like)}"] if like else []), shown)


def read_options(call: Call, words: list) -> None:
    mine, at = OPTIONS.get(call.command, []), 0
    while at < len(words):
        word = words[at]
        at += 1
        if word == "--":
            call.files += words[at:]
            return
        if not word.startswith("-") or word == "-":
            call.files.append(word)
            continue
        name, equals, value = word.partition("=")
        if name not in mine:
            say_option(call, name, mine)
            if name.startswith("--") and not equals and at < len(words) and name not in ("--help", "--version"):
                at += 1
            elif name in LETTERS or name == "-o":
                at += 1
            continue
        if not equals:
            value = words[at] if at < len(words) else ""
            at += 1
        if name in call.options:
            call.add(f"{name} stands twice", "leave it once")
        call.options[name] = value
        if not value or value.startswith("-"):
            shown = f" '{value}'" if value else ""
            call.add(f"{name} has no value{shown and ': behind it stands' + shown}",
                     f"give it one, as {name} {example_of(name)}",
                     *(["a value doesn't begin with a minus"] if value else []))


def example_of(option: str) -> str:
    """Returns a value that an option may have."""
    return {"--width": "16", "--round": "nearest", "--function": "NAME", "--units": "2", "--seed": "1",
            "--tries": "1000"}[option]


def say_option(call: Call, name: str, mine: list) -> None:
    everyone = [option for options in OPTIONS.values() for option in options]
    if name == "-o":
        call.add("no option is called '-o'", "the bundle comes on the output: put it into a file by > FILE")
    elif name in everyone:
        owner = next(command for command, options in OPTIONS.items() if name in options)
        call.add(f"{call.command} has no option {name}", f"{name} is one of {owner}: leave it out here")
    else:
        near = [LETTERS[name]] if LETTERS.get(name) in mine else difflib.get_close_matches(name, mine, 1, 0.5)
        like = next(iter(near), None)
        call.meant.append(like)
        call.add(f"no option is called '{name}'", *([f"is '{like}' meant?"] if like else []),
                 f"options of {call.command}: {', '.join(mine)}" if mine
                 else f"{call.command} has no options: {use_of(call.command)}",
                 *([] if like or name.startswith("--")
                   else [f"of a file whose name begins with a minus: fixd {call.command} -- {name}"]))


def look_at_options(call: Call) -> None:
    if call.command == "synth" and "--width" not in [*call.options, *call.meant]:
        call.add("--width is missing", f"the width of the words has to be given, as --width 16: {widths()}; "
                                       "'fixd-tools width FILE' shows what each comes to")
    if call.command == "node" and "--units" not in [*call.options, *call.meant]:
        call.add("--units is missing", "say how many units the rows are of, as --units 2: 1 to 1024")
    for name, value in call.options.items():
        if not value or value.startswith("-") or name == "--function":
            continue
        if name == "--round":
            if value not in ("floor", "nearest"):
                call.add(f"'{value}' is no rounding", "write --round floor, or --round nearest")
        elif not re.fullmatch(r"[0-9]{1,20}", value):
            digits = re.sub(r"\D", "", value)
            call.add(f"{name}: '{value}' is no number",
                     f"1 to 20 digits and nothing else, as {name} {digits or example_of(name)}")
        elif name == "--width" and int(value) not in WIDTHS:
            near = min(WIDTHS, key=lambda width: (width < int(value), abs(width - int(value))))
            call.add(f"{value} is none of the widths", f"take --width {near}: widths are {widths()}")
        elif name in GREATEST and int(value) > GREATEST[name]:
            call.add(f"{name} is at most {GREATEST[name]}",
                     f"{name} {GREATEST[name]} is the most" if name != "--units"
                     else "send the other units to a second call")
        elif name == "--units" and int(value) == 0:
            call.add("--units is at least 1", "say how many units the rows are of")


def widths() -> str:
    return listed(map(str, WIDTHS))


def look_at_files(call: Call) -> None:
    if call.command == "demo":
        if len(call.files) != 1 or not re.fullmatch(r"[0-9]{1,20}", call.file):
            call.add("demo takes one number, N", "from 1 to 500: fixd demo 100")
        elif int(call.file) > 500:
            call.add("N is at most 500", "fixd demo 500")
        elif int(call.file) < 1:
            call.add("N is at least 1", "fixd demo 1")
        return
    if not call.files:
        call.add("FILE is missing", f"name one: {use_of(call.command)}")
    if len(call.files) > 1 and call.command in OF_ROWS:
        call.add(f"{call.command} takes one FILE, and rows come by the standard input",
                 f"fixd {call.command} {call.file} < {call.files[1]}")
    elif len(call.files) > 1:
        call.add(f"{call.command} takes one FILE alone, and here are {len(call.files)}: {', '.join(call.files)}",
                 f"call it once for each: {use_of(call.command).replace('FILE', call.file)}")


def of_words(words: list) -> list:
    """Returns what there is to say of words that are no call."""
    call = taken_apart(words)
    shown = " ".join(["fixd", *words])
    if not call.wrong:
        return [Told(f"'{shown}' is refused, and this companion doesn't see why",
                     hints=["man fixd has all commands and options"])]
    return [Told(head, f"fixd {call.command}".strip() if call.command in COMMANDS else "fixd", hints=hints,
                 notes=notes) for head, hints, notes in call.wrong]


def of_file(path: str) -> Told:
    """Returns what there is to say of a file that can't be read."""
    if os.path.isdir(path):
        inside = sorted(it for it in os.listdir(path)
                        if it.endswith((".fixd", ".bundle")) and os.path.getsize(os.path.join(path, it)))
        return Told(f"'{path}' is a folder",
                    hints=["name a file" + (f" in it, as {os.path.join(path, inside[0])}" if inside else "")])
    if not os.path.exists(path):
        folder = os.path.dirname(path) or "."
        if not os.path.isdir(folder):
            return Told(f"there is no folder '{folder}'", hints=["look at its name"])
        like = difflib.get_close_matches(os.path.basename(path), os.listdir(folder), 1, 0.6)
        return Told(f"there is no file '{path}'",
                    hints=[f"is '{os.path.join(os.path.dirname(path), like[0])}' meant?" if like
                           else "look at its name, and at the folder in which you are"])
    if not os.path.isfile(path):
        return Told(f"'{path}' isn't a plain file",
                    hints=["FILE can't be a pipe, as '<(..)' is: write it to a file first"])
    if not os.access(path, os.R_OK):
        return Told(f"'{path}' may not be read", hints=[f"its rights don't allow it: chmod u+r {path}"])
    return Told(f"'{path}' or the input failed while it was read", hints=["run again; what was printed is right"])
