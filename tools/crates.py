"""The crates of the repository: what each names, what stands below it, and what its proof takes of a processor."""
import os

TOP = os.path.dirname(os.path.dirname(os.path.abspath(__file__)))
LIST = f"{TOP}/crates.txt"
SECONDS = f"{TOP}/.ci/seconds"


def fields_of(path, mark):
    """Returns what stands before and behind the first mark of each line that has it, without comments."""
    with open(path, encoding="utf-8") as file:
        parted = [line.partition("#")[0].strip().partition(mark) for line in file]
    return {name.strip(): rest.strip() for name, found, rest in parted if found}


def listed():
    """Returns the crates that each crate lists, those of the toolchain among them, in the order of the file."""
    return {name: below.split() for name, below in fields_of(LIST, ":").items()}


def closed(crates):
    """Returns for each crate all that stands below it, of what each lists, the upper ones first."""
    found = {}

    def below(name):
        if name not in found:
            found[name] = set(crates.get(name, ())).union(*(below(it) for it in crates.get(name, ())))
        return found[name]

    order = {name: place for place, name in enumerate(crates)}
    return {name: sorted(below(name), key=lambda it: (-order.get(it, -1), it)) for name in crates}


def seconds():
    """Returns the seconds of each crate's proof, as they were measured."""
    return {name: float(value) for name, value in fields_of(SECONDS, " ").items()}
