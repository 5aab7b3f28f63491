"""A function of a source: its inputs, states, `val`s, results and demands, and what it computes, exactly."""
from __future__ import annotations

from dataclasses import dataclass, field
from fractions import Fraction
from operator import add, mul, sub, truediv

from .exact import as_decimal

OPERATIONS = {"+": add, "-": sub, "*": mul, "/": truediv}


@dataclass(frozen=True)
class Tree:
    """An expression: `num` with a value, `name` with a name, `neg` of one part, or `+`, `-`, `*`, `/` of two; and its
    bytes in the source."""
    op: str
    parts: tuple = ()
    value: Fraction = Fraction(0)
    name: str = ""
    at: int = 0
    end: int = 0


@dataclass
class Input:
    """An input with its ends and its error."""
    name: str
    at: int
    lo: Fraction = None
    hi: Fraction = None
    error: Fraction = None

    @property
    def off(self) -> Fraction:
        """By how much a given value may differ from the true one."""
        return self.error or Fraction(0)


@dataclass
class State:
    """A state with its start."""
    name: str
    at: int
    start: Fraction


@dataclass
class Output:
    """What `ensuring` names and demands of an output."""
    name: str
    at: int = 0
    error: Fraction = None
    lo: Fraction = None
    hi: Fraction = None


    def demanded(self) -> list:
        """Returns what is demanded, in words."""
        said = (("within", self.error), ("at least", self.lo), ("at most", self.hi))
        return [f"{word} {as_decimal(value)}" for word, value in said if value is not None]


@dataclass
class Function:
    """A function of a source."""
    name: str
    at: int
    inputs: list = field(default_factory=list)
    states: list = field(default_factory=list)
    temps: list = field(default_factory=list)
    results: list = field(default_factory=list)
    outputs: list = field(default_factory=list)
    end: int = 0

    @property
    def count(self) -> int:
        """How many outputs there are."""
        return len(self.results) - len(self.states)

    def demands(self) -> bool:
        """Returns whether `ensuring` demands anything."""
        return any(it.demanded() for it in self.outputs)


def node_count(made: Function) -> int:
    """Returns how many nodes a function has: inputs, states, literals and operations as often as written, and a copy of
    each result."""
    waiting = [tree for _, tree in made.temps] + list(made.results)
    count = len(made.inputs) + len(made.states) + len(made.results)
    while waiting:
        tree = waiting.pop()
        count += tree.op != "name"
        waiting += tree.parts
    return count


def written(tree: Tree, outer: int = 0) -> str:
    """Returns an expression as a source would write it."""
    if tree.op == "name":
        return tree.name
    if tree.op == "num":
        return as_decimal(tree.value)
    if tree.op == "neg":
        return f"-{written(tree.parts[0], 3)}"
    rank = 1 if tree.op in "+-" else 2
    text = f"{written(tree.parts[0], rank)} {tree.op} {written(tree.parts[1], rank + 1)}"
    return f"({text})" if rank < outer else text


def evaluate(made: Function, inputs: list, states: list) -> tuple:
    """Returns the exact outputs and next states for exact inputs and states."""
    known = {it.name: value for it, value in zip(made.inputs, inputs)}
    known.update({it.name: value for it, value in zip(made.states, states)})
    for name, tree in made.temps:
        known[name] = value_of(tree, known)
    values = [value_of(tree, known) for tree in made.results]
    return values[:made.count], values[made.count:]


def value_of(tree: Tree, known: dict):
    """Returns an expression's value where its names have these."""
    if tree.op == "num":
        return tree.value
    if tree.op == "name":
        return known[tree.name]
    if tree.op == "neg":
        return -value_of(tree.parts[0], known)
    first, second = (value_of(part, known) for part in tree.parts)
    return OPERATIONS[tree.op](first, second)
