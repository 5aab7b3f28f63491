"""The nodes of a function, in the order in which a program computes them, and the rewriting steps of a certificate."""
from __future__ import annotations

import re
from dataclasses import dataclass, replace

from .functions import Function, Tree, value_of, written

RULES = """
A + B -> B + A
(A + B) + C -> A + (B + C)
A + (B + C) -> (A + B) + C
A * B -> B * A
(A * B) * C -> A * (B * C)
A * (B * C) -> (A * B) * C
A * (B + C) -> A * B + A * C
(A + B) * C -> A * C + B * C
A * (B - C) -> A * B - A * C
(A - B) * C -> A * C - B * C
A * B + A * C -> A * (B + C)
A * C + B * C -> (A + B) * C
A * B - A * C -> A * (B - C)
A * C - B * C -> (A - B) * C
A - B -> A + (-B)
A + (-B) -> A - B
-(-A) -> A
-(A * B) -> (-A) * B
(-A) * B -> -(A * B)
-(A + B) -> (-A) + (-B)
(A + B) / C -> A / C + B / C
A / C + B / C -> (A + B) / C
(A / B) / C -> A / (B * C)
A / (B * C) -> (A / B) / C
A / L -> A * [1 / L]
L + K -> [L + K]
L - K -> [L - K]
L * K -> [L * K]
L / K -> [L / K]
-L -> [-L]
""".strip().splitlines()


@dataclass(frozen=True)
class Node:
    """A node: its operation, the nodes that it reads, its tree in the source or None, what it is in words, and a `val`
    that it is the value of."""
    op: str
    operands: tuple = ()
    tree: Tree = None
    what: str = ""
    val: str = ""

    @property
    def term(self) -> str:
        """What it computes, in the source's words."""
        return self.what or written(self.tree)


def nodes_of(made: Function) -> list:
    """Returns the nodes of a function: inputs, states, literals and operations each behind its operands, and a copy for
    each result."""
    found = [Node("in", what=f"input {it.name}") for it in made.inputs]
    found += [Node("st", what=f"state {it.name}") for it in made.states]
    places = {it.name: k for k, it in enumerate([*made.inputs, *made.states])}

    def add(tree: Tree) -> int:
        if tree.op == "name":
            return places[tree.name]
        operands = tuple(add(part) for part in tree.parts)
        found.append(Node("const" if tree.op == "num" else tree.op, operands, tree))
        return len(found) - 1

    for name, tree in made.temps:
        places[name] = add(tree)
        if found[places[name]].tree is not None and not found[places[name]].val:
            found[places[name]] = replace(found[places[name]], val=name)
    tops = [add(tree) for tree in made.results]
    for j, top in enumerate(tops):
        what = f"output {made.outputs[j].name}" if j < made.count else f"next {made.states[j - made.count].name}"
        found.append(Node("copy", (top,), what=what))
    return found


# rewriting


def read_rule(text: str) -> Tree:
    """Returns a side of a rule as a tree, in which a name stands for anything and `lit` for one literal that is worked
    out."""
    words = re.findall(r"[A-Z]|\d+|[-+*/()\[\]]", text)
    at = 0

    def atom():
        nonlocal at
        word = words[at]
        at += 1
        if word in "([":
            inner = binary()
            at += 1
            return inner if word == "(" else Tree("lit", (inner,))
        if word == "-":
            return Tree("neg", (atom(),))
        return Tree("num", value=Fraction(int(word))) if word.isdigit() else Tree("name", name=word)

    def product():
        nonlocal at
        tree = atom()
        while at < len(words) and words[at] in "*/":
            at += 1
            tree = Tree(words[at - 1], (tree, atom()))
        return tree

    def binary():
        nonlocal at
        tree = product()
        while at < len(words) and words[at] in "+-":
            at += 1
            tree = Tree(words[at - 1], (tree, product()))
        return tree

    return binary()


def same(first: Tree, second: Tree) -> bool:
    """Returns whether two trees are the same expression, wherever they stand."""
    return ((first.op, first.name, first.value, len(first.parts)) ==
            (second.op, second.name, second.value, len(second.parts)) and all(map(same, first.parts, second.parts)))


def match(rule: Tree, tree: Tree, found: dict) -> bool:
    """Returns whether a tree is of the form of a rule's side; `found` gets what each letter stands for."""
    if rule.op == "name":
        if rule.name in "LK" and tree.op != "num":
            return False
        return same(found.setdefault(rule.name, tree), tree)
    return (rule.op == tree.op and len(rule.parts) == len(tree.parts)
            and all(match(*pair, found) for pair in zip(rule.parts, tree.parts)))


def filled(rule: Tree, found: dict) -> Tree:
    """Returns a rule's right side with what its letters stand for."""
    if rule.op == "name":
        return found[rule.name]
    if rule.op == "lit":
        return Tree("num", value=value_of(filled(rule.parts[0], found), {}))
    return replace(rule, parts=tuple(filled(part, found) for part in rule.parts))


def replaced(tree: Tree, path: str, change) -> Tree:
    """Returns a tree with what stands at a path changed."""
    if not path:
        return change(tree)
    k = int(path[0])
    parts = list(tree.parts)
    parts[k] = replaced(parts[k], path[1:], change)
    return replace(tree, parts=tuple(parts))


def rewritten(made: Function, steps: list) -> Function:
    """Returns the function behind a certificate's steps, or raises ValueError at a step that can't be carried out."""
    trees = [tree for _, tree in made.temps] + list(made.results)
    for number, (at, path, rule) in enumerate(steps):
        left, right = (read_rule(side) for side in RULES[rule - 1].split(" -> "))

        def change(tree):
            found = {}
            if not match(left, tree, found):
                raise ValueError(number)
            return filled(right, found)

        try:
            trees[at] = replaced(trees[at], path, change)
        except (IndexError, ValueError, ZeroDivisionError):
            raise ValueError(number) from None
    names = [name for name, _ in made.temps]
    return replace(made, temps=list(zip(names, trees)), results=trees[len(names):])
