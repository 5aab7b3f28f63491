"""Reads the tokens of a source from left to right, up to its first fault, with what could have stood there."""
from __future__ import annotations

import re
from dataclasses import dataclass

from .exact import fits_a_literal, read_decimal
from .functions import Function, Input, Output, State, Tree, node_count

# in the order in which one token's faults are told: the last one
KINDS = ["BadUtf8", "BadCharacter", "BadNumber", "NumberTooLong", "EndOfText", "Unexpected", "UnknownName",
         "NamedTwice", "NoRange", "EmptyRange",
         "TooDeep", "TooMany", "Unsupported", "WrongArity", "NoSuchFunction", "WhichFunction"]
GRAMMAR_WORDS = {"import", "object", "def", "val", "require", "ensuring"}
OTHER_WORDS = {"if", "else", "while", "for", "match", "var", "return", "true", "false", "new"}
RELATIONS = ("<", "<=", ">", ">=")
TOKEN = re.compile(rb"([A-Za-z_][A-Za-z0-9_]*)|([0-9]+(?:\.[0-9]+)?(?:[eE][+-]?[0-9]+)?)"
                   rb"|(\+/-|=>|<=|>=|&&|[(){}:,.;=<>+\-*/])")
MOST_INPUTS, MOST_STATES, MOST_OUTPUTS, MOST_TEMPS, MOST_NODES, MOST_HEIGHT = 64, 32, 64, 1000, 4000, 200


@dataclass(frozen=True)
class Token:
    """A token: its kind (word, name, number, sign), its text, its bytes from `at` to `end`, and whether it is the first
    of its line."""
    kind: str
    text: str
    at: int
    end: int
    first: bool


class Fault(Exception):
    """The first fault of a source: its kind and byte, what could have stood at the token `found`, and what else is
    known of it."""

    def __init__(self, kind, at, expected=(), found=None, known=None):
        super().__init__(f"{kind} at byte {at}")
        self.kind, self.at, self.expected, self.found, self.known = kind, at, list(expected), found, known or {}


def tokens_of(data: bytes) -> list:
    """Returns the tokens of a text, or raises its first fault of a token."""
    found, at, first, size = [], 0, True, len(data)
    while at < size:
        here = data[at:at + 1]
        if here == b"\n":
            first, at = True, at + 1
        elif here in b" \t\r":
            at += 1
        elif data.startswith(b"//", at):
            at = (data.find(b"\n", at) + 1 or size + 1) - 1
        elif data.startswith(b"/*", at):
            end = comment_end(data, at)
            first, at = first or b"\n" in data[at:end], end
        else:
            token = token_at(data, at, first)
            found.append(token)
            first, at = False, token.end
    return found


def comment_end(data: bytes, at: int) -> int:
    """Returns the byte behind a comment, or raises that it isn't closed, with where each open one begins."""
    opens = [at]
    for mark in re.compile(rb"/\*|\*/").finditer(data, at + 2):
        if mark[0] == b"/*":
            opens.append(mark.start())
        else:
            opens.pop()
        if not opens:
            return mark.end()
    raise Fault("EndOfText", len(data), ["'*/'"], known={"comment": opens})


def token_at(data: bytes, at: int, first: bool) -> Token:
    """Returns the token at a byte that isn't blank, or raises why there is none."""
    shape = TOKEN.match(data, at)
    if not shape:
        raise Fault("BadCharacter", at, known={"tokens": True})
    text, end = shape[0].decode(), shape.end()
    if shape[1]:
        return Token("word" if text in GRAMMAR_WORDS | OTHER_WORDS else "name", text, at, end, first)
    if shape[3]:
        return Token("sign", text, at, end, first)
    if not fits_a_literal(read_decimal(text)):
        raise Fault("NumberTooLong", at, known={"text": text})
    behind = re.compile(rb"[A-Za-z_][A-Za-z0-9_]*").match(data, end)
    if behind:
        raise Fault("BadNumber", at, known={"text": text, "behind": behind[0].decode()})
    return Token("number", text, at, end, first)


class Reader:
    """Reads tokens from left to right. `wanted` has, for the token that is next, what could stand there."""

    def __init__(self, data: bytes):
        self.data, self.tokens = data, tokens_of(data)
        self.at, self.wanted, self.late = 0, {}, []
        self.inputs, self.names, self.where, self.function_name = [], {}, "", ""

    # faults

    def note(self, fault, place, found, **known):
        """Notes a fault that the token number `found` completes; a later row of the table may still take its place at
        that token."""
        self.late.append((found, KINDS.index(fault), place, known))

    def fail(self, fault, place, found, **known):
        """Raises the first fault, this one among those that are noted."""
        self.note(fault, place, found, **known)
        self.settle()

    def settle(self):
        least = min(found for found, *_ in self.late)
        _, kind, place, known = max((it for it in self.late if it[0] == least), key=lambda it: it[1])
        token = self.tokens[self.at] if self.at < len(self.tokens) else None
        known = {"where": self.where, "function": self.function_name, "inputs": self.inputs, "names": list(self.names),
                 **known}
        raise Fault(KINDS[kind], place, self.wanted.get(self.at, []), token, known)

    def stop(self, **known):
        """Raises that the token that is next, or the end of the text, can't stand here."""
        if any(found < self.at for found, *_ in self.late):
            self.settle()
        token = self.peek()
        if token is None:
            self.fail("EndOfText", len(self.data), self.at, **known)
        if token.kind == "word" and token.text in OTHER_WORDS:
            self.fail("Unsupported", token.at, self.at, word=token.text, **known)
        self.fail("Unexpected", token.at, self.at, **known)

    # tokens

    def peek(self, ahead=0):
        return self.tokens[self.at + ahead] if self.at + ahead < len(self.tokens) else None

    def want(self, what):
        """Notes what could stand here."""
        here = self.wanted.setdefault(self.at, [])
        if what not in here:
            here.append(what)

    def sees(self, text, ahead=0, quiet=False):
        """Returns whether this sign or word is next."""
        if ahead == 0 and not quiet:
            self.want(f"'{text}'")
        token = self.peek(ahead)
        return token is not None and token.text == text and token.kind in ("sign", "word")

    def sees_kind(self, kind, ahead=0, what=None):
        """Returns whether a token of this kind is next."""
        if ahead == 0 and what:
            self.want(what)
        token = self.peek(ahead)
        return token is not None and token.kind == kind

    def take(self):
        if any(found < self.at for found, *_ in self.late):
            self.settle()
        self.at += 1
        return self.tokens[self.at - 1]

    def taken(self, text):
        """Takes this sign or word where it is next."""
        return self.take() if self.sees(text) else None

    def due(self, text, **known):
        return self.take() if self.sees(text) else self.stop(**known)

    def name(self, what="a name", **known):
        return self.take() if self.sees_kind("name", what=what) else self.stop(**known)

    def real(self):
        self.want("'Real'")
        token = self.peek()
        return (self.take() if token is not None and token.kind == "name" and token.text == "Real"
                else self.stop(real=True))

    def number(self):
        if not self.sees_kind("number", what="a number"):
            self.stop(number=True)
        return read_decimal(self.take().text)

    def signed(self):
        return -self.number() if self.taken("-") else self.number()

    def relation(self):
        """Takes a relation where one is next."""
        for text in RELATIONS:
            self.want(f"'{text}'")
        return next((self.take() for text in RELATIONS if self.sees(text, quiet=True)), None)

    # the grammar

    def functions(self):
        found = []
        self.imports()
        if self.taken("object"):
            self.name("the object's name")
            self.due("{")
            self.imports()
            while self.sees("def"):
                found.append(self.function(found))
            self.due("}", outside=True)
        else:
            while self.sees("def"):
                found.append(self.function(found))
        if self.peek() is not None:
            self.where = ""
            self.stop(outside=True)
        if self.late:
            self.settle()
        return found

    def imports(self):
        while self.taken("import"):
            self.name()
            while self.taken("."):
                self.name()

    def function(self, before):
        word = self.take()
        name = self.name("the function's name")
        self.function_name = name.text
        if any(it.name == name.text for it in before):
            self.note("NamedTwice", name.at, self.at - 1, twice=name.text)
        made = Function(name.text, word.at)
        self.names, self.inputs = {}, made.inputs
        self.where = "inputs"
        self.parameters(made)
        self.where = "states"
        if self.sees("("):
            self.states(made)
        self.where = "type"
        self.due(":")
        count = self.type_of(len(made.states))
        self.due("=")
        self.due("{")
        self.where = "require"
        if not self.sees("require"):
            self.note("NoRange", made.inputs[0].at, self.at, lacking=[(it.name, "no 'require'") for it in made.inputs])
            self.stop()
        self.require(made)
        self.where = "body"
        while self.taken("val"):
            made.temps.append(self.temp(len(made.temps)))
        made.results = self.results(count)
        self.taken(";")
        if not self.sees("}"):
            self.stop(behind_result=True)
        made.end = self.take().end
        made.outputs = [Output(f"out{j + 1}") for j in range(made.count)]
        self.where = "ensuring"
        if self.sees("ensuring"):
            made.outputs = self.ensuring(made.count)
            made.end = self.tokens[self.at - 1].end
        self.where = ""
        nodes = node_count(made)
        if nodes > MOST_NODES:
            self.note("TooMany", word.at, self.at - 1, what="nodes", count=nodes, limit=MOST_NODES)
        return made

    def add_name(self, token, kind):
        if token.text in self.names:
            self.note("NamedTwice", token.at, self.at - 1, twice=token.text)
        self.names[token.text] = kind

    def parameters(self, made):
        self.due("(")
        while True:
            name = self.name("an input's name")
            self.add_name(name, "input")
            if len(made.inputs) == MOST_INPUTS:
                self.note("TooMany", name.at, self.at - 1, what="inputs", limit=MOST_INPUTS)
            made.inputs.append(Input(name.text, name.at))
            self.due(":", typed=name.text)
            self.real()
            if self.taken(","):
                continue
            self.due(")")
            return

    def states(self, made):
        self.take()
        while True:
            name = self.name("a state's name")
            self.add_name(name, "state")
            if len(made.states) == MOST_STATES:
                self.note("TooMany", name.at, self.at - 1, what="states", limit=MOST_STATES)
            self.due(":", typed=name.text)
            self.real()
            self.due("=", start=name.text)
            made.states.append(State(name.text, name.at, self.signed()))
            if self.taken(","):
                continue
            self.due(")", start=name.text)
            return

    def type_of(self, states):
        """Reads the type, and returns how often it has `Real`."""
        first, count = self.peek(), 1
        if self.taken("("):
            count = 0
            while True:
                self.real()
                count += 1
                if count - states == MOST_OUTPUTS + 1:
                    self.note("TooMany", first.at, self.at - 1, what="outputs", limit=MOST_OUTPUTS)
                if not self.taken(","):
                    break
            self.due(")")
        else:
            self.real()
        if count <= states:
            self.note("WrongArity", first.at, self.at - 1, reals=count, states=states)
        return count

    def require(self, made):
        self.take()
        self.due("(")
        by_name, depth = {it.name: it for it in made.inputs}, 1
        while depth:
            while self.taken("("):
                depth += 1
            self.condition(by_name, "input")
            while depth and self.taken(")"):
                depth -= 1
            if depth:
                self.due("&&")
        last = self.at - 1
        lacking = [it for it in made.inputs if it.lo is None or it.hi is None]
        if lacking:
            self.note("NoRange", lacking[0].at, last, lacking=[(it.name, ends_lacking(it)) for it in lacking])
        else:
            for it in made.inputs:
                if it.lo > it.hi:
                    self.note("EmptyRange", it.at, last, empty=it)
                    break
        self.taken(";")

    def condition(self, by_name, what):
        """Reads a condition of `require` or a demand of `ensuring`, and notes it at its input or output."""
        first = self.peek()
        if self.sees_kind("name", what=f"an {what}'s name"):
            name = self.take()
            it = self.known(by_name, name, what)
            if self.taken("+/-"):
                off = self.number()
                self.set_once(it, "error", off, name)
                return
            relation = self.relation() or self.stop(condition=True)
            if self.sees_kind("name"):
                self.fail("Unsupported", first.at, self.at, compares="names")
            value, is_lower = self.signed(), relation.text in (">", ">=")
        else:
            value = self.signed()
            relation = self.relation() or self.stop(condition=True)
            if self.sees_kind("number"):
                self.fail("Unsupported", first.at, self.at, compares="numbers")
            if self.sees("-", quiet=True) and self.sees_kind("number", 1):
                self.fail("Unsupported", first.at, self.at + 1, compares="numbers")
            name = self.name(f"an {what}'s name")
            it, is_lower = self.known(by_name, name, what), relation.text in ("<", "<=")
        self.set_once(it, "lo" if is_lower else "hi", value, name)

    def known(self, by_name, name, what):
        if name.text not in by_name:
            self.fail("UnknownName", name.at, self.at - 1, unknown=name.text, near=list(by_name), kind=what)
        return by_name[name.text]

    def set_once(self, it, which, value, name):
        if getattr(it, which) is not None:
            self.note("NamedTwice", name.at, self.at - 1, twice=name.text, end=which)
        setattr(it, which, value)

    def temp(self, before):
        name = self.name("a name")
        self.add_name(name, "val")
        if before == MOST_TEMPS:
            self.note("TooMany", name.at, self.at - 1, what="'val's", limit=MOST_TEMPS)
        # a temp is to be used behind its definition alone
        del self.names[name.text]
        if self.taken(":"):
            self.real()
        self.due("=", temp=name.text)
        tree = self.whole(False)
        self.names[name.text] = "val"
        self.taken(";")
        return name.text, tree

    def results(self, count):
        if count < 2:
            return [self.whole(False)]
        if not self.sees("("):
            self.stop(results=count)
        opened, found = self.take(), []
        while True:
            found.append(self.whole(True))
            if not self.taken(","):
                break
        self.due(")")
        if len(found) != count:
            self.note("WrongArity", opened.at, self.at - 1, results=len(found), reals=count)
        return found

    def whole(self, inside):
        """Reads an expression; `inside` says that parentheses stand around it."""
        first = self.peek()
        tree, height = self.sum(0, inside)
        if height > MOST_HEIGHT:
            self.note("TooDeep", first.at, self.at, height=height)
        return tree

    def sum(self, depth, inside):
        tree, height = self.product(depth, inside)
        while self.sees("+") or (self.sees("-") and (inside or not self.peek().first)):
            tree, height = self.joined(tree, height, self.product, depth, inside)
        return tree, height

    def product(self, depth, inside):
        tree, height = self.factor(depth, inside)
        while self.sees("*") or self.sees("/"):
            tree, height = self.joined(tree, height, self.factor, depth, inside)
        return tree, height

    def joined(self, left, height, part, depth, inside):
        sign = self.take()
        right, other = part(depth, inside)
        return Tree(sign.text, (left, right), at=left.at, end=right.end), 1 + max(height, other)

    def factor(self, depth, inside):
        self.want("an expression")
        if not self.sees("-", quiet=True):
            return self.atom(depth, inside)
        minus = self.take()
        if self.sees_kind("number"):
            number = self.take()
            return Tree("num", value=-read_decimal(number.text), at=minus.at, end=number.end), 1
        tree, height = self.atom(depth, inside)
        return Tree("neg", (tree,), at=minus.at, end=tree.end), height + 1

    def atom(self, depth, inside):
        self.want("an expression")
        token = self.peek()
        if self.sees_kind("number"):
            self.take()
            return Tree("num", value=read_decimal(token.text), at=token.at, end=token.end), 1
        if self.sees_kind("name"):
            self.take()
            if self.sees("(", quiet=True) and not self.peek().first:
                self.fail("Unsupported", token.at, self.at, call=token.text)
            if token.text not in self.names:
                self.fail("UnknownName", token.at, self.at - 1, unknown=token.text, near=list(self.names),
                          kind="expression")
            return Tree("name", name=token.text, at=token.at, end=token.end), 1
        if self.sees("(", quiet=True):
            self.take()
            if depth == MOST_HEIGHT:
                self.fail("TooDeep", token.at, self.at - 1, parentheses=True)
            tree, height = self.sum(depth + 1, True)
            self.due(")", opened=token.at)
            return Tree(tree.op, tree.parts, tree.value, tree.name, token.at, self.tokens[self.at - 1].end), height
        return self.stop(expression=True)

    def ensuring(self, count):
        self.take()
        self.due("(")
        named = []
        if self.taken("("):
            while True:
                named.append(self.name("an output's name"))
                if not self.taken(","):
                    break
            self.due(")")
        else:
            named.append(self.name("an output's name"))
        found = {}
        for k, token in enumerate(named):
            if token.text in found:
                self.note("NamedTwice", token.at, self.at - 1 - (len(named) - 1 - k) * 2, twice=token.text)
            found.setdefault(token.text, Output(token.text, token.at))
        if len(named) != count:
            self.note("WrongArity", named[0].at, self.at - 1, named=len(named), outputs=count)
        self.due("=>", arrow=named[0].text)
        while True:
            self.condition(found, "output")
            if not self.taken("&&"):
                break
        self.due(")")
        for it in found.values():
            if it.lo is not None and it.hi is not None and it.lo > it.hi:
                self.note("EmptyRange", it.at, self.at - 1, empty=it)
                break
        return list(found.values())


def ends_lacking(it: Input) -> str:
    """Returns which ends of an input aren't given."""
    return ("neither end" if it.lo is None and it.hi is None else "no least value" if it.lo is None
            else "no greatest value")
