"""Reads sources of `fixd` without faults, and computes their exact outputs by Python's fractions."""
import re
from dataclasses import dataclass, field
from fractions import Fraction

TOKEN = re.compile(r"\s+|//[^\n]*|/\*.*?\*/|(\d+(?:\.\d+)?(?:[eE][+-]?\d+)?|[A-Za-z_]\w*|<=|>=|=>|&&|\+/-|.)", re.S)


@dataclass
class Function:
    """A function of a source: its inputs by name with both ends and the error, its trees, and its outputs that
    `ensuring` names with what is demanded of them."""
    name: str
    inputs: dict = field(default_factory=dict)
    states: dict = field(default_factory=dict)
    temps: list = field(default_factory=list)
    results: list = field(default_factory=list)
    demands: dict = field(default_factory=dict)


class Reader:
    """Reads the tokens of a source from left to right."""

    def __init__(self, text):
        self.tokens = [token for token in TOKEN.findall(text) if token]
        self.at = 0

    def peek(self):
        return self.tokens[self.at] if self.at < len(self.tokens) else ""

    def take(self, *wanted):
        token = self.peek()
        if wanted and token not in wanted:
            raise ValueError(f"{token} stands where one of {wanted} is due")
        self.at += 1
        return token

    def taken(self, token):
        if self.peek() != token:
            return False
        self.at += 1
        return True

    def functions(self):
        found = []
        while self.peek():
            token = self.take()
            if token == "def":
                found.append(self.function())
            elif token == "import":
                self.take()
                while self.taken("."):
                    self.take()
            elif token == "object":
                self.take()
                self.take("{")
        return found

    def function(self):
        function = Function(self.take())
        for name in self.parameters():
            function.inputs[name] = {"err": Fraction(0)}
        if self.peek() == "(":
            function.states = self.starts()
        self.take(":")
        while self.take() != "=":
            pass
        self.take("{")
        self.take("require")
        self.take("(")
        self.conditions(function.inputs)
        self.taken(";")
        while self.taken("val"):
            function.temps.append(self.temp())
        function.results = self.result()
        self.taken(";")
        self.take("}")
        if self.taken("ensuring"):
            self.take("(")
            function.demands = {name: {} for name in self.outputs()}
            self.take("=>")
            self.conditions(function.demands)
        return function

    def outputs(self):
        if not self.taken("("):
            return [self.take()]
        names = [self.take()]
        while self.take(",", ")") == ",":
            names.append(self.take())
        return names

    def parameters(self):
        names = []
        self.take("(")
        while True:
            names.append(self.take())
            self.take(":")
            self.take("Real")
            if self.take(",", ")") == ")":
                return names

    def starts(self):
        starts = {}
        self.take("(")
        while True:
            name = self.take()
            for token in (":", "Real", "="):
                self.take(token)
            starts[name] = self.signed()
            if self.take(",", ")") == ")":
                return starts

    def signed(self):
        sign = -1 if self.taken("-") else 1
        return sign * Fraction(self.take())

    def conditions(self, said):
        while True:
            if self.taken("("):
                self.conditions(said)
            else:
                self.condition(said)
            if self.take("&&", ")") == ")":
                return

    def condition(self, said):
        if self.peek() in said:
            name, relation = self.take(), self.take()
            if relation == "+/-":
                said[name]["err"] = Fraction(self.take())
                return
            value = self.signed()
            is_upper = relation in ("<", "<=")
        else:
            value, relation, name = self.signed(), self.take(), self.take()
            is_upper = relation in (">", ">=")
        said[name]["hi" if is_upper else "lo"] = value

    def temp(self):
        name = self.take()
        if self.taken(":"):
            self.take("Real")
        self.take("=")
        tree = self.sum()
        self.taken(";")
        return name, tree

    def result(self):
        """Returns the trees of the result: one, or those of a tuple."""
        start = self.at
        if self.taken("("):
            trees = [self.sum()]
            while self.taken(","):
                trees.append(self.sum())
            if len(trees) > 1:
                self.take(")")
                return trees
            self.at = start
        return [self.sum()]

    def sum(self):
        tree = self.product()
        while self.peek() in ("+", "-"):
            tree = (self.take(), tree, self.product())
        return tree

    def product(self):
        tree = self.factor()
        while self.peek() in ("*", "/"):
            tree = (self.take(), tree, self.factor())
        return tree

    def factor(self):
        if not self.taken("-"):
            return self.atom()
        if self.peek()[0].isdigit():
            return -Fraction(self.take())
        return ("neg", self.atom())

    def atom(self):
        if self.taken("("):
            tree = self.sum()
            self.take(")")
            return tree
        token = self.take()
        return Fraction(token) if token[0].isdigit() else token


def functions_of(text):
    return Reader(text).functions()


def formula(tree):
    """Returns a tree as a formula of Python's."""
    if isinstance(tree, str):
        return f"v_{tree}"
    if isinstance(tree, Fraction):
        return f"F({tree.numerator}, {tree.denominator})"
    if tree[0] == "neg":
        return f"(-{formula(tree[1])})"
    return f"({formula(tree[1])} {tree[0]} {formula(tree[2])})"


def evaluator(function):
    """Returns the exact function: from values of the inputs and the states to those of the results."""
    names = [f"v_{name}" for name in [*function.inputs, *function.states]]
    lines = [f"def exact({', '.join(names)}):"]
    lines += [f"    v_{name} = {formula(tree)}" for name, tree in function.temps]
    lines.append(f"    return ({', '.join(formula(tree) for tree in function.results)},)")
    place = {"F": Fraction}
    exec("\n".join(lines), place)
    return place["exact"]
