"""A form of a linear function: its states, outputs and next states as sums, and the source that says them."""
from __future__ import annotations

from dataclasses import dataclass, field
from fractions import Fraction

from .exact import as_decimal, fits_a_literal
from .functions import Function
from .linear import Linear

SMALL = Fraction(1, 10 ** 10)
# what stands for 0 where poles are known to 60 digits
LOST = Fraction(1, 10 ** 40)


class Impossible(Exception):
    """A form that a function can't have, with why."""


@dataclass
class Sum:
    """A sum of names, each times a coefficient, with a number that stands alone: one line of a form. `small` has the
    coefficients that are next to nothing beside the others."""
    terms: dict
    small: dict
    alone: Fraction = Fraction(0)


@dataclass
class Form:
    """A form: its states with starts, its `val`s, outputs and next states, each a sum."""
    name: str
    what: str
    starts: list = field(default_factory=list)
    vals: list = field(default_factory=list)
    outputs: list = field(default_factory=list)
    nexts: list = field(default_factory=list)

    @property
    def dropped(self) -> int:
        """How many coefficients are next to nothing beside their neighbours."""
        return sum(len(one.small) for one in [*(one for _, one in self.vals), *self.outputs, *self.nexts])


def rounded(value: Fraction) -> Fraction:
    """Returns a number near by that a source may have, of 17 digits behind its point where there is room."""
    for places in range(18, -1, -1):
        found = Fraction(round(value * 10 ** places), 10 ** places)
        if fits_a_literal(found):
            return found
    raise Impossible("a coefficient is too great for a source")


def cleaned(terms: dict, alone=Fraction(0)) -> Sum:
    """Returns a sum with coefficients that a source may have."""
    most, made = max([abs(x) for x in terms.values()], default=Fraction(0)), Sum({}, {}, rounded(alone))
    for name, x in terms.items():
        if abs(x) >= LOST:
            (made.small if abs(x) < most * SMALL or not rounded(x) else made.terms)[name] = rounded(x)
    return made


def near_decimal(value: Fraction, digits: int = 2) -> Fraction:
    """Returns a number of a few digits near by."""
    if value == 0:
        return value
    power = 0
    while abs(value) * Fraction(10) ** power < 10 ** (digits - 1):
        power += 1
    return Fraction(round(value * Fraction(10) ** power)) / Fraction(10) ** power


def names_for(made: Function, count: int, stem: str = "s") -> list:
    """Returns names for states that nothing else has."""
    taken = {it.name for it in made.inputs} | {"if", "else"}
    stem = next(stem + "_" * k for k in range(9)
                if not any(name.startswith(stem + "_" * k) and name[len(stem) + k:].isdigit() for name in taken))
    return [f"{stem}{k + 1}" for k in range(count)]


def from_matrices(made: Function, name: str, what: str, system: Linear, starts: list, states: list = None) -> Form:
    """Returns the form that matrices say."""
    form, states = Form(name, what), states or names_for(made, system.states)
    form.starts = [(it, rounded(start)) for it, start in zip(states, starts)]
    inputs = [it.name for it in made.inputs]
    for rows, into in ((zip(system.C, system.D), form.outputs), (zip(system.A, system.B), form.nexts)):
        for of_states, of_inputs in rows:
            into.append(cleaned({**dict(zip(inputs, of_inputs)), **dict(zip(states, of_states))}, of_inputs[-1]))
    return form


def sum_text(one: Sum, is_whole: bool) -> str:
    """Returns a sum as a source writes it, with its small terms where it is to be whole."""
    out = ""
    for name, x in {**one.terms, **(one.small if is_whole else {})}.items():
        if not x:
            continue
        text = name if abs(x) == 1 else f"{as_decimal(abs(x))} * {name}"
        out += f" {'-' if x < 0 else '+'} {text}" if out else ("-" if x < 0 else "") + text
    if one.alone or not out:
        out += f" {'-' if one.alone < 0 else '+'} {as_decimal(abs(one.alone))}" if out else as_decimal(one.alone)
    return out


def source_of(made: Function, form: Form, is_whole: bool = False) -> str:
    """Returns the source of a form, with ranges, errors and demands as they were; coefficients that are next to nothing
    are left out, or kept where it is to be whole."""
    inputs = ", ".join(f"{it.name}: Real" for it in made.inputs)
    states = ", ".join(f"{name}: Real = {as_decimal(start)}" for name, start in form.starts)
    count = len(form.outputs) + len(form.nexts)
    kind = "Real" if count == 1 else f"({', '.join(['Real'] * count)})"
    conditions = [f"{as_decimal(it.lo)} <= {it.name} && {it.name} <= {as_decimal(it.hi)}"
                  + (f" && {it.name} +/- {as_decimal(it.off)}" if it.off else "") for it in made.inputs]
    lines = [f"def {made.name}({inputs}){f'({states})' if states else ''}: {kind} = {{",
              f"  require({' && '.join(conditions)})"]
    lines += [f"  val {name} = {sum_text(one, is_whole)}" for name, one in form.vals]
    results = [sum_text(one, is_whole) for one in [*form.outputs, *form.nexts]]
    lines += [f"  {results[0]}"] if count == 1 else ["  (" + ",\n   ".join(results) + ")"]
    demands = [text for it in made.outputs for text in demands_of(it)]
    names = made.outputs[0].name if made.count == 1 else f"({', '.join(it.name for it in made.outputs)})"
    lines.append("}" + (f" ensuring({names} => {' && '.join(demands)})" if demands else ""))
    return "\n".join(lines) + "\n"


def demands_of(it) -> list:
    found = [f"{it.name} +/- {as_decimal(it.error)}"] if it.error is not None else []
    found += [f"{as_decimal(it.lo)} <= {it.name}"] if it.lo is not None else []
    return found + ([f"{it.name} <= {as_decimal(it.hi)}"] if it.hi is not None else [])
