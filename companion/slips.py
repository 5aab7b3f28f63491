"""The usual slips in a source: each function returns a hint where the token at the fault, and those about it, look like
its slip."""
from __future__ import annotations

from fractions import Fraction

from .exact import as_decimal, fits_a_literal, read_decimal, shown
from .reader import RELATIONS

CHARACTERS = {
    "#": "a comment begins with '//', or stands between '/*' and '*/'",
    "^": "there are no powers: write the product, 'x * x' for 'x^2'",
    "%": "there is no remainder: take it outside, and make what is left an input with its range",
    "&": "'and' is written '&&'",
    "|": "there is no 'or': a range has one least and one greatest value, joined by '&&'",
    "!": "there is no 'not' and no '!='",
    "?": "there is no choice between two values: choose outside, and make the choice an input with its range",
    "[": "there are no lists: name each value, as x0, x1, x2",
    "]": "there are no lists: name each value, as x0, x1, x2",
    "\ufeff": "this is a byte order mark that an editor put there: save the file as 'UTF-8 without BOM', or: sed -i "
              "'1s/^\\xEF\\xBB\\xBF//' FILE",
    "\u2264": "write '<='", "\u2265": "write '>='", "\u2212": "this is the typographic minus: write '-'",
    "\u2013": "this is a dash: write '-'", "\u2014": "this is a dash: write '-'", "\u00d7": "write '*'",
    "\u00b7": "write '*'", "\u00f7": "write '/'",
    "\u00b1": "write '+/-'", "\u00a0": "this is a no-break space: put a plain blank in its place",
    "'": "there is no text in a source: comments begin with '//'",
    '"': "there is no text in a source: comments begin with '//'", "~": "there is no such operator",
    "@": "there are no annotations",
    "\\": "an expression goes on in the next line by itself, where its line ends with an operator",
}
TYPES = {"Float", "Double", "Int", "Integer", "float", "double", "int", "real", "f32", "f64", "Long", "Short", "Number",
         "i16", "i32", "Fixed"}
NAME_FOR_ENSURING = ("name the outputs first: 'ensuring(out => out +/- 0.001)', of several '(a, b) => a +/- 0.1 && b "
                     "+/- 0.2'")


def nearest_literal(value: Fraction):
    """Returns a number near by that a source may have, with as many places as there may be."""
    for places in range(18, -1, -1):
        found = Fraction(round(value * 10 ** places), 10 ** places)
        if fits_a_literal(found):
            return found
    return None


def slip_power(it, text):
    if text == "*" and it.near(-1) == "*":
        return f"there are no powers: write the product, '{it.near(-2)} * {it.near(-2)}' for '{it.near(-2)} ** 2'"


def slip_chain(it, text):
    if text in RELATIONS and it.where in ("require", "ensuring") and it.kind_near(-1) in ("name", "number"):
        return (f"comparisons don't chain: write '{it.near(-3)} {it.near(-2)} {it.near(-1)} && {it.near(-1)} {text} "
                f"{it.near(1)}'")


def slip_comparison(it, text):
    if text in RELATIONS and it.where == "body":
        return ("there are no comparisons in an expression, and no choice: choose outside, and make the choice an "
                "input with its range")


def slip_comma_number(it, text):
    if text == "," and it.kind_near(-1) == "number" and it.kind_near(1) == "number":
        return f"the decimal point is a point: {it.near(-1)}.{it.near(1)}"


def slip_comma_conditions(it, text):
    if text == "," and it.where in ("require", "ensuring"):
        return "conditions are joined by '&&', not by ','"


def slip_fraction(it, text):
    if text in "/*" and it.where in ("require", "ensuring",
                                     "states") and it.kind_near(-1) == "number" and it.kind_near(1) == "number":
        first, second = read_decimal(it.near(-1)), read_decimal(it.near(1))
        if second:
            value = first / second if text == "/" else first * second
            best = nearest_literal(value)
            exact = "" if best == value else f", which is {shown(abs(best - value), 2, True)} off"
            return (f"a number stands here, not an expression: write {as_decimal(best)}{exact}" if best is not None
                    else None)


def slip_arithmetic(it, text):
    if text in ("+", "-", "*", "/") and it.where in ("require", "ensuring", "states"):
        return ("a condition has one name and one number, no expressions: work the number out, or make the expression "
                "an input of its own")


def slip_point(it, text):
    if text == "." and it.kind_near(1) == "number":
        return f"a number begins with a digit: 0.{it.near(1)}"
    if text == "." and it.kind_near(-1) == "number":
        return f"digits have to stand behind the point: {it.near(-1)}.0, or {it.near(-1)} without it"
    if text == ".":
        return "there are no members: a name stands alone"


def slip_plus(it, text):
    if text == "+" and it.near(-1) in ("(", "=", "*", "/", "+", "-", ",", "<=", ">=", "<", ">", ""):
        return "no '+' before a number or a name: leave it out"


def slip_type(it, text):
    if it.known.get("real"):
        if text in TYPES or it.kind_near(0) == "name":
            return (f"the type is always 'Real', an exact number: write it for '{text}'; the width of the words is "
                    "chosen by --width")
        return "a type is missing: ': Real'"


def slip_no_type(it, text):
    typed = it.known.get("typed")
    if typed:
        return f"each input and state has a type: '{typed}: Real'"
    if it.where == "type" and text in ("=", "{") and "':'" in (it.fault.expected if it.fault else []):
        return "the function's type is missing: ': Real' before the '=', of several results ': (Real, Real)'"
    if it.where == "type" and text == "{":
        return "the '=' before the brace is missing: ': Real = {'"
    if it.where == "type":
        return "a function's head is 'def f(x: Real): Real = {'"


def slip_start(it, text):
    start = it.known.get("start")
    if start:
        return f"a state has a start, one number: '{start}: Real = 0.0'"


def slip_no_input(it, text):
    if it.where == "inputs" and text == ")":
        return "a function has an input at least, with its range"


def slip_ensuring(it, text):
    if it.where == "ensuring" and it.known.get("arrow"):
        return NAME_FOR_ENSURING
    if it.where == "ensuring" and text == "(":
        return "demands have no parentheses around them: take these out"
    if it.where == "ensuring" and it.kind_near(0) == "number" and it.near(-1) == "(":
        return NAME_FOR_ENSURING


def slip_equals(it, text):
    if text == "=" and it.where in ("require", "ensuring"):
        name, value = it.near(-1), next((it.near(k) for k in (1, 2) if it.kind_near(k) == "number"), "0.5")
        return f"ends are given by '<=' and '>=': a fixed value is '{value} <= {name} && {name} <= {value}'"
    if text == "=" and it.near(-1) in ("+", "-", "*", "/") and it.where == "body":
        return "values don't change: name the new one, as 'val next = ..'; what lasts from row to row is a state"
    if text == "=" and it.kind_near(-1) == "name":
        return f"to name a value, write 'val' before it: 'val {it.near(-1)} = ..'"


def slip_minus(it, text):
    if text == "-" and it.token.first:
        return "a line that begins with '-' begins a new expression: put the '-' at the end of the line before"
    previous = next((k for k in range(it.index - 1, max(it.index - 40, -1), -1) if it.tokens[k].first), None)
    if previous is not None and it.tokens[previous].text == "-" and it.where == "body":
        return (f"the line that begins with '-' ({it.line_at(it.tokens[previous].at)}) began a new expression: put "
                "that '-' at the end of the line before")


def slip_two_results(it, text):
    if text == "," and it.where == "body" and it.known.get("opened") is not None:
        return "several results want as many in the type: ': (Real, Real)'"
    if it.known.get("results"):
        return (f"the type has {it.known['results']} results: write them in parentheses, parted by commas: the "
                "outputs, then the next states")


def slip_parenthesis(it, text):
    opened = it.known.get("opened")
    if opened is not None and text in ("}", "val", "def", "ensuring", ";"):
        return f"the '(' of {it.line_at(opened)} isn't closed: a ')' is missing before this"


def slip_brace(it, text):
    if it.known.get("outside") and text == "}":
        return "one '}' too many"
    if it.known.get("outside") and it.near(-1) != "":
        return "behind a function only another 'def', or 'ensuring(..)', may stand" if it.kind_near(-1) else None
    if it.known.get("outside"):
        return ("a source begins with 'def', as 'def f(x: Real): Real = { require(0 <= x && x <= 1) 0.5 * x }', after "
                "'import' lines and one 'object NAME {' if you like")
    if it.where == "require" and text != "require" and not it.known.get("condition"):
        return "in the braces 'require(..)' comes first" if it.near(-1) == "{" else None


def slip_late_val(it, text):
    if text == "val" and it.known.get("behind_result"):
        return ("a 'val' stands before the result: an expression alone ends the function; is a 'val NAME =' missing "
                "before it, or an operator?")
    if text == "require":
        return "one 'require', first in the braces: join all conditions by '&&'"


def slip_behind_number(it, text):
    if it.known.get("behind_result") and it.kind_near(0) in ("name", "number") and it.near(-1) == ")":
        return f"an operator is missing before '{text}': a product is written with '*'"
    if text == "(" and it.where == "body":
        return "an operator is missing before '(': a product is written with '*'"
    if text == "{":
        return "no braces within a function: parts of it are named by 'val'"
    if text == ":" and it.where == "body":
        return "only a 'val' may have a type: 'val y: Real = ..'"


def slip_word(it, text):
    if text in ("and", "or", "not"):
        return {"and": "'and' is written '&&'", "or": CHARACTERS["|"], "not": CHARACTERS["!"]}[text]


def slip_separator(it, text):
    if it.where in ("inputs", "states") and it.kind_near(0) == "name" and it.near(-1) == "Real":
        return f"a ',' is missing before '{text}'"
    if text == "=" and it.near(-1) == ":":
        return "a value is named by '=' alone: 'val y = ..'"
    if it.where == "require" and it.near(-1) == "require":
        return "conditions stand in parentheses: 'require(0 <= x && x <= 1)'"
    if text == ")" and it.where == "body" and it.known.get("behind_result"):
        return "one ')' too many"
    if text == "," and it.where == "body" and "opened" not in it.known:
        return "no ',' behind an expression: a line's end or ';' parts what follows"


SLIPS = [slip_power, slip_word, slip_comma_number, slip_separator, slip_chain, slip_comparison, slip_fraction,
         slip_comma_conditions, slip_point,
         slip_ensuring, slip_type, slip_start,
         slip_no_type, slip_no_input, slip_equals, slip_minus, slip_plus, slip_arithmetic, slip_two_results,
         slip_parenthesis, slip_late_val, slip_brace,
         slip_behind_number]
