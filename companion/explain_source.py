"""Tells a source's first fault: what stands there, what could have, and how the usual slips are mended."""
from __future__ import annotations

import difflib
import re

from .exact import as_decimal, places_of, read_decimal, shown
from .reader import Fault, tokens_of
from .sources import function_of, place_of
from .slips import CHARACTERS, SLIPS, nearest_literal
from .told import Told, counted, listed

POLYNOMIAL = ("take a polynomial in its place, over the range of what stands in it, and add what it is off to the "
              "certified bound")
CLAMP = ("limits are set outside: hold the input to its range before the call, and demand ends of the output by "
         "'ensuring(out => 0 <= out && out <= 1)'")
# for each call a polynomial, what it stands for, how far it is off at most, and how far from 0
POLYNOMIALS = {
    "sin": ("x - x*x*x/6 + x*x*x*x*x/120", "sin(x)", "0.0002", "1"),
    "cos": ("1 - x*x/2 + x*x*x*x/24", "cos(x)", "0.0014", "1"),
    "tan": ("x + x*x*x/3", "tan(x)", "0.0047", "0.5"), "atan": ("x - x*x*x/3", "atan(x)", "0.0054", "0.5"),
    "tanh": ("x - x*x*x/3", "tanh(x)", "0.0038", "0.5"), "asin": ("x + x*x*x/6", "asin(x)", "0.0028", "0.5"),
    "acos": ("1.570796327 - x - x*x*x/6", "acos(x)", "0.0028", "0.5"),
    "exp": ("1 + x + x*x/2 + x*x*x/6", "exp(x)", "0.0029", "0.5"),
    "log": ("x - x*x/2 + x*x*x/3", "log(1 + x)", "0.0005", "0.2"),
    "ln": ("x - x*x/2 + x*x*x/3", "ln(1 + x)", "0.0005", "0.2"),
    "sqrt": ("1 + x/2 - x*x/8", "sqrt(1 + x)", "0.0006", "0.2")}
CALLS = {**dict.fromkeys(("min", "max", "abs", "clamp", "saturate", "round", "floor"), CLAMP),
         **{name: f"{POLYNOMIAL}: '{text}' is within {off} of {of} for x from -{end} to {end}"
            for name, (text, of, off, end) in POLYNOMIALS.items()},
         "pow": "write the product, 'x * x' for 'pow(x, 2)'"}
WORDS = {
    "if": "there is no choice: write a function for each case and choose outside, or make the choice an input with its "
          "range, as a factor from 0 to 1",
    "else": "there is no choice: write a function for each case and choose outside",
    "while": "there are no loops: write each turn out, or make what a turn leaves a state: each row is one turn",
    "for": "there are no loops: write each turn out, or make what a turn leaves a state: each row is one turn",
    "match": "there is no choice: write a function for each case and choose outside",
    "var": "values don't change: name each by 'val'; what lasts from row to row is a state, in a second list of "
           "parameters: 'def f(u: Real)(s: Real = 0.0)'",
    "return": "the result stands alone as the last expression, without 'return'",
    "true": "there are no truth values", "false": "there are no truth values",
    "new": "'new' is a word of other languages and can't be a name: take another, as 'newest'",
}
CONSTANTS = {"pi": "3.14159265358979324", "PI": "3.14159265358979324", "Pi": "3.14159265358979324",
             "e": "2.71828182845904524"}


def told(data: bytes, kind: str, at: int, where: str, function: str = None, first_line: int = 1) -> Told:
    """Returns what there is to say of a fault that `fixd` found in a source. `first_line` is the source's first line in
    the file."""
    known = found_here(data, kind, at, function)
    maker = MAKERS.get(kind, of_unexpected)
    made = maker(Context(data, kind, at, known))
    place = place_of(data, made.at if made.at is not None else min(at, len(data.rstrip())) if kind == "EndOfText"
                     else at)
    if kind in ("NoSuchFunction", "WhichFunction"):
        return Told(made.head, where, hints=made.hints, notes=made.notes)
    if place.column > len(place.text) + 1:
        place = type(place)(place.line, len(place.text) + 1, place.text)
    return Told(made.head, where, place.line + first_line - 1, place.column, place.text, made.width,
                expected_of(known, made), made.hints, made.notes)


def expected_of(known, made) -> list:
    """Returns what could have stood at a fault; where a line begins with '-', the one that would go on isn't meant."""
    if not known or made.hides:
        return []
    return [it for it in known.expected if not known.found or it != f"'{known.found.text}'"]


def found_here(data, kind, at, function):
    """Returns this reader's own fault where it is the one that `fixd` found, else None."""
    try:
        function_of(data, function)
    except Fault as fault:
        return fault if (fault.kind, fault.at) == (kind, at) else None
    except RecursionError:
        return None
    return None


class Context:
    """What is known of a fault, and the tokens about it."""

    def __init__(self, data, kind, at, fault):
        self.data, self.kind, self.at, self.fault = data, kind, at, fault
        self.known = fault.known if fault else {}
        try:
            self.tokens = tokens_of(data)
        except Fault:
            self.tokens = []
        self.index = next((k for k, it in enumerate(self.tokens) if it.at == at), len(self.tokens))
        self.token = self.tokens[self.index] if self.index < len(self.tokens) else None

    @property
    def where(self) -> str:
        return self.known.get("where", "")

    def near(self, ahead: int) -> str:
        """Returns the text of a token near the one at the fault, or nothing."""
        k = self.index + ahead
        return self.tokens[k].text if 0 <= k < len(self.tokens) else ""

    def kind_near(self, ahead: int) -> str:
        k = self.index + ahead
        return self.tokens[k].kind if 0 <= k < len(self.tokens) else ""

    def line_at(self, at: int) -> str:
        place = place_of(self.data, at)
        return f"line {place.line}, column {place.column}"


class Saying:
    """A head with its hints; `at` moves the mark, `hides` leaves out what was expected."""

    def __init__(self, head, hints=(), notes=(), width=1, at=None, hides=False):
        self.head, self.hints, self.notes = head, list(hints), list(notes)
        self.width, self.at, self.hides = width, at, hides


def of_utf8(it: Context) -> Saying:
    byte = it.data[it.at]
    hints = ["save the file as UTF-8; of one in Windows' or Latin letters: iconv -f WINDOWS-1252 -t UTF-8 FILE > NEW"]
    if it.data[:2] in (b"\xff\xfe", b"\xfe\xff"):
        hints = ["the file is UTF-16: save it as UTF-8, or: iconv -f UTF-16 -t UTF-8 FILE > NEW"]
    return Saying(f"the byte {byte:02X} isn't UTF-8 text", hints)


def of_character(it: Context) -> Saying:
    text = it.data[it.at:it.at + 4].decode("utf-8", "ignore")[:1]
    name = f"'{text}'" if text.isprintable() and not text.isspace() else f"the character U+{ord(text):04X}"
    hint = CHARACTERS.get(text)
    if re.match(rb"\|\s*\w+\s*\|", it.data[it.at:]):
        inner = it.data[it.at:].split(b"|")[1].strip().decode("utf-8", "replace")
        name, hint = f"'|{inner}|'", f"there is no absolute value: write both ends, as '-1 <= {inner} && {inner} <= 1'"
    if hint is None and text.isalpha():
        hint = "a name has the letters A to Z and a to z, digits and '_': write it with these"
    return Saying(f"{name} can't stand in a source", [hint or "take it out"])


def of_number(it: Context) -> Saying:
    text, behind = it.known.get("text", ""), it.known.get("behind", "")
    whole = text + behind
    if re.fullmatch(r"[fFdDlL]", behind):
        hints = [f"write {text}: a literal is the exact number that it spells, and has no letter behind it"]
    elif re.fullmatch(r"0", text) and behind[:1] in "xXbB":
        value = int(whole, 0) if re.fullmatch(r"0[xX][0-9a-fA-F]+|0[bB][01]+", whole) else None
        hints = [f"numbers are decimals: write {value}" if value is not None else "numbers are decimals"]
    elif behind.startswith("_"):
        hints = [f"no '_' within a number: write {whole.replace('_', '')}"]
    elif behind in ("e", "E"):
        hints = ["digits have to stand behind the 'e', as in 1e-3"]
    else:
        hints = [f"put an operator between number and name: {text} * {behind}"]
    return Saying(f"'{whole}' is neither a number nor a name: a letter stands directly behind a number", hints,
                  width=len(whole))


def of_long_number(it: Context) -> Saying:
    text = it.known.get("text", "")
    value = read_decimal(text) if text else None
    if value is None:
        return Saying("a number is out of its limits", ["18 decimal places at most, and below 2^62 without its point"])
    places, limit = places_of(value), 2 ** 62
    why = (f"it has {places} decimal places, and 18 are the most" if places > 18
           else f"without its point it isn't below 2^62, {limit}")
    best = nearest_literal(value)
    hints = [f"write {as_decimal(best)}, which is {shown(abs(best - value), 2, True)} off at most: that times what it "
             "is multiplied by comes to the bound"
             if best is not None else "scale what it stands for, as metres to kilometres"]
    return Saying(f"the number is out of its limits: {why}", hints, width=len(text))


def of_end(it: Context) -> Saying:
    opens = it.known.get("comment")
    if opens:
        inner = f"; the comment within it at {it.line_at(opens[-1])} isn't closed either" if len(opens) > 1 else ""
        return Saying("a comment begins here and never ends",
                      [f"close it by '*/': comments nest, so that each '/*' wants one{inner}"], width=2, at=opens[0],
                      hides=True)
    open_now = []
    for token in it.tokens:
        if token.text in ("(", "{"):
            open_now.append(token)
        elif token.text in (")", "}") and open_now:
            open_now.pop()
    notes = [f"'{token.text}' of {it.line_at(token.at)} isn't closed" for token in open_now]
    closing = "".join({"(": ")", "{": "}"}[token.text] for token in reversed(open_now))
    hints = ([f"what is open wants {listed([repr(one) for one in closing], 'and then')}"] if closing
             else ["write what is expected here"])
    return Saying("the text ends too early", hints, notes)


def of_unknown(it: Context) -> Saying:
    name, near = it.known.get("unknown", it.token.text if it.token else ""), it.known.get("near", [])
    kind, hints, width = it.known.get("kind", "expression"), [], len(name)
    like = difflib.get_close_matches(name, near, 1, 0.6)
    whole = it.data.decode("utf-8", "replace")
    later = re.search(rf"\bval\s+{re.escape(name)}\b", whole)
    if kind == "input":
        head = f"no input is called '{name}'"
        if re.search(rf"\b{re.escape(name)}\s*:\s*Real\s*=", whole):
            hints.append(f"'{name}' is a state, and 'require' has inputs alone: the range of a state is found, not "
                         "declared; take the condition out")
        if it.near(1) == "(":
            hints.append("a condition has one name and one number: no calls")
    elif kind == "output":
        head = f"no output is called '{name}'"
        hints.append(f"'ensuring' speaks of the names before its '=>': {listed(near)}")
    else:
        head = f"nothing above is called '{name}'"
        if name in CONSTANTS:
            hints.append(f"there are no constants by name: write {CONSTANTS[name]}")
        elif name in ("let", "const", "float", "double", "auto", "real", "int"):
            hints.append(f"a value is named by 'val': 'val {it.near(1) or 'y'} = ..'")
        elif it.near(1) in ("=", ":"):
            hints.append(f"to name a value, write 'val' before it: 'val {name} = ..'")
        elif later and later.start() > it.at:
            hints.append(f"'{name}' is a 'val' of {it.line_at(later.start())}: it can be used behind its line alone; "
                         "move it up")
        elif later:
            hints.append(f"within its own 'val' '{name}' isn't known yet: what lasts from row to row is a state, 'def "
                         f"f(u: Real)({name}: Real = 0.0)'")
        elif name == it.known.get("function"):
            hints.append("that is the function's own name, and functions can't be called")
    if like:
        hints.insert(0, f"is '{like[0]}' meant?")
    what = {"input": "inputs", "output": "outputs"}.get(kind, "names that may stand here")
    notes = [f"{what}: {', '.join(near)}"] if near else []
    if not hints:
        hints = ["name one of these" + ("" if kind == "output" else f", or make '{name}' an input with its range")]
    return Saying(head, hints, notes, width, hides=True)


def of_twice(it: Context) -> Saying:
    name, end = it.known.get("twice", ""), it.known.get("end")
    ends = {"lo": "two least values", "hi": "two greatest values", "error": "two errors"}
    if end:
        return Saying(f"'{name}' is given {ends[end]}", ["leave one of them: '<' and '<=' both declare a closed end"],
                      width=len(name), hides=True)
    first = re.search(rf"\b{re.escape(name)}\b", it.data.decode("utf-8", "replace"))
    notes = [f"the first one stands at {it.line_at(first.start())}"] if first and first.start() < it.at else []
    return Saying(f"'{name}' is the name of something else already", ["take another name here"], notes, len(name),
                  hides=True)


def of_no_range(it: Context) -> Saying:
    lacking = it.known.get("lacking", [])
    names = [f"{name}: {what}" for name, what in lacking]
    example = " && ".join(f"-1 <= {name} && {name} <= 1" for name, _ in lacking[:3]) or "-1 <= x && x <= 1"
    late = next((it.tokens[k] for k in range(len(it.tokens)) if it.tokens[k].text == "require"), None)
    if lacking and all(what == "no 'require'" for _, what in lacking) and late:
        return Saying("'require' has to come first in the braces", [f"move the 'require' of {it.line_at(late.at)} up, "
                      "before each 'val'"], width=len(lacking[0][0]), hides=True)
    if lacking and all(what == "no 'require'" for _, what in lacking):
        return Saying("the function has no 'require': each input has to have a least and a greatest value",
                      [f"write as the first line in the braces what each input can be, as 'require({example})'"],
                      width=len(lacking[0][0]), hides=True)
    return Saying(f"{counted(len(lacking), 'input')} without a whole range" if len(lacking) != 1
                  else f"the input '{lacking[0][0]}' has no whole range",
                  [f"give both ends in 'require', joined by '&&': as '{example}' with the numbers that the sensor can "
                   "give"], names,
                  len(lacking[0][0]) if lacking else 1, hides=True)


def of_empty(it: Context) -> Saying:
    one = it.known.get("empty")
    if one is None:
        return Saying("a least value is above the greatest", ["exchange the ends"], hides=True)
    low, high = as_decimal(one.lo), as_decimal(one.hi)
    return Saying(f"the least value of '{one.name}', {low}, is above its greatest, {high}",
                  [f"exchange them: '{high} <= {one.name} && {one.name} <= {low}'"],
                  width=len(one.name), hides=True)


def of_deep(it: Context) -> Saying:
    return Saying("more than 200 parentheses are open here" if it.known.get("parentheses")
                  else "this expression's tree is higher than 200",
                  ["name parts of it by 'val'; add many terms in pairs, as (a + b) + (c + d)"], hides=True)


def of_many(it: Context) -> Saying:
    what, limit, count = it.known.get("what", "parts"), it.known.get("limit", ""), it.known.get("count")
    return Saying(f"the function has more than {limit} {what}" + (f": {count}" if count else ""),
                  ["split the function in two: an output of the first, with its certified range and error, is an input "
                   "of the second (docs/recipes.md)"], hides=True)


def of_unsupported(it: Context) -> Saying:
    word, call, compares = it.known.get("word"), it.known.get("call"), it.known.get("compares")
    if word:
        return Saying(f"no '{word}' in this language", [WORDS[word]], width=len(word))
    if call:
        hint = CALLS.get(call) or f"write out what '{call}' computes, by 'val's"
        if call in it.known.get("names", []):
            hint = f"'{call}' is a name: a product is written '{call} * (..)'"
        return Saying(f"no function can be called, and so not '{call}'", [hint],
                      ["expressions have + - * /, names, numbers and parentheses"], len(call), hides=True)
    if compares == "names":
        return Saying("a condition compares a name with a number, not two names",
                      ["give each of them its range; where they hang on one another, make their difference an input of "
                       "its own"], hides=True)
    if compares == "numbers":
        return Saying("a condition compares a name with a number, not two numbers",
                      ["write each end by itself: '0 <= x && x <= 1'"], hides=True)
    text = it.token.text if it.token else ""
    return Saying(f"'{text}' isn't in this language",
                  [WORDS.get(text, "expressions have + - * /, names, numbers and parentheses")], width=len(text) or 1)


def of_arity(it: Context) -> Saying:
    known = it.known
    if "states" in known:
        return Saying(f"the type has {counted(known['reals'], 'result')}, and the {counted(known['states'], 'state')} "
                      f"and one output at least want {known['states'] + 1}",
                      [f"the results are the outputs and then a next state for each state: ': "
                       f"({', '.join(['Real'] * (known['states'] + 1))})', and as many values in parentheses"],
                       hides=True)
    if "results" in known:
        return Saying(f"{counted(known['results'], 'result')} where the type has {known['reals']}",
                      ["write as many as the type has: the outputs, and then the next states"], hides=True)
    if "named" in known:
        return Saying(f"'ensuring' names {counted(known['named'], 'output')} of {known['outputs']}",
                      ["name the outputs, all of them and no next state: '(a, b) => ..'; one alone needs no "
                       "parentheses"], hides=True)
    return Saying("counts don't agree", ["type and results have the outputs and then a next state for each state"],
                  hides=True)


def of_function(it: Context) -> Saying:
    names, wanted = it.known.get("functions", []), it.known.get("wanted")
    if not names:
        return Saying("there is no function in this source",
                      ["a function begins with 'def': def f(x: Real): Real = { require(0 <= x && x <= 1) x }"])
    like = difflib.get_close_matches(wanted or "", names, 1, 0.5)
    return Saying(f"no function is called '{wanted}'" if wanted else "the wanted function isn't there",
                  [f"is '{like[0]}' meant?" if like else "take one of these by --function NAME"],
                  [f"functions: {', '.join(names)}"])


def of_which(it: Context) -> Saying:
    names = it.known.get("functions", [])
    return Saying("there are several functions, and it isn't said which is meant",
                  [f"say it by --function {names[0] if names else 'NAME'}"], [f"functions: {', '.join(names)}"])


def of_unexpected(it: Context) -> Saying:
    if it.token is None:
        return Saying("what stands here can't", ["docs/messages.md has what often brings this"])
    text, hints = it.token.text, []
    for slip in SLIPS:
        hint = slip(it, text)
        if hint:
            hints.append(hint)
            break
    before = it.near(-1)
    if not hints and before:
        hints = ["look at what stands before it too: something may be missing there" if it.kind_near(0) != "name"
                 or it.kind_near(-1) not in ("name", "number")
                 else f"an operator is missing between '{before}' and '{text}'"]
    kind = {"word": "the word ", "name": "the name "}.get(it.token.kind, "")
    return Saying(f"{kind}'{text}' can't stand here", hints, width=len(text))


MAKERS = {"BadUtf8": of_utf8, "BadCharacter": of_character, "BadNumber": of_number, "NumberTooLong": of_long_number,
          "EndOfText": of_end,
          "Unexpected": of_unexpected, "UnknownName": of_unknown, "NamedTwice": of_twice, "NoRange": of_no_range,
          "EmptyRange": of_empty, "TooDeep": of_deep,
          "TooMany": of_many, "Unsupported": of_unsupported, "WrongArity": of_arity, "NoSuchFunction": of_function,
          "WhichFunction": of_which}
