"""The page of a device's folder, which says what is proved, and what both languages write alike."""
from __future__ import annotations

from fractions import Fraction

from .exact import dyadic, places_of


def decimal_of(value: Fraction) -> tuple:
    """Returns whole digits and a count of places that spell a value of a row."""
    count = places_of(value)
    return int(value * 10 ** count), count


def page(plan, language: str, text: str, rest: list) -> str:
    """Returns the page that says what is proved."""
    known = (f"The `fixd` that judged the bundle and printed the text: {plan.program}." if plan.program
             else "The `fixd` that judged the bundle and printed the text isn't one that `fixd-tools` knows: whether "
                  "it is the proved program can't be said here.")
    lines = [f"# {plan.header}, for a device", "",
             f"Written by `fixd-tools device --language {language}` from `{plan.name}.bundle`, which `fixd check` "
             "accepts.", "",
             "| | word | stands for | range | words |", "|---|---|---|---|---|"]
    lines += [f"| input {it.name} | {k} | word / 2^{it.point} | {it.text} | {it.least} to {it.greatest} |"
              for k, it in enumerate(plan.inputs)]
    lines += [f"| state {name} | {k} | word / 2^{point} | | {start} before the first step |" for k,
              (name, start, point) in enumerate(plan.states)]
    lines += [f"| output {it.name} | {k} | word / 2^{it.point} | within {dyadic(it.bound)} of the exact value | |"
              for k, it in enumerate(plan.outputs)]
    lines += ["", "**What is certified.** On all rows in these ranges no intermediate of the program leaves its word, "
                  "no divisor is zero, and each output is within its bound of the exact",
              "value of the source, state carried exactly from the first row. Of a value outside a range nothing is "
              "certified: `step` holds each word to its range, so that",
              "nothing overflows, and what comes then is the answer to another value than the sensor's.", "",
              f"**What is proved of the text.** {text}", "",
              "**What isn't proved**: what stands around that text in this folder; that a compiler keeps its meaning; "
              "that the true value lies where `require` says. The test",
              f"runs {len(plan.rows)} rows through the compiled step and compares each answer with that of `fixd run`.",
              "", known, ""]
    return "\n".join([*lines, *rest, ""])
