"""How a finding is told: a place, what is wrong, the line with a mark under it, what was expected, what to do."""
from __future__ import annotations

import unicodedata
from dataclasses import dataclass, field

MOST = 110


@dataclass
class Told:
    """A finding: its head, where it stands, what could have stood there, and hints."""
    head: str
    where: str = ""
    line: int = 0
    column: int = 0
    text: str = ""
    width: int = 1
    expected: list = field(default_factory=list)
    hints: list = field(default_factory=list)
    notes: list = field(default_factory=list)

    def print_to(self, file) -> None:
        """Writes it as a compiler would."""
        place = self.where + (f":{self.line}" if self.line else "") + (f":{self.column}" if self.column else "")
        print(f"{place}: {self.head}" if place else self.head, file=file)
        if self.line and self.column:
            print(marked(self.line, self.text, self.column, self.width), file=file)
        if self.expected:
            print(f"  expected here: {listed(self.expected)}", file=file)
        for note in self.notes:
            print(f"  {note}", file=file)
        for hint in self.hints:
            print(f"  to mend it: {hint}", file=file)

    def stands_at(self, place, width: int) -> None:
        """Sets the place: a line and column with the line's text, and how many characters are marked."""
        self.line, self.column, self.text, self.width = place.line, place.column, place.text, max(1, width)

    def as_value(self) -> dict:
        """Returns it for a machine."""
        return {"head": self.head, "file": self.where, "line": self.line or None, "column": self.column or None,
                "expected": self.expected,
                "notes": self.notes, "to_mend": self.hints}


def columns_of(text: str) -> int:
    """Returns how many columns of a terminal a text takes."""
    wide = sum(unicodedata.east_asian_width(one) in "WF" for one in text)
    return len(text) + wide - sum(unicodedata.combining(one) > 0 for one in text)


def marked(number: int, text: str, column: int, width: int) -> str:
    """Returns a line of a text with its number, and carets under `width` characters from a column on. Tabs count as one
    blank."""
    text = "".join(one if one.isprintable() else " " for one in text.replace("\t", " "))
    begin = max(0, min(column - 1 - MOST // 2, len(text) - MOST)) if len(text) > MOST else 0
    part, front = text[begin:begin + MOST], f"{number:5} | "
    cut, behind = "..." if begin else "", "..." if begin + MOST < len(text) else ""
    before = columns_of(text[begin:column - 1])
    carets = "^" * max(1, min(columns_of(text[column - 1:column - 1 + width]), MOST))
    return f"{front}{cut}{part}{behind}\n{' ' * 5} | {' ' * (len(cut) + before)}{carets}"


def listed(names, last: str = "or") -> str:
    """Returns names as a list that reads well."""
    names = list(names)
    return names[0] if len(names) == 1 else f"{', '.join(names[:-1])} {last} {names[-1]}" if names else ""


def counted(count: int, one: str) -> str:
    """Returns a count with its noun."""
    return f"{count} {one}" if count == 1 else f"{count} {one}s"
