"""Tells what is wrong with a row: the line, the column, the field, and why."""
from __future__ import annotations

import difflib
import re
from dataclasses import dataclass
from fractions import Fraction

from .exact import as_decimal, fits_a_literal, places_of, read_decimal
from .told import Told, counted

MISSING_MARKS = {"", "nan", "na", "n/a", "null", "none", "inf", "-inf", "+inf", "infinity", "-infinity", "-", "--", "?",
                 "missing", "undefined"}
DROP = "where the sensor has no value, drop such rows before the run: awk -F, '${column} != \"{text}\"' ROWS"
NO_UNITS = ("a column '{name}' has to say which device a row is of, by a number from 0 on; of one device alone: "
            "fixd run FILE < ROWS")
COMMA = "a decimal comma? the decimal point is a point, and commas part the fields: "


@dataclass(frozen=True)
class Field:
    """A field of a line: its text without blanks at its ends, and its column, from 1."""
    text: str
    column: int
    width: int
    open_quote: bool = False


def fields_of(line: str) -> list:
    """Returns the fields of a line as `fixd` cuts it."""
    found, at = [], 0
    while True:
        text, end, is_open = field_at(line, at)
        bare = text.strip(" \t")
        shift = 0 if line[at:at + 1] == '"' else len(text) - len(text.lstrip(" \t"))
        found.append(Field(bare, at + shift + 1, max(1, len(bare) if line[at:at + 1] != '"' else end - at), is_open))
        if end >= len(line):
            return found
        at = end + 1


def field_at(line: str, at: int):
    """Returns a field's text, where its comma is or the line ends, and whether it has a quote that isn't closed."""
    if line[at:at + 1] != '"':
        end = line.find(",", at)
        end = len(line) if end < 0 else end
        return line[at:end], end, False
    text, at = "", at + 1
    while at < len(line):
        if line[at] == '"' and line[at + 1:at + 2] == '"':
            text, at = text + '"', at + 2
        elif line[at] == '"':
            end = line.find(",", at + 1)
            end = len(line) if end < 0 else end
            return text + line[at + 1:end], end, False
        else:
            text, at = text + line[at], at + 1
    return text, len(line), True


def values_of(csv: bytes, inputs: list) -> list:
    """Returns the inputs' values of each row of a file that `fixd run` takes. Of another file it raises ValueError,
    IndexError or ZeroDivisionError."""
    lines = [line.rstrip(b"\r").decode("utf-8", "replace") for line in csv.removeprefix(b"\xef\xbb\xbf").split(b"\n")]
    lines = [line for line in lines if line]
    names = [field.text for field in fields_of(lines[0])]
    places = [names.index(it.name) for it in inputs]
    return [[Fraction(fields_of(line)[place].text) for place in places] for line in lines[1:]]


@dataclass
class Rows:
    """What is known of the rows of a call: the names of the inputs with their ranges, the header's line and the bad
    one."""
    inputs: list
    where: str
    command: str = "run"
    units: int = 0
    header: str = None
    header_line: int = 0
    line: str = None
    number: int = 0


def told(kind: str, rows: Rows, column: str = "") -> Told:
    """Returns what there is to say of a bad row."""
    made = MAKERS[kind](rows, column)
    made.where, made.line = rows.where, made.line or rows.number
    return made


def at_field(rows: Rows, name: str, column: int, why: str, *hints) -> Told:
    """Returns a finding at a field of the bad line."""
    fields = fields_of(rows.line or "")
    here = fields[column] if column < len(fields) else Field("", len(rows.line or "") + 1, 1)
    head = f"field '{name}': {why}"
    return Told(head, "", rows.number, here.column, rows.line or "", here.width, hints=list(hints))


def column_of(rows: Rows, name: str) -> int:
    names = [field.text for field in fields_of(rows.header or "")]
    return names.index(name) if name in names else len(names)


def of_missing(rows: Rows, name: str) -> Told:
    names = [it.name for it in rows.inputs] + (["unit"] if rows.command == "node" else [])
    if rows.line is None or rows.header is None and not rows.line.strip():
        return Told(f"there is no header: the input is empty, or has empty lines alone", "", rows.number,
                    notes=[f"names of the inputs: {', '.join(names)}"],
                    hints=["the first line names the columns, as " + ",".join(names)])
    line, fields = rows.line, fields_of(rows.line)
    shown = [field.text for field in fields]
    head = f"no column is called '{name}'"
    notes = [f"columns: {', '.join(shown)}", f"names of the inputs: {', '.join(names)}"]
    separated = separator_of(line, names)
    if line.startswith(("\ufffd\ufffd", "\xff\xfe")) or "\x00" in line:
        hints = ["the rows are UTF-16: iconv -f UTF-16 -t UTF-8 ROWS > NEW"]
    elif separated:
        hints = [separated]
    elif all(read_decimal(text) is not None for text in shown):
        hints = [f"the first line holds numbers: a header has to stand before them, as: sed '1i {','.join(names)}' "
                 "ROWS"]
    else:
        like = ([text for text in shown if text.lower() == name.lower()]
                or difflib.get_close_matches(name, shown, 1, 0.6))
        hints = ([f"is '{like[0]}' meant? capitals count: sed '1s/\\b{like[0]}\\b/{name}/' ROWS"] if like
                 else [NO_UNITS.format(name=name)] if name not in [it.name for it in rows.inputs]
                 else [f"name the column of this input '{name}', as: sed '1s/\\b{shown[-1]}\\b/{name}/' ROWS, if it "
                       f"is '{shown[-1]}'"])
        quoted = [text for text in shown if '"' in text]
        hints += ["a quote counts as such only where the field begins with it"] if quoted else []
    return Told(head, "", rows.number, 1, line, max(1, len(line)), notes=notes, hints=hints)


def separator_of(line: str, names: list):
    """Returns a hint where other marks than commas part the fields."""
    if ";" in line:
        return ("semicolons part these fields, and commas have to: tr ';' ',' < ROWS; with decimal commas: sed "
                "'s/,/./g; s/;/,/g' ROWS")
    if "\t" in line:
        return ("tabs part these fields, and commas have to: tr '\\t' ',' < ROWS; with decimal commas: sed 's/,/./g; "
                "s/\\t/,/g' ROWS")
    if "," not in line and re.search(r"\S[ |]+\S", line):
        return "blanks or bars part these fields, and commas have to: sed 's/[ |][ |]*/,/g' ROWS"
    return None


def of_twice(rows: Rows, name: str) -> Told:
    fields = [field for field in fields_of(rows.line or "") if field.text == name]
    second = fields[1] if len(fields) > 1 else Field(name, 1, 1)
    return Told(f"{len(fields)} columns are called '{name}'", "", rows.number, second.column, rows.line or "",
                second.width,
                hints=["rename all but the one that is meant"])


def of_few(rows: Rows, name: str) -> Told:
    fields, column = fields_of(rows.line or ""), column_of(rows, name)
    hints = ["fill the field in, or drop the row"]
    opened = next((field for field in fields if field.open_quote), None)
    if opened:
        hints = [f"a quote opens at column {opened.column} and doesn't close, so that the commas behind it part "
                 "nothing: close it or take it out"]
    elif separator_of(rows.line or "", []) and "," not in (rows.line or ""):
        hints = [separator_of(rows.line, [])]
    return Told(f"the row ends before the column of '{name}': it has {counted(len(fields), 'field')}, and '{name}' is "
                f"field {column + 1}", "",
                rows.number, len(rows.line or "") + 1, rows.line or "", hints=hints)


def of_number(rows: Rows, name: str) -> Told:
    column = column_of(rows, name)
    fields = fields_of(rows.line or "")
    field = fields[column] if column < len(fields) else Field("", 1, 1)
    text, value = field.text, read_decimal(field.text)
    if field.open_quote:
        return at_field(rows, name, column, f"a quote opens here and doesn't close, so that the field is '{text}'",
                        "close the quote or take it out")
    if not text:
        return at_field(rows, name, column, "the field is empty", "fill it in; " + drop(text, column))
    if value is not None:
        return at_field(rows, name, column, *too_long(text, value))
    return at_field(rows, name, column, f"'{text}' is no number", number_hint(text, rows, column))


def too_long(text: str, value) -> tuple:
    places = places_of(value)
    if places > 18:
        return (f"{text} has {places} places behind the point, and 18 are the most",
                f"cut or round it before the run, as to {as_decimal(round_to(value, 17))}, and declare what that costs "
                "as the input's error "
                "(docs/recipes.md, 'Numbers of other tools')")
    return (f"{text} has too many digits: without its point a number is below 2^62, some 4.6e18",
            f"round it to fewer places, as {as_decimal(round_to(value, max(0, 17 - len(str(int(abs(value)))))))}"
            if fits_a_literal(round_to(value, 0)) else "scale it, as metres to kilometres")


def round_to(value, places):
    """Returns a number rounded to so many places."""
    return round(value * 10 ** places) / type(value)(10 ** places)


def drop(text: str, column: int) -> str:
    """Returns how rows with a text in a column, counted from 0, are dropped."""
    return DROP.format(column=column + 1, text=text.replace("'", "."))


def number_hint(text: str, rows: Rows, column: int) -> str:
    if "\u2212" in text or "\u2013" in text:
        return "this is the typographic minus: write '-': sed 's/\u2212/-/g' ROWS"
    if text.lower() in MISSING_MARKS:
        return drop(text, column)
    if rows.header is not None and text in [field.text for field in fields_of(rows.header)]:
        return "this is the header once more: where files were put together, leave out all but the first one's"
    if text.startswith(("#", "//")):
        return "a row has no comments: grep -v '^#' ROWS"
    if re.fullmatch(r"[-+]?\d+,\d+", text):
        return COMMA + f"{text.replace(',', '.')}"
    if re.fullmatch(r"[-+]?\d{1,3}([', ]\d{3})+(\.\d*)?", text):
        return f"no marks between thousands: {re.sub(chr(91) + chr(39) + ', ]', '', text)}"
    if re.fullmatch(r"0[xX][0-9a-fA-F]+", text):
        return f"numbers are decimals: {int(text, 16)}"
    shape = re.match(r"[-+]?(\d+\.?\d*|\.\d+)([eE][-+]?\d+)?", text)
    if re.fullmatch(r"\d{4}-\d\d-\d\d.*|\d\d?:\d\d.*", text):
        return "this looks like a date or a time: is the column's name the right one? other columns may hold it"
    if shape and re.fullmatch(r"\s*[A-Za-z%\u00b0/\u00b5\u03a9]+", text[shape.end():]):
        part = f", or {as_decimal(read_decimal(shape[0]) / 100)}" if text.endswith("%") else ""
        return f"without its unit: {shape[0]}{part}: the unit belongs to the column, not to the field"
    if text.lower() in ("true", "false", "on", "off", "yes", "no"):
        return "write 1 or 0"
    if ";" in text or "\t" in text:
        return separator_of(text, [])
    return "a number is a decimal as -1.5 or 2e-3; " + drop(text, column)


def of_range(rows: Rows, name: str) -> Told:
    column = column_of(rows, name)
    one = next(it for it in rows.inputs if it.name == name)
    fields = fields_of(rows.line or "")
    text = fields[column].text if column < len(fields) else ""
    value = read_decimal(text)
    low, high = one.lo - one.off, one.hi + one.off
    widened = (f" ({as_decimal(one.lo if value < low else one.hi)} widened by the error, {as_decimal(one.off)})"
               if one.off else "")
    side, end, by = ("below the least", low, low - value) if value < low else ("above the greatest", high, value - high)
    hints = ["nothing is certified of such a value: hold readings to the range before the run, or give the input what "
             "its sensor can give in 'require', "
             "and make the bundle anew"]
    if abs(value) >= 99 and set(re.sub(r"\D", "", text)) == {"9"}:
        hints.insert(0, "this looks like a mark for a missing value; " + drop(text, column))
    if len(fields) > len(fields_of(rows.header or "")):
        columns = len(fields_of(rows.header or ""))
        hints.insert(0, COMMA + f"this row has {len(fields)} fields, and the header {columns}")
    return at_field(rows, name, column, f"{text} is {side} value, {as_decimal(end)}{widened}, by {as_decimal(by)}",
                    *hints)


def of_long_line(rows: Rows, name: str) -> Told:
    return Told("the line has more than 65,536 bytes", "", rows.number,
                hints=["leave out columns that the function doesn't want, as by cut -d, -f1-8; where lines end by CR "
                       "alone: tr '\\r' '\\n' < ROWS"])


def of_return(rows: Rows, name: str) -> Told:
    at = (rows.line or "").find("\r")
    return Told(f"a carriage return stands within the line", "", rows.number, at + 1, rows.line or "",
                hints=["lines end by LF or by CR LF; where they end by CR alone: tr '\\r' '\\n' < ROWS; else take it "
                       "out: tr -d '\\r' < ROWS"])


def of_no_unit(rows: Rows, name: str) -> Told:
    return of_missing(rows, "unit")


def of_unit_twice(rows: Rows, name: str) -> Told:
    return of_twice(rows, "unit")


def of_unit(rows: Rows, name: str) -> Told:
    column = column_of(rows, "unit")
    fields = fields_of(rows.line or "")
    text = fields[column].text if column < len(fields) else ""
    why = f"'{text}' is no unit" if not re.fullmatch(r"\d+", text) else f"{text} is no unit"
    hints = [f"units are whole numbers from 0 to {rows.units - 1}, by --units {rows.units}"]
    hints.append("raise --units, up to 1024" if re.fullmatch(r"\d{1,4}", text)
                 else "number devices by their names on the way (docs/recipes.md, 'A thousand motors')")
    return at_field(rows, "unit", column, why, *hints)


def of_surplus(where: str, number: int, line: str, header: str, more: int) -> Told:
    """Returns what there is to say of rows that have more fields than the header; `fixd` takes these."""
    count, names = len(fields_of(line)), len(fields_of(header))
    hints = ["what is behind the header's last column isn't read"]
    numbers = re.findall(r"(?<![\d.])(?=([-+]?\d+,\d+))", line)
    if numbers:
        last = numbers[-1]
        hints = [COMMA + f"'{last}' is two of them; write {last.replace(',', '.')}", *hints]
    others = f"; so have {more} further rows" if more > 1 else "; so has one further row" if more == 1 else ""
    return Told(f"{count} fields, and the header has {names}{others}: the row was taken all the same", where, number, 1,
                line, len(line), hints=hints)


MAKERS = {"MissingColumn": of_missing, "TwiceNamed": of_twice, "TooFew": of_few, "BadNumber": of_number,
          "OutOfRange": of_range, "LineTooLong": of_long_line,
          "StrayReturn": of_return, "NoUnitColumn": of_no_unit, "UnitTwice": of_unit_twice, "BadUnit": of_unit}
