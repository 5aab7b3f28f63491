"""Figures as the tables of docs/ have them, and a page with what a script made put between its two markers.

The markers are `<!-- NAME -->` and `<!-- end of NAME -->`.
"""
import statistics


def shown(values):
    """Returns figures side by side, a dash where there is none."""
    return " ".join("-" if value is None else f"{value:.3f}" for value in values)


def summed(values, end, places=3):
    """Returns the median of figures and one of their ends, or a dash where there are none."""
    return f"{statistics.median(values):.{places}f}, {end(values):.{places}f}" if values else "-"


def put(path, name, text):
    """Replaces what stands between the markers of this name; ends with an error where they aren't there."""
    begin, end = f"<!-- {name} -->\n", f"<!-- end of {name} -->\n"
    with open(path, encoding="utf-8") as file:
        page = file.read()
    front, rest = page.split(begin)
    with open(path, "w", encoding="utf-8") as file:
        file.write(front + begin + text + end + rest.split(end)[1])
