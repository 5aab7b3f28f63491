"""The pictures of the gallery, as SVG written plainly: errors that were seen, between the lines of the certified
bound."""

WIDTH, HEIGHT, LEFT, TOP = 480, 200, 70, 28
BUCKETS = 160
STYLE = "font-family='sans-serif' font-size='11'"


def number(value):
    return f"{value:.3g}"


def frame(title, bound, from_x, to_x, marks):
    """Returns a picture: the title, the axes with their ends, the bound above and below, and these marks."""
    right, bottom = WIDTH - 10, HEIGHT - 24
    middle = (TOP + bottom) / 2
    reach = (bottom - TOP) / 2 * 0.9
    lines = [
        f"<svg xmlns='http://www.w3.org/2000/svg' width='{WIDTH}' height='{HEIGHT}' {STYLE}>",
        f"<rect width='{WIDTH}' height='{HEIGHT}' fill='white'/>",
        f"<text x='{LEFT}' y='16' font-size='12'>{title}</text>",
        f"<line x1='{LEFT}' y1='{middle:.1f}' x2='{right}' y2='{middle:.1f}' stroke='#bbb'/>",
    ]
    for sign, text in ((-1, number(bound)), (1, number(-bound))):
        y = middle + sign * reach
        lines.append(f"<line x1='{LEFT}' y1='{y:.1f}' x2='{right}' y2='{y:.1f}' stroke='#c00'/>")
        lines.append(f"<text x='{LEFT - 4}' y='{y + 4:.1f}' text-anchor='end' fill='#c00'>{text}</text>")
    lines.append(f"<text x='{LEFT - 4}' y='{middle + 4:.1f}' text-anchor='end'>0</text>")
    lines.append(f"<text x='{LEFT}' y='{HEIGHT - 8}'>{from_x}</text>")
    lines.append(f"<text x='{right}' y='{HEIGHT - 8}' text-anchor='end'>{to_x}</text>")
    scale = reach / bound if bound else 0.0
    lines += marks(lambda part: LEFT + part * (right - LEFT), lambda error: middle - error * scale)
    return "\n".join(lines) + "\n</svg>\n"


def error_over_input(title, inputs, errors, bound):
    """Strokes from the least to the greatest error where the first input was that."""
    low, high = min(inputs), max(inputs)
    span = (high - low) or 1.0
    buckets = {}
    for value, error in zip(inputs, errors):
        k = min(BUCKETS - 1, int((value - low) / span * BUCKETS))
        least, most = buckets.get(k, (error, error))
        buckets[k] = (min(least, error), max(most, error))

    def marks(x, y):
        path = " ".join(f"M{x((k + 0.5) / BUCKETS):.1f},{y(most):.1f}V{max(y(least), y(most) + 0.5):.1f}"
                        for k, (least, most) in sorted(buckets.items()))
        return [f"<path d='{path}' stroke='#069' stroke-width='2' fill='none'/>"]

    return frame(title, bound, number(low), number(high), marks)


def error_over_time(title, errors, bound):
    """The error row after row."""
    last = max(1, len(errors) - 1)

    def marks(x, y):
        points = " ".join(f"{x(n / last):.1f},{y(error):.1f}" for n, error in enumerate(errors))
        return [f"<polyline points='{points}' stroke='#069' fill='none'/>"]

    return frame(title, bound, "row 1", f"row {len(errors)}", marks)
