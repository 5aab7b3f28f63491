"""Wrong bodies: what an edit of must-fail or wrong-bodies changes."""


def changes_of(path):
    """Returns each file that a wrong body changes, with the texts that it takes away and those that take their
    place."""
    changes = []
    with open(path, encoding="utf-8") as lines:
        for line in lines:
            key, _, text = line.rstrip("\n").partition(":")
            text = text.removeprefix(" ")
            if key == "file":
                changes.append((text.strip(), []))
            elif key == "old":
                changes[-1][1].append([text, None])
            elif key == "new":
                changes[-1][1][-1][1] = text
    return changes


def edited(text, pairs):
    """Returns the text with each change made, or why one can't be."""
    for old, new in pairs:
        if new is None or text.count(old) != 1:
            return None, f"{old.strip()!r} stands {text.count(old)} times"
        text = text.replace(old, new)
    return text, None
