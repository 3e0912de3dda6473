"""What README shows: calls with what stands below each, and blocks of lines to be run."""

import os

TOP = os.path.dirname(os.path.dirname(os.path.abspath(__file__)))


def page():
    with open(f"{TOP}/README.md", encoding="utf8") as file:
        return file.read()


def calls():
    """The calls with `$` in front, each with what stands below it."""
    found = []
    for line in page().splitlines():
        if line.startswith("    $ "):
            found.append([line[6:], ""])
        elif line.startswith("    ") and found and found[-1] is not None:
            found[-1][1] += line[4:] + "\n"
        else:
            found.append(None)
    return [call for call in found if call]


def block(front):
    """The lines of the one block that begins with these words."""
    blocks, before = [], ""
    for line in page().splitlines():
        if line.startswith("    "):
            if not before.startswith("    "):
                blocks.append([])
            blocks[-1].append(line[4:])
        before = line
    [found] = [lines for lines in blocks if lines[0].startswith(front)]
    return found
