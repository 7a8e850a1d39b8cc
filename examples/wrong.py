"""Journals of which a line was changed, dropped, doubled or moved, and whether `audit` and `judge` say one thing of them."""

import os
import re
import sys

sys.path.insert(0, os.path.join(os.path.dirname(os.path.dirname(os.path.abspath(__file__))), "scripts"))
import rules

# What stands in place of an act.
OTHERS = {"accept": "full", "full": "accept", "already": "no-port", "no-port": "gone", "done": "late", "late": "done", "choose": "no-member"}
OTHERS |= {"outstanding": "cancel", "cancel": "outstanding", "join": "leave", "leave": "join", "there": "not-there", "not-there": "there"}
LAYOUTS = [(16, 1)] * 12 + [(16, 2), (16, 4), (2, 1), (1, 4), (3, 2)]


def changed_field(field, draw):
    """Another field of the kind: a number, a name or an id."""
    if field.isdigit():
        return str(max(0, int(field) + draw.choice([-1, 1, 2])))
    if re.fullmatch(r"\d+\.[apg]\.\d+", field):
        site, kind, number = field.split(".")
        return draw.choice([f"{int(site) + 1}.{kind}.{number}", f"{site}.{kind}.{int(number) + 1}", f"{site}.{draw.choice('apg')}.{number}"])
    if re.fullmatch(r"\d+:\d+:\d+", field):
        parts, at = field.split(":"), draw.randrange(3)
        parts[at] = str(max(0, int(parts[at]) + draw.choice([-1, 1])))
        return ":".join(parts)
    return OTHERS.get(field, field)


def changed(lines, draw):
    """The lines with one change."""
    lines, at = list(lines), draw.randrange(len(lines))
    how = draw.choice(["drop", "double", "move", "exchange", "field", "field", "field", "field"])
    fields = lines[at].split(" ")
    if how == "drop":
        del lines[at]
    elif how in ("double", "move"):
        line = lines[at] if how == "double" else lines.pop(at)
        lines.insert(draw.randrange(len(lines) + 1), line)
    elif how == "exchange":
        lines[at] = " ".join([*fields[:3], *draw.choice(lines).split(" ")[3:]])
    elif fields[3] == "take" and draw.random() < 0.2:
        lines[at] = " ".join([*fields[:3], "empty", fields[4]])
    else:
        field = draw.randrange(len(fields))
        fields[field] = changed_field(fields[field], draw)
        lines[at] = " ".join(fields)
    return lines


def drawn(lines, draw):
    """Lines with one change or two, mostly with clocks that rise, and a layout."""
    for _ in range(draw.choice([1, 1, 1, 2])):
        lines = changed(lines, draw) if lines else lines
    if draw.random() < 0.75:
        lines = [f"{clock} {line.split(' ', 1)[1]}" for clock, line in enumerate(lines, 1)]
    return lines, draw.choice(LAYOUTS)


def are_one(lines, audited, judged):
    """Whether what `judge` says of these lines is what `audit` says, with a condition that there are words for, and a line in front of it."""
    line, rule = map(int, re.findall(r"\d+", audited))
    found = re.match(r"wrong line (\d+) rule (\d+)(?: condition (\d+))?(?: line (\d+))?\n", judged)
    at, by, condition, about = (int(it or 0) for it in found.groups())
    if by == rules.REPLY_RULE:
        return at < line == about and lines[at - 2].split(" ")[3] == "take"
    if rule == rules.NO_LINE:
        return (at, by, condition, about) == (line, rule, 0, 0)
    return (at, by) == (line, rule) and about < line and bool(rules.words_of(lines[line - 2], rule, condition))
