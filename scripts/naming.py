"""What is said of the entries of a journal by the bodies in it, and by the names that a scenario gives its ports, actors and groups by lines
`# name 1.p.1 WORDS`."""

import re

import world

WIDTH = 24  # signs of a body that are shown
# Of each act: what is said of it. {body} is that of its message; {0}, {1}, .. are the act's fields, by the name that was given to them.
NOTES = {
    "make": "{0}, held by {1}",
    "post": "to {2}",
    "accept": "{body} into {1}",
    "choose": "{body} from {1} to {members}",
    "try": "{body} to {1}, at place {2}",
    "told": "{body}",
    "heard": "{body}",
    "take": "{body} out of {0}",
    "empty": "{0}",
    "not-here": "{0}",
    "rehome": "{0} to {1}",
    "depart": "{0}, with {waiting} waiting, to {2}",
    "arrive": "{0}, with {waiting} waiting",
    "group": "{0}",
    "join": "{1} into {0}",
    "leave": "{1} out of {0}",
    "delete": "{0}, with {waiting} waiting",
}
REFUSALS = ("full", "already", "clients-full", "stale", "early", "no-port", "elsewhere", "gone", "no-member")


def names_in(scenario):
    """What the scenario calls its ports, actors and groups."""
    with open(scenario, encoding="utf-8", errors="replace") as opened:
        return dict(re.findall(r"^# name (\d+\.[apg]\.\d+) (\S.*)$", opened.read(), re.M))


def journal_in(file):
    """The text of a journal, with its first line as replay and run print it."""
    with open(file, encoding="ascii", errors="surrogateescape") as opened:
        text = opened.read()
    if not re.match(r"journal \d+\n", text):
        raise ValueError
    return text


def shown(body):
    return "=" + (body if len(body) <= WIDTH else body[:WIDTH] + "...")


def note(entry, state, names):
    """What is said of an entry, or nothing."""
    form = NOTES.get(entry.act, "{body} for {1}" if entry.act in REFUSALS else "")
    if not form or ("{body}" not in form and "{waiting}" not in form and not any(field in names for field in entry.fields)):
        return ""
    message = next((field for field in entry.fields[:3:2] if re.fullmatch(r"\d+:\d+:\d+", field)), "")
    found = {"body": shown(state.body(message)), "members": ", ".join(names.get(it, it) for it in entry.fields[2:])}
    if "{waiting}" in form:
        port = state.ports[entry.fields[0]][-1][1]
        found["waiting"] = len(entry.fields) - 1 if entry.act == "delete" else port.accepted - port.taken
    return form.format(*(names.get(field, field) for field in entry.fields), **found)


def notes_of(lines, names):
    """Of each entry what is said of it, or nothing."""
    state, said = world.World([]), []
    for number, line in enumerate(lines):
        entry = world.entry_at(number, line)
        state.follow(entry)
        said.append(note(entry, state, names))
    return said
