"""The events of a system, logged as a text that `./chorus audit SITES 1` judges: a journal, and its summary.

Make a Place of what handles its events one after the other, log each event there, and print the text of all places.
"""

REFUSALS = ["full", "early", "no-port", "already", "clients-full", "elsewhere", "no-member", "gone"]


class Place:
    """A thread, a process or a machine, numbered from 1. One at a time may log here."""

    def __init__(self, number):
        self.number, self.clock, self.entries = number, 0, []

    def log(self, seat, act, behind=0):
        """Logs an event, and gives its clock, which goes along with what it sends to another place.

        `seat` is the number of the caller who causes it, 0 the system itself. What came from another place is logged
        `behind` the clock that came along.
        """
        self.clock = max(self.clock, behind) + 1
        self.entries.append((self.clock, self.number, seat, act))
        return self.clock


def text(places):
    """The journal by clock and place, in which each event stands behind those that it can depend on, and the summary."""
    entries = sorted(entry for place in places for entry in place.entries)
    lines = [f"journal {len(entries)}", *(" ".join(map(str, entry)) for entry in entries), "summary"]
    lines += [f"{word} {number}" for word, number in summary([entry[3].split(" ") for entry in entries])]
    return "\n".join(lines + ["end"]) + "\n"


def summary(acts):
    """The counts of acts that are cut into words."""
    words = [act[0] for act in acts]
    state, waiting = {}, {}  # of each port: its last make, depart, arrive or delete, and how many messages wait in it
    for word, *fields in acts:
        if word in ("make", "depart", "arrive", "delete"):
            state[fields[0]] = word
        elif word == "accept":
            waiting[fields[1]] = waiting.get(fields[1], 0) + 1
        elif word == "take":
            waiting[fields[0]] = waiting.get(fields[0], 0) - 1

    def waits(*states):
        return sum(max(number, 0) for port, number in waiting.items() if state.get(port) in states)

    yield "posted", words.count("post")
    yield "accepted", words.count("accept")
    yield "taken", words.count("take")
    yield "queued", waits("make", "arrive")
    yield "moving", waits("depart")
    if "delete" in words:
        yield "discarded", sum(len(act) - 2 for act in acts if act[0] == "delete")
    yield "refused", sum(map(words.count, REFUSALS))
    yield "stale", words.count("stale")
    yield "departs", words.count("depart")
