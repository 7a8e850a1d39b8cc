"""Draws a lawful journal by the words of docs/FORMATS.md, and compares the picture of a journal with the journal, by Python's XML parser and
by packets that are followed here one by one.

The program finds the cause of an entry as the last entry about the same message, or on the line of the same port, where that stands at
another place. Here each packet is put into a list when an entry puts it, and taken out of it by the entry that works it off. Ports are
followed from where they are made, with the number of messages that wait in them."""

import re
import xml.etree.ElementTree as ElementTree
from html import escape

SVG = "{http://www.w3.org/2000/svg}"
MARKS = ["own", "denied", "work", "follow", "stale", "lost"]
KINDS = ["try", "verdict", "transfer", "ask", "report"]
DECISIONS = ["accept", "full", "already", "clients-full", "stale", "early", "no-port", "elsewhere", "gone"]
# of an act on the line of a port, which of its words is the port
PORT_WORDS = {"make": 0, "accept": 1, "full": 1, "already": 1, "clients-full": 1, "take": 0, "empty": 0, "rehome": 0, "depart": 0, "arrive": 0, "delete": 0}

REFUSALS = ["full", "already", "clients-full", "early", "no-port", "elsewhere", "no-member", "gone"]
OWN = ["make", "post", "take", "rehome", "depart", "delete", "group", "join", "leave", "cancel"]
DENIED = ["make-full", "no-actor", "no-site", "empty", "not-here", "groups-full", "no-group", "there", "not-there", "members-full", "outstanding"]
DENIED += ["no-call", "no-request"]


def packets(lines):
    """Of the lines of a journal's entries, each packet that was worked off: its kind, and the entries that put it and worked it off."""
    found, waiting, home = [], [], {}
    for number, line in enumerate(lines):
        clock, place, seat, act, *fields = line.split(" ")
        post = fields[0].rsplit(":", 1)[0] if fields else ""

        def put(kind, to, key):
            waiting.append((kind, to, key, number))

        def take(kind, key):
            for packet in waiting:
                if packet[0] == kind and packet[1] in (None, place) and packet[2] == key:
                    waiting.remove(packet)
                    found.append((kind, packet[3], number))
                    return packet

        def report():
            if home.get(post, place) != place and not (act == "told" and fields[1] == "stale"):
                put("report", home[post], fields[0])

        if act == "post":
            home[post] = place
            if fields[1] != "port":
                put("ask", None, fields[0])
        elif act == "try":
            put("try", fields[2], (fields[0], fields[1]))
        elif act in DECISIONS:
            tried = take("try", (fields[0], fields[1]))
            if tried:
                put("verdict", lines[tried[3]].split(" ")[1], fields[0])
            elif not fields[0].endswith(":0"):
                report()
        elif act == "told":
            take("verdict", fields[0])
            if not fields[0].endswith(":0"):
                report()
        elif act in ("choose", "no-member"):
            asked = take("ask", fields[0])
            if asked and lines[asked[3]].split(" ")[1] == place:
                found.pop()
            report()
        elif act == "heard":
            take("report", fields[0])
        elif act == "depart":
            put("transfer", fields[1], (fields[0], fields[3]))
        elif act == "arrive":
            take("transfer", (fields[0], fields[1]))
    return found


def held(lines):
    """Of the lines of a journal's entries, each bar: its port, how many messages wait, the entry that it begins at and the one that ends it, if any."""
    found, begun, waiting = [], {}, {}
    for number, line in enumerate(lines):
        clock, place, seat, act, *fields = line.split(" ")
        if act not in PORT_WORDS:
            continue
        port = fields[PORT_WORDS[act]]
        if port in begun:
            found.append((port, waiting[port], begun.pop(port), number))
        waiting[port] = waiting.get(port, 0) + (act == "accept") - (act == "take")
        if act not in ("depart", "delete"):
            begun[port] = number
    return found + [(port, waiting[port], number, None) for port, number in begun.items()]


def row_y(row):
    return 49 + 18 * row + 40 * (row // 32)


def end_y(rows):
    return 9 + 18 * rows + 40 * (max(rows - 1, 0) // 32 + 1)


class Columns:
    """Where the columns and lanes of a journal stand; `right` is where the last one ends."""

    def __init__(self, entries):
        self.x, self.lanes, self.ends, self.right = {}, {}, {}, 64
        for place in sorted({entry[1] for entry in entries}):
            ports = list(dict.fromkeys(fields[0] for _, at, _, act, *fields in entries if at == place and act in ("make", "arrive")))
            self.x[place] = self.right + 64
            self.lanes[place] = {port: self.x[place] + 22 + 14 * lane for lane, port in enumerate(ports)}
            self.right = self.ends[place] = self.x[place] + 24 + 14 * len(ports)


def entry_of(line):
    clock, place, seat, act, *fields = line.split(" ")
    return int(clock), int(place), int(seat), act, *fields


def is_setup(entry):
    return entry[2] == 0 and entry[3] in ("make", "group", "join")


def cut(text, most):
    return escape(text if len(text) <= most else text[:most] + "...").replace("&#x27;", "&#39;").replace("\n", " ")


def shown_act(act):
    front, sign, _ = act.partition("=")
    return cut(act, min(72, len(front) + 25) if sign and len(front) < 72 else 72)


def notes(entries, lines):
    """Of each entry the note behind its act, or nothing."""
    bodies, said = {}, []
    for (_, _, seat, act, *fields), line in zip(entries, lines):
        if act == "post" and fields[0].split(":")[0] == str(seat) and fields[0].endswith(":0"):
            bodies.setdefault(fields[0], line[line.index("=") :])
        message = {"take": fields[2:3], "accept": fields[:1], "stale": fields[:1]}.get(act, fields[:1] if act in REFUSALS else [])
        post = message[0].rsplit(":", 1)[0] + ":0" if message else ""
        said.append(f"<tspan class='body'>  {cut(bodies[post], 25)}</tspan>" if post in bodies else "")
    return said


def bar(columns, lines, port, count, begin, end_at):
    a, t = columns.lanes[entry_of(lines[begin])[1]][port], row_y(begin)
    name = "waits" if count else "idle"
    return f"<g class='{name}'><title>{port}, {count}</title><rect x='{a}' y='{t}' width='12' height='{end_at - t}'/></g>"


def ground(columns, entries, lines):
    ended = {end: (port, count, begin) for port, count, begin, end in held(lines) if end is not None}
    left = {(entries[begin][1], port): (count, begin) for port, count, begin, end in held(lines) if end is None}
    for row, entry in enumerate(entries):
        if row and entry[0] != entries[row - 1][0] and not is_setup(entry):
            yield f"<path class='tick' d='M8 {row_y(row) - 9}H{columns.right + 652}'/>"
        if row in ended:
            yield bar(columns, lines, *ended[row], row_y(row))
    for place, lanes in columns.lanes.items():
        for port in lanes:
            if (place, port) in left:
                yield bar(columns, lines, port, *left[place, port], end_y(len(lines)))


def arrows(columns, entries, lines):
    for kind, put, done in sorted(packets(lines), key=lambda it: it[2]):
        source, target = columns.x[entries[put][1]], columns.x[entries[done][1]]
        right = entries[put][1] < entries[done][1]
        start, turn, stop = (source + 6, target - 46, target - 7) if right else (source - 6, columns.ends[entries[done][1]] + 6, target + 7)
        way = f"M{start} {row_y(put)}H{turn}L{stop} {row_y(done)}"
        yield f"<path class='{kind}' d='{way}'><title>{kind}, line {put + 2} to line {done + 2}</title></path>"


def marks(columns, entries, lines):
    worked = {done for _, _, done in packets(lines)}
    counts = {begin: (port, count) for port, count, begin, _ in held(lines)}
    for row, ((clock, place, seat, act, *_), line, note) in enumerate(zip(entries, lines, notes(entries, lines))):
        names = {"own": OWN, "denied": DENIED, "lost": REFUSALS, "stale": ["stale"]}
        mark = next((name for name, acts in names.items() if act in acts), "work" if row in worked else "follow")
        x, y, title = columns.x[place], row_y(row), cut(line, len(line))
        texts = f"<text x='8' y='{y + 4}'>{clock}</text><text x='{columns.right + 12}' y='{y + 4}'>{seat}</text>"
        texts += f"<text class='act' x='{columns.right + 72}' y='{y + 4}'>{shown_act(line.split(' ', 3)[3])}{note}</text>"
        yield f"<g class='{mark}'><title>{title}</title><use href='#{mark}' x='{x}' y='{y}'/>{texts}</g>"
        if act in ("make", "accept", "take", "arrive"):
            port, count = counts[row]
            yield f"<text class='count' x='{columns.lanes[place][port] + 6}' y='{y + 13}'>{count}</text>"


def heads(columns, turns, count):
    for y in range(0, 616 * (max(count - 1, 0) // 32 + 1), 616):
        w = columns.right
        yield f"<text x='8' y='{y + 32}'>clock</text><text x='{w + 12}' y='{y + 32}'>caller</text><text x='{w + 72}' y='{y + 32}'>entry</text>"
        for place, x in columns.x.items():
            site = (place - 1) // turns + 1
            yield f"<text class='head' x='{x + 6}' y='{y + 16}'>site {site}</text><text class='head' x='{x + 6}' y='{y + 32}'>place {place}</text>"
            for port, a in columns.lanes[place].items():
                yield f"<text class='name' transform='rotate(-90 {a + 9} {y + 38})' x='{a + 9}' y='{y + 38}'>{port}</text>"


def sheet(columns, entries):
    w, h, end = columns.right + 660, end_y(len(entries)) + 234, end_y(len(entries))
    yield f"<rect class='paper' width='{w}' height='{h}'/>"
    setup = next((row for row, entry in enumerate(entries) if not is_setup(entry)), len(entries))
    if setup:
        yield f"<rect class='setup' y='40' width='{w}' height='{end_y(setup) - 49}'/>"
    for x in columns.x.values():
        yield f"<path class='line' d='M{x} 40V{end}'/>"
    for y in range(0, 616 * (max(len(entries) - 1, 0) // 32 + 1), 616):
        yield f"<rect class='band' y='{y}' width='{w}' height='40'/>"


def middle(lines, turns):
    """What stands in the picture of the lines of entries, between its style and what was found of them."""
    entries = [entry_of(line) for line in lines]
    columns = Columns(entries)
    parts = [sheet(columns, entries), ground(columns, entries, lines), arrows(columns, entries, lines), marks(columns, entries, lines)]
    return "".join(line + "\n" for part in [*parts, heads(columns, turns, len(lines))] for line in part)


def constant(source, name):
    """What a text constant of a source has."""
    text = re.search(rf'const {name}: &str = "\\\n(.*?)";', source, re.S)[1]
    return text.replace("\\n\\\n", "\n")


def picture(journal, turns, source):
    """The picture of a lawful journal, with the style and the legend that this source has."""
    count = int(journal.split("\n", 1)[0].split(" ")[1])
    lines, summary = journal.split("\n")[1 : 1 + count], "\n".join(journal.split("\n")[1 + count :])
    width, end = Columns([entry_of(line) for line in lines]).right + 660, end_y(count)
    size = f"width='{width}' height='{end + 234}' viewBox='0 0 {width} {end + 234}'"
    front = f"<svg xmlns='http://www.w3.org/2000/svg' xml:space='preserve' {size}>\n" + constant(source, "STYLE")
    found = f"<text x='8' y='{end + 22}'>{count} entries, all lawful</text><text class='sum' x='8' y='{end + 40}'>{cut(summary, len(summary))}</text>\n"
    foot = f"<g transform='translate(0 {end + 56})'>\n" + constant(source, "LEGEND") + "</g>\n</svg>\n"
    return front + middle(lines, turns) + found + foot


def drawn_bars(root, heights, places, columns):
    """The bars of a picture, as `held` has them; None where one stands beside another column than that of the entry that it begins at."""
    found = []
    end = int(next(path for path in root.iter(SVG + "path") if path.get("class") == "line").get("d").split("V")[1])
    for group in root.iter(SVG + "g"):
        title, rect = group.find(SVG + "title"), group.find(SVG + "rect")
        if group.get("class") not in ("idle", "waits") or title is None:
            continue
        port, count = title.text.split(", ")
        left, top, height = (int(rect.get(name)) for name in ("x", "y", "height"))
        row = heights.index(top)
        if max(x for x in columns.values() if x < left) != columns[places[row]] or (count == "0") != (group.get("class") == "idle"):
            return None
        found.append((port, int(count), row, heights.index(top + height) if top + height != end else None))
    return found


def drawn_arrows(root, heights):
    """The arrows of a picture, as `packets` has them."""
    arrows = []
    for path in root.iter(SVG + "path"):
        if path.get("class") in KINDS and path.find(SVG + "title") is not None:
            start, end = path.get("d")[1:].split("H")
            points = [int(word) for word in start.split(" ") + end.replace("L", " ").split(" ")]
            arrows.append((path.get("class"), heights.index(points[1]), heights.index(points[4])))
    return arrows


def state_complaint(data, picture):
    """What is wrong with the data of a page of a lawful journal, beside its picture, or None: at each entry the ports that are held, where and
    with how many messages, are the bars there, and the packets that were worked off are the arrows."""
    root = ElementTree.fromstring(picture)
    marks = [group for group in root.iter(SVG + "g") if group.get("class") in MARKS]
    heights = [int(mark.find(SVG + "use").get("y")) for mark in marks]
    lines = [mark.find(SVG + "title").text for mark in marks]
    if data["lines"] != lines or data["heights"] != heights:
        return "its lines are not the entries of the picture"
    places = [line.split(" ")[1] for line in lines]
    columns = {place: int(mark.find(SVG + "use").get("x")) for mark, place in zip(marks, places)}
    bars, said = [set() for _ in lines], [set() for _ in lines]
    for port, count, begin, end in drawn_bars(root, heights, places, columns) if lines else []:
        for number in range(begin, len(lines) if end is None else end):
            bars[number].add((port, places[begin], count))
    for port, changes in data["ports"].items():
        for (begin, (place, to, _, _, taken, accepted, is_deleted)), after in zip(changes, changes[1:] + [[len(lines)]]):
            for number in range(begin, after[0]):
                if to is None and not is_deleted:
                    said[number].add((port, place, accepted - taken))
    wrong = next((number for number in range(len(lines)) if bars[number] != said[number]), None)
    if wrong is not None:
        return f"at entry {wrong} it has {sorted(said[wrong] - bars[wrong])} where the picture has {sorted(bars[wrong] - said[wrong])}"
    if sorted((kind, put, done) for kind, _, put, done, _, _ in data["packets"] if done is not None) != sorted(drawn_arrows(root, heights)):
        return "its packets are not the arrows of the picture"
    return None


def complaint(journal, picture):
    """What is wrong with the picture of a lawful journal, or None."""
    count = int(journal.split("\n", 1)[0].split(" ")[1])
    lines = journal.split("\n")[1:1 + count]
    root = ElementTree.fromstring(picture)
    marks = [group for group in root.iter(SVG + "g") if group.get("class") in MARKS]
    if [mark.find(SVG + "title").text for mark in marks] != lines:
        return "its marks are not the entries of the journal"
    heights = [int(mark.find(SVG + "use").get("y")) for mark in marks]
    if heights != sorted(set(heights)):
        return "a mark stands not below all before it"
    columns = {}
    for mark, line in zip(marks, lines):
        x = int(mark.find(SVG + "use").get("x"))
        if columns.setdefault(line.split(" ")[1], x) != x:
            return "a mark stands in the column of another place"
    if len(set(columns.values())) != len(columns):
        return "two places have one column"
    heads = {(text.text, int(text.get("x")) - 6) for text in root.iter(SVG + "text") if text.get("class") == "head"}
    if {head for head in heads if head[0].startswith("place ")} != {(f"place {place}", x) for place, x in columns.items()}:
        return "a column has the head of another place"
    if sorted(drawn_arrows(root, heights)) != sorted(packets(lines)):
        return "its arrows are not the packets of the journal"
    bars = drawn_bars(root, heights, [line.split(" ")[1] for line in lines], columns) if lines else []
    if bars is None or sorted(bars, key=str) != sorted(held(lines), key=str):
        return "its bars are not the ports of the journal"
    return None
