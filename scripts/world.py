"""What stands where behind each entry of a journal that was audited, by the rules of docs/FORMATS.md.

Nothing is judged here. `World(lines)` goes through the lines of the entries once, and keeps of each port, packet, caller and group only
when it changed, so that any entry can be looked at, forwards and back."""

from collections import defaultdict, deque, namedtuple

# An entry: its number from 0, place and seat as they are spelled, the act's word and what stands behind it.
Entry = namedtuple("Entry", "number place seat act fields")
# A port behind an entry: `place` is where it is, or was last; `to` the place that it is on its way to, or None; `actor` its holder, or its
# next one. Messages `taken` to `accepted` of those that it ever accepted wait in it.
Port = namedtuple("Port", "place to actor hop taken accepted is_deleted")
# A packet: what it carries, the entries that put it and worked it off (None: none did), and its places (`to` None: the group's).
Packet = namedtuple("Packet", "kind about put done at to")
# A caller behind an entry: its last command's entry, what became of its last post as far as its place was told, the number of its outstanding call
# and the request in its hand, or None.
Caller = namedtuple("Caller", "last told call hand")

DECISIONS = ("accept", "full", "already", "clients-full", "stale", "early", "no-port", "elsewhere", "gone")
# What follows from a caller's command, or from a packet that it worked off.
FOLLOWING = (*DECISIONS, "no-member", "choose", "try", "told", "heard", "arrive", "done", "late")


def entry_at(number, line):
    _, place, seat, act, *fields = line.split(" ")
    return Entry(number, place, seat, act, fields)


def entries_of(journal):
    """The lines of the entries that stand in a journal text."""
    lines = journal.split("\n")
    head = lines[0].split(" ")
    count = int(head[1]) if len(head) in (2, 4) and head[0] == "journal" and head[1].isdigit() else 0
    return lines[1 : 1 + count]


def post_of(message):
    """Of an id the part that a post has in common with its copies."""
    return message.rsplit(":", 1)[0]


class World:
    def __init__(self, lines):
        self.lines = lines
        self.bodies, self.tags, self.homes = {}, {}, {}  # of each post: its body as it stands in the journal, its tag, its place
        self.rooms, self.accepted = {}, defaultdict(list)  # of each port: its capacity, and the ids that it accepted
        self.ports, self.callers, self.groups = defaultdict(list), defaultdict(list), defaultdict(list)  # of each: (entry, value)
        self.packets = []
        self.waiting = defaultdict(deque)  # packets that are under way, as numbers, by kind and what they are about
        for number, line in enumerate(lines):
            self.follow(entry_at(number, line))
        # a post to a group of its own place asks nobody
        self.packets = [it for it in self.packets if it.kind != "ask" or it.at != it.to]

    def follow(self, entry):
        self.follow_caller(entry)
        self.follow_port(entry)
        self.follow_packet(entry)
        if entry.act in ("group", "join", "leave"):
            self.follow_group(entry)

    def follow_port(self, entry):
        act, fields = entry.act, entry.fields
        port = fields[1] if act == "accept" else fields[0] if fields else ""
        if act == "make":
            self.rooms[port] = int(fields[2])
            now = Port(entry.place, None, fields[1], 0, 0, 0, False)
        elif port not in self.ports:
            return
        else:
            now = self.ports[port][-1][1]
        if act == "accept":
            self.accepted[port].append(fields[0])
            now = now._replace(accepted=now.accepted + 1)
        elif act == "take":
            now = now._replace(taken=now.taken + 1)
        elif act == "rehome":
            now = now._replace(actor=fields[1])
        elif act == "depart":
            now = now._replace(to=fields[1], actor=fields[2], hop=int(fields[3]))
        elif act == "arrive":
            now = now._replace(place=entry.place, to=None)
        elif act == "delete":
            now = now._replace(is_deleted=True, taken=now.accepted)
        elif act != "make":
            return
        self.ports[port].append((entry.number, now))

    def put(self, kind, about, entry, to):
        self.waiting[kind, about].append(len(self.packets))
        self.packets.append(Packet(kind, about, entry.number, None, entry.place, to))

    def take(self, kind, about, entry):
        """The packet that this entry works off, where one of this kind was under way to its place."""
        queue = self.waiting[kind, about]
        found = next((i for i in queue if self.packets[i].to in (None, entry.place)), None)
        if found is None:
            return None
        queue.remove(found)
        self.packets[found] = self.packets[found]._replace(done=entry.number, to=entry.place)
        return self.packets[found]

    def report(self, entry):
        """Tells the place of the post what became of it, or of a copy."""
        home = self.homes.get(post_of(entry.fields[0]), entry.place)
        if home != entry.place:
            self.put("report", entry.fields[0], entry, home)

    def follow_packet(self, entry):
        act, fields = entry.act, entry.fields
        is_copy = bool(fields) and not fields[0].endswith(":0")
        if act == "post" and fields[1] != "port":
            self.put("ask", fields[0], entry, None)
        elif act == "try":
            self.put("try", f"{fields[0]} to {fields[1]}", entry, fields[2])
        elif act in DECISIONS:
            tried = self.take("try", f"{fields[0]} to {fields[1]}", entry)
            if tried:
                self.put("verdict", fields[0], entry, tried.at)
            elif is_copy:
                self.report(entry)
        elif act == "told":
            self.take("verdict", fields[0], entry)
            if is_copy and fields[1] != "stale":
                self.report(entry)
        elif act in ("choose", "no-member"):
            self.take("ask", fields[0], entry)
            self.report(entry)
        elif act == "heard":
            self.take("report", fields[0], entry)
        elif act == "depart":
            self.put("transfer", f"{fields[0]} by hop {fields[3]}", entry, fields[1])
        elif act == "arrive":
            self.take("transfer", f"{fields[0]} by hop {fields[1]}", entry)

    def follow_caller(self, entry):
        act, fields = entry.act, entry.fields
        now = self.callers[entry.seat][-1][1] if self.callers[entry.seat] else Caller(None, {}, None, None)
        if entry.seat != "0":
            now = now._replace(last=now.last if act in FOLLOWING else entry.number)
            self.callers[entry.seat].append((entry.number, now))
        if act == "post":
            self.begin_post(entry, now)
        elif act in (*DECISIONS, "told", "heard", "choose", "no-member"):
            self.tell(entry, fields[0], "chosen" if act == "choose" else " ".join([act, *fields[1:]] if act in ("told", "heard") else [act]))
        elif act == "take" and self.tags.get(post_of(fields[2]), "").startswith("request"):
            self.callers[entry.seat][-1] = (entry.number, now._replace(hand=fields[2]))
        elif act in ("done", "late", "cancel"):
            told = {**now.told, f"call {fields[0]}": act}
            self.callers[entry.seat][-1] = (entry.number, now._replace(told=told, call=now.call if act == "late" else None))

    def begin_post(self, entry, now):
        message, fields = entry.fields[0], entry.fields
        post = post_of(message)
        rest = fields[{"port": 3, "all": 3, "one": 3, "at": 4}[fields[1]] :]
        size = {"plain": 1, "request": 3, "reply": 3}[rest[0]]
        self.tags[post], self.bodies[post] = " ".join(rest[:size]), " ".join(rest[size:])[1:]
        self.homes[post] = entry.place
        call = int(rest[1]) if rest[0] == "request" else now.call
        now = now._replace(told={message: "posted"}, call=call, hand=None if rest[0] == "reply" else now.hand)
        self.callers[entry.seat][-1] = (entry.number, now)

    def tell(self, entry, message, said):
        """What a caller's place is told of the last post of the caller."""
        seat, post = message.split(":")[0], post_of(message)
        if self.homes.get(post) != entry.place or not self.callers[seat]:
            return
        now = self.callers[seat][-1][1]
        if f"{post}:0" in now.told:
            word = said.split(" ", 1)[1] if said.startswith(("told ", "heard ")) else said
            word += ", and tried again" if word.startswith("stale") else ""
            self.callers[seat].append((entry.number, now._replace(told={**now.told, message: word})))

    def follow_group(self, entry):
        group = entry.fields[0]
        members = self.groups[group][-1][1] if self.groups[group] else ()
        if entry.act == "join":
            members += (entry.fields[1],)
        elif entry.act == "leave":
            members = tuple(it for it in members if it != entry.fields[1])
        self.groups[group].append((entry.number, members))

    def body(self, message):
        """The body of a message as it stands in the journal, without its `=`; nothing where it was not posted."""
        return self.bodies.get(post_of(message), "")
