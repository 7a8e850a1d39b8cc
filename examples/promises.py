"""Judges a journal by the promises of any system whose mailboxes move, written apart from the program, by docs/FORMATS.md.

    examples/promises.py [SITES TURNS] < JOURNAL       writes the text of `judge promises`; status 0, 7 or 8
"""

import re
import sys

ACTS = """make make-full no-actor no-site post accept full already clients-full stale early no-port elsewhere no-member choose try told heard take
done late empty not-here rehome depart arrive group groups-full join leave no-group there not-there members-full outstanding no-call no-request
cancel delete gone""".split()


def below(limit, least=0):
    """The pattern of the decimal numbers from the least, 0 or 1, to below the limit."""
    most = str(limit - 1)
    cut = [f'{most[:i]}[{int(i == 0)}-{int(digit) - 1}][0-9]{{{len(most) - 1 - i}}}' for i, digit in enumerate(most) if int(digit) > (i == 0)]
    return '(?:' + '|'.join([*['0'][least:], f'[1-9][0-9]{{0,{len(most) - 2}}}', *cut, most]) + ')'


BYTE, SHORT, WORD, LONG = (below(2**bits) for bits in (8, 16, 32, 64))
NAME = rf'{below(2**16, 1)}\.[apg]\.{below(2**40, 1)}'
ID = rf'{WORD}:{WORD}:{SHORT}'
DEST = rf'(?:port {NAME}|all {NAME}|one {NAME}|at {NAME} {SHORT})'
TAG = rf'(?:plain|request {WORD} {NAME}|reply {WORD} {WORD})'
BODY = r'(?:[ -$&-~]|%(?:0[0-9a-f]|1[0-9a-f]|25|7f|[89a-f][0-9a-f])){0,4096}'
ANSWER = (
    rf'(?:accepted {LONG}|full {BYTE}|stale {SHORT} {LONG}|early {LONG}|no-port|already|clients-full|elsewhere {SHORT} {LONG}|no-member|chosen {SHORT}|gone)'
)
FORMS = {
    'make': f'{NAME} {NAME} {BYTE}', 'make-full': NAME, 'no-actor': NAME, 'no-site': SHORT, 'post': f'{ID} {DEST} {TAG} ={BODY}',
    'accept': f'{ID} {NAME} {LONG}', 'full': f'{ID} {NAME} {BYTE}', 'already': f'{ID} {NAME}', 'clients-full': f'{ID} {NAME}',
    'stale': f'{ID} {NAME} {SHORT} {LONG} {SHORT}', 'early': f'{ID} {NAME} {LONG}', 'no-port': f'{ID} {NAME}',
    'elsewhere': f'{ID} {NAME} {SHORT} {LONG}', 'no-member': f'{ID} {NAME}', 'choose': f'{ID} {NAME}(?: {NAME}){{0,32}}',
    'try': f'{ID} {NAME} {SHORT} {LONG}', 'told': f'{ID} {ANSWER}', 'heard': f'{ID} {ANSWER}', 'take': f'{NAME} {LONG} {ID}',
    'done': WORD, 'late': WORD, 'empty': NAME, 'not-here': NAME, 'rehome': f'{NAME} {NAME}', 'depart': f'{NAME} {SHORT} {NAME} {LONG}',
    'arrive': f'{NAME} {LONG}', 'group': NAME, 'groups-full': SHORT, 'join': f'{NAME} {NAME}', 'leave': f'{NAME} {NAME}', 'no-group': NAME,
    'there': f'{NAME} {NAME}', 'not-there': f'{NAME} {NAME}', 'members-full': NAME, 'outstanding': WORD, 'no-call': '', 'no-request': '',
    'cancel': WORD, 'delete': f'{NAME}(?: {ID})*', 'gone': f'{ID} {NAME}',
}
ENTRY = re.compile(rf'({LONG}) ({SHORT}) ({WORD}) (?:' + '|'.join(f'{act} {form}' if form else act for act, form in FORMS.items()) + ')')
REFUSALS = ('full', 'already', 'clients-full', 'early', 'no-port', 'elsewhere', 'gone')
# The kinds of the names of each act that is read, in their order; a choose has ports behind its group.
KINDS = {'make': 'pa', 'no-member': 'g', 'choose': 'g', 'depart': 'pa'}
READ = ('make', 'post', 'accept', *REFUSALS, 'no-member', 'choose', 'take', 'depart', 'arrive', 'delete')


class Port:
    def __init__(self, place, capacity):
        self.capacity, self.place, self.spot, self.hops = capacity, place, 'held', 0
        self.accepted, self.taken, self.line = [], 0, 0

    def waiting(self):
        return self.accepted[self.taken:]


class Post:
    def __init__(self, dest, group, site, tag, line):
        self.port = None if group else dest
        self.group, self.mode, self.site, self.tag, self.line = group and dest, group, site, tag, line
        self.request = int(tag[1]) if tag[0] == 'request' else None


# Of each act what its conditions are about, in their order: nothing, or the last entry that is so.
DECIDES = ["source", "message"]
ABOUT = {
    "make": ["moves", None],
    "post": [None, "posts"],
    "accept": [*DECIDES, "moves", "queue", "accepts", "accepts of", "accepts of"],
    "full": [*DECIDES, "moves", "queue"],
    "already": [*DECIDES, "moves", "accepts of"],
    "clients-full": [*DECIDES, "moves", "source"],
    "early": [*DECIDES, "moves"],
    "no-port": [*DECIDES, "moves"],
    "elsewhere": [*DECIDES, "source"],
    "gone": [*DECIDES, "moves"],
    "no-member": DECIDES,
    "choose": [*DECIDES, "source"],
    "take": ["moves", "accepts at", "queue"],
    "depart": ["moves", None, "moves"],
    "arrive": ["moves", "moves"],
    "delete": ["moves", "queue"],
}


def is_about(what, entry, earlier):
    """Whether what a condition of the entry is about is this earlier one."""
    _, place, seat, act, *f = entry
    _, old_place, old_seat, old, *g = earlier
    x, port = (f[0], f[1]) if act in ("accept", *REFUSALS, "choose", "no-member") else (None, f[0])
    accepts = old == "accept" and g[1] == port
    return {
        "place": old_place == place,
        "source": old == "post" and x is not None and g[0] == x.rsplit(":", 1)[0] + ":0",
        "message": old in ("post", "accept", *REFUSALS, "choose", "no-member") and g[0] == x,
        "moves": old in ("make", "depart", "arrive", "delete") and g[0] == port,
        "posts": old == "post" and old_seat == seat,
        "queue": accepts or (old == "take" and g[0] == port),
        "accepts": accepts,
        "accepts of": accepts and x is not None and g[0].split(":")[0] == x.split(":")[0],
        "accepts at": accepts and act == "take" and int(g[2]) == int(f[1]),
    }[what]


class Promises:
    def __init__(self, places):
        self.read = []                                          # the entries that were read, with their lines
        self.places, self.clocks = places, {}
        self.ports, self.posts, self.copies = {}, {}, {}      # copies: of each copy its port and the line of its choose
        self.last, self.settled, self.chosen = {}, set(), set()
        self.order, self.requests = {}, {}                      # by port, seat and route: the last number; by port and seat: the requests

    # Conditions, in their order: what is yielded false is the first that fails.

    def message(self, x, port):
        """That x is a message to the port, and not settled."""
        post = self.posts.get(x)
        yield post.port == port if post else x in self.copies and self.copies[x][0] == port
        yield x not in self.settled

    def held(self, port, place):
        found = self.ports.get(port)
        return found is not None and found.spot == 'held' and found.place == place

    def coming(self, port, place, hop):
        found = self.ports.get(port)
        return found is not None and found.spot == 'moving' and found.place == place and found.hops == hop

    def post_of(self, x):
        return self.posts.get(x.rsplit(':', 1)[0] + ':0')

    def conditions(self, place, seat, act, f):
        port = self.ports.get(f[1]) if act in ('accept', *REFUSALS) else self.ports.get(f[0])
        if act == 'make':
            yield port is None
            yield 1 <= int(f[2]) <= 64
        elif act == 'post':
            s, number, copy = map(int, f[0].split(':'))
            yield (s, copy) == (seat, 0)
            yield number > self.last.get(seat, 0)
        elif act == 'accept':
            yield from self.message(f[0], f[1])
            yield self.held(f[1], place)
            yield len(port.waiting()) < port.capacity
            yield int(f[2]) == len(port.accepted)
            s, number, _ = map(int, f[0].split(':'))
            yield number > self.order.get((f[1], s, self.post_of(f[0]).group), 0)
            yield self.post_of(f[0]).request is None or self.post_of(f[0]).request not in self.requests.get((f[1], s), ())
        elif act in REFUSALS:
            yield from self.message(f[0], f[1])
            post = self.post_of(f[0])
            if act in ('full', 'already', 'clients-full'):
                yield self.held(f[1], place)
            if act == 'full':
                yield int(f[2]) == len(port.waiting()) == port.capacity
            elif act == 'already':
                seat_of = int(f[0].split(':')[0])
                yield post.request is not None and any(n >= post.request for n in self.requests.get((f[1], seat_of), ()))
            elif act == 'clients-full':
                yield post.request is not None
            elif act == 'early':
                yield self.coming(f[1], place, int(f[2]))
            elif act == 'no-port':
                yield port is None
            elif act == 'elsewhere':
                yield post.site is not None
            elif act == 'gone':
                yield port is not None and port.spot == 'deleted'
        elif act in ('choose', 'no-member'):
            post = self.posts.get(f[0])
            yield post is not None and post.group == f[1]
            yield f[0] not in self.chosen
            if act == 'choose':
                yield len(f) > 2 and len(set(f[2:])) == len(f[2:]) and (post.mode == 'all' or len(f) == 3)
        elif act == 'take':
            yield self.held(f[0], place)
            yield port.waiting()[:1] == [f[2]]
            yield int(f[1]) == port.taken
        elif act == 'depart':
            yield self.held(f[0], place)
            yield 1 <= int(f[1]) <= self.places and int(f[1]) != place
            yield int(f[3]) == port.hops + 1
        elif act == 'arrive':
            yield self.coming(f[0], place, port.hops if port else 0)
            yield int(f[1]) == port.hops
        elif act == 'delete':
            yield self.held(f[0], place)
            yield f[1:] == port.waiting()

    def timely(self, clock, place, act, f):
        yield 1 <= place <= self.places
        yield clock > self.clocks.get(place, 0)
        names = [word.split('.')[1] for word in (f[:4] if act == 'post' else f) if re.fullmatch(NAME, word)]
        if act == 'post':
            goes = 'p' if f[1] == 'port' else 'g'
            back = re.match(rf'{ID} {DEST} request {WORD} ({NAME})', ' '.join(f))
            yield f[2].split('.')[1] == goes and (not back or back[1].split('.')[1] == 'p')
        else:
            yield all(kind == wanted for kind, wanted in zip(names, KINDS.get(act, '') + 'p' * len(names)))

    def fault(self, entry):
        """Rule and condition that the entry fails, or None."""
        clock, place, seat, act, *f = entry
        for rule, tests in ((0, self.timely(clock, place, act, f)), (ACTS.index(act) + 1, self.conditions(place, seat, act, f))):
            for number, holds in enumerate(tests, 1):
                if not holds:
                    return rule, number
        return None

    def about(self, entry, rule, condition):
        """The line of the earlier entry that the condition is about, or 0."""
        what = ABOUT[entry[3]][condition - 1] if rule else [None, "place", None][condition - 1]
        return max((line for line, it in self.read if what and is_about(what, entry, it)), default=0)

    def follow(self, entry, line):
        clock, place, seat, act, *f = entry
        self.read.append((line, entry))
        self.clocks[place] = clock
        if act == 'make':
            self.ports[f[0]] = Port(place, int(f[2]))
        elif act == 'post':
            self.last[seat] = int(f[0].split(':')[1])
            group = None if f[1] == 'port' else f[1]
            rest = f[4 if f[1] == 'at' else 3:]
            self.posts[f[0]] = Post(f[2], group, int(f[3]) if f[1] == 'at' else None, rest, line)
        elif act == 'accept':
            port, post, (s, number, _) = self.ports[f[1]], self.post_of(f[0]), map(int, f[0].split(':'))
            port.accepted.append(f[0])
            self.settled.add(f[0])
            self.order[f[1], s, post.group] = number
            if post.request is not None:
                self.requests.setdefault((f[1], s), set()).add(post.request)
        elif act in REFUSALS:
            self.settled.add(f[0])
        elif act in ('choose', 'no-member'):
            self.chosen.add(f[0])
            for number, port in enumerate(f[2:], 1):
                self.copies[f[0][:-1] + str(number)] = (port, line)
        elif act == 'take':
            self.ports[f[0]].taken += 1
        elif act == 'depart':
            port = self.ports[f[0]]
            port.spot, port.place, port.hops, port.line = 'moving', int(f[1]), port.hops + 1, line
        elif act == 'arrive':
            self.ports[f[0]].spot = 'held'
        elif act == 'delete':
            self.ports[f[0]].spot = 'deleted'

    def open(self):
        found = []
        for x, post in self.posts.items():
            if post.group and x not in self.chosen:
                found.append((post.line, 0, f'message {x} without choose'))
            elif not post.group and x not in self.settled:
                found.append((post.line, 0, f'message {x} without verdict'))
        for x, (_, line) in self.copies.items():
            if x not in self.settled:
                found.append((line, int(x.rsplit(':', 1)[1]), f'message {x} without verdict'))
        for name, port in self.ports.items():
            if port.spot == 'moving':
                found.append((port.line, 0, f'port {name} without arrive'))
        return [f'line {line} {what}' for line, _, what in sorted(found)]


def summary(entries):
    count = lambda *words: sum(entry[3] in words for entry in entries)
    state, waits = {}, {}
    for _, _, _, act, *f in entries:
        if act in ('make', 'depart', 'arrive', 'delete'):
            state[f[0]] = act
        elif act == 'accept':
            waits[f[1]] = waits.get(f[1], 0) + 1
        elif act == 'take':
            waits[f[0]] = waits.get(f[0], 0) - 1
    total = lambda *acts: sum(max(0, waits.get(port, 0)) for port, act in state.items() if act in acts)
    rows = [('posted', count('post')), ('accepted', count('accept')), ('taken', count('take')), ('queued', total('make', 'arrive')), ('moving', total('depart'))]
    if count('delete'):
        rows.append(('discarded', sum(len(entry) - 5 for entry in entries if entry[3] == 'delete')))
    rows += [('refused', count(*REFUSALS, 'no-member')), ('stale', count('stale')), ('departs', count('depart'))]
    return ['summary', *(f'{word} {number}' for word, number in rows), 'end']


# Acts by which no command is answered.
NO_COMMANDS = 'accept full already clients-full stale early no-port elsewhere gone no-member choose try told heard arrive done late'.split()


def with_stuck(lines, entries, rest):
    """The lines of the summary, and before its end those of scripts that may be stuck, as far as the rest has them."""
    front, last = lines[:-1], 0
    for line in rest[len(front):]:
        found = re.fullmatch(rf'stuck ({WORD}) ({LONG})', line)
        script, command = map(int, found.groups()) if found else (0, 0)
        given = sum(entry[2] == script and entry[3] not in NO_COMMANDS for entry in entries)
        if script <= last or command != given + 1:
            break
        front.append(line)
        last = script
    return [*front, lines[-1]]


def judge(text, sites=16, turns=1):
    """The lines of the judgement, and the status."""
    lines = text.split('\n')
    promises, entries = Promises(sites * turns), []

    def wrong(line, rule, condition=None, about=0):
        found = promises.open()
        said = f'wrong line {line} rule {rule}' + (f' condition {condition}' if condition else '') + (f' line {about}' if about else '')
        return [said, f'open {len(found)}', *found[:100]], 7

    head = re.fullmatch(rf'journal ({WORD})(?: (?:[1-9]|1[0-6]) [124])?', lines[0])
    if not head or len(lines) < 2:
        return wrong(1, 99)
    for line, read in enumerate(lines[1:1 + int(head[1])], 2):
        if line == len(lines) or not ENTRY.fullmatch(read):     # the last piece lacks its LF
            return wrong(line, 99)
        clock, place, seat, act, *fields = read.split(' ')
        entry = (int(clock), int(place), int(seat), act, *fields)
        entries.append(entry)
        if act not in READ:
            continue
        fault = promises.fault(entry)
        if fault:
            return wrong(line, *fault, promises.about(entry, *fault))
        promises.follow(entry, line)
    if len(lines) <= 1 + int(head[1]):
        return wrong(len(lines), 99)
    rest = lines[1 + len(entries):]
    wanted = with_stuck(summary(entries), entries, rest[:-1])   # the last piece lacks its LF
    if rest != [*wanted, '']:
        shared = next((at for at, pair in enumerate(zip(rest[:-1], wanted)) if pair[0] != pair[1]), min(len(rest) - 1, len(wanted)))
        return wrong(2 + len(entries) + shared, 99)
    found = promises.open()
    return [f'kept {len(entries)}', f'open {len(found)}', *found[:100]], 8 if found else 0


if __name__ == '__main__':
    said, status = judge(sys.stdin.read(), *map(int, sys.argv[1:3]))
    print('\n'.join(said))
    sys.exit(status)
