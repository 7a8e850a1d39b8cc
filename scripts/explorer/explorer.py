"""The places, the scripts and the moves of a race, and what it comes to. Written from the rules alone."""

SITES = 16

def ui(text):
    s, k, n = text.split('.')
    return (int(s), k, int(n))

def show(u):
    return f"{u[0]}.{u[1]}.{u[2]}"

def show_id(x):
    return f"{x[0]}:{x[1]}:{x[2]}"

class Layout:
    def __init__(self, sites, turns):
        self.sites, self.turns = sites, turns
    def place_at(self, site, u):
        return (site - 1) * self.turns + 1 + (u[2] - 1) % self.turns
    def site_of(self, place):
        return (place - 1) // self.turns + 1
    def first(self, site):
        return (site - 1) * self.turns + 1
    def has_actor(self, a):
        return 1 <= a[0] <= self.sites and 1 <= a[2] <= 8
    def places(self):
        return self.sites * self.turns

class Place:
    __slots__ = ('number', 'ports', 'known', 'made', 'deleted', 'groups', 'waits')
    def __init__(self, number):
        self.number = number
        self.ports = {}     # port -> [actor, capacity, hop, first, pending, clients]
        self.known = {}     # port -> (to, hop)
        self.made = []
        self.deleted = set()
        self.groups = {}    # group -> [members, rotation]
        self.waits = {}     # (port, route) -> messages not yet settled, the first is under way or decided at once
    def copy(self):
        p = Place(self.number)
        p.ports = {k: [v[0], v[1], v[2], v[3], list(v[4]), dict(v[5])] for k, v in self.ports.items()}
        p.known = dict(self.known)
        p.made = list(self.made)
        p.deleted = set(self.deleted)
        p.groups = {k: [list(v[0]), v[1]] for k, v in self.groups.items()}
        p.waits = {k: list(v) for k, v in self.waits.items() if v}
        return p
    def key(self):
        return (tuple(sorted((k, v[0], v[1], v[2], v[3], tuple(v[4]), tuple(sorted(v[5].items()))) for k, v in self.ports.items())),
                tuple(sorted(self.known.items())), tuple(self.made), tuple(sorted(self.deleted)),
                tuple(sorted((k, tuple(v[0]), v[1]) for k, v in self.groups.items())),
                tuple(sorted(((k[0], k[1] or ()), tuple(v)) for k, v in self.waits.items() if v)))

class Caller:
    __slots__ = ('seat', 'actor', 'posts', 'given', 'call', 'hand')
    def __init__(self, seat, actor):
        self.seat, self.actor, self.posts, self.given, self.call, self.hand = seat, actor, 0, 0, None, None
    def copy(self):
        c = Caller(self.seat, self.actor)
        c.posts, c.given, c.call, c.hand = self.posts, self.given, self.call, self.hand
        return c
    def key(self):
        return (self.posts, self.given, self.call, self.hand)

class Net:
    def __init__(self, layout):
        self.l = layout
        self.places = {p: Place(p) for p in range(1, layout.places() + 1)}
        self.links = {}
        self.callers = [Caller(0, (1, 'a', 1))]
        self.verdicts = {}
        self.stale = frozenset()    # the messages that came to a place which their port had left
        self.copies = {}
    def copy(self):
        n = Net.__new__(Net)
        n.l = self.l
        n.places = {k: v.copy() for k, v in self.places.items()}
        n.links = {k: list(v) for k, v in self.links.items() if v}
        n.callers = [c.copy() for c in self.callers]
        n.verdicts = dict(self.verdicts)
        n.stale = self.stale
        n.copies = dict(self.copies)
        return n
    def key(self):
        return (tuple(self.places[p].key() for p in sorted(self.places)), tuple(sorted((k, tuple(v)) for k, v in self.links.items() if v)),
                tuple(c.key() for c in self.callers), tuple(sorted(self.verdicts.items())), self.stale, tuple(sorted(self.copies.items())))

    # messages: (id, tag, body, only, route, home)
    def put(self, a, b, cargo):
        self.links.setdefault((a, b), []).append(cargo)

    def newest(self, p, q):
        k = self.places[p].known.get(q)
        if k is not None:
            return k
        return (self.l.place_at(q[0], q), 0)

    def learn(self, p, q, to, hop):
        k = self.places[p].known.get(q)
        if k is None or hop > k[1]:
            if hop > 0 or k is None:
                self.places[p].known[q] = (to, hop)

    def decide(self, p, m, q, h):
        place = self.places[p]
        rec = place.ports.get(q)
        tag = m[1]
        if rec is not None:
            if tag[0] == 'request':
                client = m[0][0]
                if client in rec[5]:
                    if rec[5][client] >= tag[1]:
                        return ('already',)
                elif len(rec[5]) >= 64:
                    return ('clients-full',)
            if len(rec[4]) >= rec[1]:
                return ('full', len(rec[4]))
            rec[4].append(m[:3])
            if tag[0] == 'request':
                rec[5][m[0][0]] = tag[1]
            return ('accepted',)
        if q in place.deleted:
            return ('gone',)
        np, nh = self.newest(p, q)
        if nh > h and np != p:
            return ('elsewhere', np, nh) if m[3] else ('stale', np, nh)
        if nh > h:
            return ('early', nh)
        if h == 0:
            return ('no-port',)
        return ('early', h)

    def settle(self, p, m, answer):
        self.verdicts[m[0]] = plain(answer)
        if m[4] is not None and m[5] != p:
            self.put(p, m[5], ('report', m[0], answer))

    def enqueue(self, p, q, route, m):
        w = self.places[p].waits.setdefault((q, route), [])
        w.append(m)
        if len(w) == 1:
            self.go_on(p, q, route)

    def go_on(self, p, q, route):
        w = self.places[p].waits[(q, route)]
        while w:
            m = w[0]
            if q[0] > self.l.sites:
                self.settle(p, m, ('no-port',))
                w.pop(0)
                continue
            to, hop = self.newest(p, q)
            if m[3] and self.l.site_of(to) != m[3]:
                self.settle(p, m, ('elsewhere', to, hop))
                w.pop(0)
                continue
            if to != p:
                self.put(p, to, ('try', m, q, route, hop))
                return
            answer = self.decide(p, m, q, hop)
            assert answer[0] != 'stale'
            self.settle(p, m, answer)
            w.pop(0)

    def choose(self, p, m, dest):
        mode, g = dest[0], dest[1]
        group = self.places[p].groups.get(g)
        chosen = []
        if group is not None and group[0]:
            members, r = group
            n = len(members)
            if mode == 'all':
                chosen = list(members)
            elif mode == 'one':
                chosen = [members[r]]
                group[1] = (r + 1) % n
            else:
                for i in range(n):
                    q = members[(r + i) % n]
                    if q[0] <= self.l.sites and self.l.site_of(self.newest(p, q)[0]) == dest[2]:
                        chosen = [q]
                        group[1] = (r + i + 1) % n
                        break
        home = m[5]
        x = m[0]
        if not chosen:
            self.verdicts[x] = ('no-member',)
            if home != p:
                self.put(p, home, ('report', x, ('no-member',)))
            return
        ids = tuple((x[0], x[1], k + 1) for k in range(len(chosen)))
        self.copies[x] = ids
        if home != p:
            self.put(p, home, ('report', x, ('chosen', len(chosen))))
        only = dest[2] if mode == 'at' else 0
        for i, q in zip(ids, chosen):
            self.enqueue(p, q, g, (i, m[1], m[2], only, g, home))

    def post(self, c, dest, tag, body):
        home = self.l.place_at(c.actor[0], c.actor)
        c.posts += 1
        x = (c.seat, c.posts, 0)
        act = ('post', x, dest, tag, body)
        if dest[0] == 'port':
            self.enqueue(home, dest[1], None, (x, tag, body, 0, None, home))
        else:
            g = dest[1]
            m = (x, tag, body, 0, None, home)
            at = self.l.first(g[0]) if g[0] <= self.l.sites else home
            if at == home:
                self.choose(home, m, dest)
            else:
                self.put(home, at, ('ask', m, dest))
        return act

    def place_for(self, c, command):
        home = self.l.place_at(c.actor[0], c.actor)
        w = command[0]
        if w == 'newport':
            a = command[1]
            return self.l.place_at(a[0], a) if self.l.has_actor(a) else home
        if w in ('take', 'await', 'move', 'delete'):
            return self.l.place_at(c.actor[0], command[1])
        if w == 'newgroup':
            return self.l.first(command[1]) if 1 <= command[1] <= self.l.sites else home
        if w in ('join', 'leave'):
            return self.l.first(command[1][0]) if command[1][0] <= self.l.sites else home
        return home

    def may_act(self, seat, command):
        """Whether the command may come: an await does where its port, held here by the caller's actor, has a message that waits."""
        c = self.callers[seat]
        rec = self.places[self.place_for(c, command)].ports.get(command[1]) if command[0] == 'await' else None
        return command[0] != 'await' or (rec is not None and rec[0] == c.actor and bool(rec[4]))

    def act(self, seat, command):
        c = self.callers[seat]
        p = self.place_for(c, command)
        place = self.places[p]
        w = 'take' if command[0] == 'await' else command[0]
        if w == 'send':
            return self.post(c, ('port', command[1]), ('plain',), command[2])
        if w in ('all', 'one'):
            return self.post(c, (w, command[1]), ('plain',), command[2])
        if w == 'at':
            return self.post(c, ('at', command[1], command[2]), ('plain',), command[3])
        if w == 'call':
            if c.call is not None:
                return ('outstanding', c.call[0])
            c.given += 1
            c.call = (c.given, command[1], command[2], command[3])
            return self.post(c, ('port', command[1]), ('request', c.given, command[2]), command[3])
        if w == 'retry':
            if c.call is None:
                return ('no-call',)
            n, q, back, body = c.call
            return self.post(c, ('port', q), ('request', n, back), body)
        if w == 'cancel':
            if c.call is None:
                return ('no-call',)
            n = c.call[0]
            c.call = None
            return ('cancel', n)
        if w == 'reply':
            if c.hand is None:
                return ('no-request',)
            client, n, back = c.hand
            c.hand = None
            return self.post(c, ('port', back), ('reply', client, n), command[1])
        if w in ('take', 'move', 'delete'):
            q = command[1]
            rec = place.ports.get(q)
            if rec is None or rec[0] != c.actor:
                return ('not-here', q)
            if w == 'take':
                if not rec[4]:
                    return ('empty', q)
                m = rec[4].pop(0)
                rec[3] += 1
                tag = m[1]
                if tag[0] == 'request':
                    c.hand = (m[0][0], tag[1], tag[2])
                elif tag[0] == 'reply':
                    if tag[1] == seat and c.call is not None and c.call[0] == tag[2]:
                        c.call = None
                return ('take', q, m[0])
            if w == 'delete':
                del place.ports[q]
                place.deleted.add(q)
                return ('delete', q) + tuple(m[0] for m in rec[4])
            a = command[2]
            if not self.l.has_actor(a):
                return ('no-actor', a)
            if a[0] == self.l.site_of(p):
                rec[0] = a
                return ('rehome', q, a)
            to = self.l.place_at(a[0], q)
            del place.ports[q]
            rec[0] = a
            rec[2] += 1
            self.learn(p, q, to, rec[2])
            self.put(p, to, ('transfer', q, (a, rec[1], rec[2], rec[3], tuple(rec[4]), tuple(sorted(rec[5].items())))))
            return ('depart', q, to, a)
        if w == 'newport':
            a, cap = command[1], command[2]
            if not self.l.has_actor(a):
                return ('no-actor', a)
            t = self.l.turns
            if len(place.made) >= 32 // t:
                return ('make-full', a)
            q = (a[0], 'p', (p - 1) % t + 1 + t * len(place.made))
            place.made.append(q)
            place.ports[q] = [a, cap, 0, 0, [], {}]
            return ('make', q, a, cap)
        if w == 'newgroup':
            s = command[1]
            if not 1 <= s <= self.l.sites:
                return ('no-site', s)
            if len(place.groups) >= 4:
                return ('groups-full', s)
            g = (s, 'g', len(place.groups) + 1)
            place.groups[g] = [[], 0]
            return ('group', g)
        g, q = command[1], command[2]
        group = place.groups.get(g)
        if group is None:
            return ('no-group', g)
        if w == 'join':
            if q in group[0]:
                return ('there', g, q)
            if len(group[0]) >= 32:
                return ('members-full', g)
            group[0].append(q)
            return ('join', g, q)
        if q not in group[0]:
            return ('not-there', g, q)
        i = group[0].index(q)
        group[0].pop(i)
        if i < group[1]:
            group[1] -= 1
        if group[1] >= len(group[0]):
            group[1] = 0
        return ('leave', g, q)

    def deliver(self, a, b):
        cargo = self.links[(a, b)].pop(0)
        if not self.links[(a, b)]:
            del self.links[(a, b)]
        place = self.places[b]
        w = cargo[0]
        if w == 'try':
            _, m, q, route, hop = cargo
            answer = self.decide(b, m, q, hop)
            if answer[0] == 'stale':
                self.stale |= {m[0]}
            else:
                self.verdicts[m[0]] = plain(answer)
            self.put(b, a, ('verdict', m[0], q, route, answer))
        elif w == 'verdict':
            _, x, q, route, answer = cargo
            wq = place.waits[(q, route)]
            assert wq[0][0] == x
            if answer[0] in ('stale', 'elsewhere'):
                self.learn(b, q, answer[1], answer[2])
            if answer[0] != 'stale':
                self.settle(b, wq[0], answer)
                wq.pop(0)
            self.go_on(b, q, route)
        elif w == 'transfer':
            _, q, r = cargo
            place.ports[q] = [r[0], r[1], r[2], r[3], list(r[4]), dict(r[5])]
            self.learn(b, q, b, r[2])
        elif w == 'ask':
            self.choose(b, cargo[1], cargo[2])

def plain(answer):
    if answer[0] in ('accepted', 'early', 'elsewhere'):
        return (answer[0],)
    return answer

# Texts.

def body_text(body):
    return ''.join(chr(b) if 0x20 <= b <= 0x7e and b != 0x25 else '%%%02x' % b for b in body)

def act_text(act):
    w = act[0]
    if w == 'post':
        _, x, dest, tag, body = act
        d = f"{dest[0]} {show(dest[1])}" + (f" {dest[2]}" if dest[0] == 'at' else '')
        t = {'plain': 'plain'}.get(tag[0]) or (f"request {tag[1]} {show(tag[2])}" if tag[0] == 'request' else f"reply {tag[1]} {tag[2]}")
        return f"post {show_id(x)} {d} {t} ={body_text(body)}"
    if w == 'take':
        return f"take {show(act[1])} {show_id(act[2])}"
    if w == 'depart':
        return f"depart {show(act[1])} {act[2]} {show(act[3])}"
    if w == 'delete':
        return ' '.join(['delete', show(act[1])] + [show_id(x) for x in act[2:]])
    return ' '.join([w] + [show(a) if isinstance(a, tuple) else str(a) for a in act[1:]])

def facts(n, scripts, told):
    lines = []
    for k, acts in enumerate(told, 1):
        for i, a in enumerate(acts, 1):
            lines.append(f"answer {k} {i} {act_text(a)}")
    for acts in told:
        for a in acts:
            if a[0] == 'post':
                for x in (a[1],) + n.copies.get(a[1], ()):
                    v = n.verdicts.get(x)
                    lines.append(f"verdict {show_id(x)} " + (' '.join(map(str, v)) if v else 'chosen'))
                    if x in n.stale:
                        lines.append(f"stale {show_id(x)}")
    for p in sorted(n.places):
        for q in n.places[p].made:
            for r in sorted(n.places):
                rec = n.places[r].ports.get(q)
                if rec is not None:
                    lines.append(' '.join(['port', show(q), show(rec[0])] + [show_id(m[0]) for m in rec[4]]))
    for k, (script, acts) in enumerate(zip(scripts, told), 1):
        if len(acts) < len(script):
            lines.append(f"stuck {k} {len(acts) + 1}")
    return tuple(lines)

# Scenarios.

def parse(text):
    lines = [x for x in text.split('\n') if x and not x.startswith('#')]
    setup, scripts, steps = [], [], []
    version = int(lines[0].split()[1])
    mode = 'setup'
    for line in lines[2:]:
        w = line.split(' ')[0]
        if w == 'script':
            scripts.append((ui(line.split(' ')[1]), []))
            mode = 'script'
        elif w == 'schedule':
            mode = 'schedule'
        elif w == 'end':
            break
        elif mode == 'setup':
            f = line.split(' ')
            if w == 'port':
                setup.append(('newport', ui(f[2]), int(f[3])))
            elif w == 'group':
                setup.append(('newgroup', ui(f[1])[0]))
            else:
                setup.append(('join', ui(f[1]), ui(f[2])))
        elif mode == 'script':
            count = {'send': 1, 'all': 1, 'one': 1, 'at': 2, 'call': 2, 'reply': 0}.get(w)
            if count is not None:
                f = line.split(' ', count + 1)
                b = f[count + 1]
                body = b[1:].encode() if b[0] == '=' else bytes.fromhex(b[1:])
                args = [ui(x) if '.' in x else int(x) for x in f[1:count + 1]]
                scripts[-1][1].append(tuple([w] + args + [body]))
            else:
                f = line.split(' ')
                scripts[-1][1].append(tuple([w] + [ui(x) if '.' in x else int(x) for x in f[1:]]))
        else:
            steps.append(line)
    return setup, scripts, steps

def begin(text, layout=None):
    setup, scripts, steps = parse(text)
    n = Net(layout or Layout(SITES, 1))
    for c in setup:
        n.act(0, c)
    for k, (actor, _) in enumerate(scripts, 1):
        n.callers.append(Caller(k, actor))
    return n, [s[1] for s in scripts], steps

def moves(n, scripts, at):
    for k, s in enumerate(scripts):
        if at[k] < len(s) and n.may_act(k + 1, s[at[k]]):
            yield ('step', k + 1)
    for link in sorted(n.links):
        if n.links[link]:
            yield ('deliver',) + link

def follow(text, steps, layout=None):
    """The outcome of one schedule: step and deliver lines."""
    n, scripts, _ = begin(text, layout)
    at = [0] * len(scripts)
    told = [() for _ in scripts]
    for s in steps:
        f = s.split()
        if f[0] == 'step':
            k = int(f[1]) - 1
            assert n.may_act(k + 1, scripts[k][at[k]]), 'an await that may not come'
            told[k] += (n.act(k + 1, scripts[k][at[k]]),)
            at[k] += 1
        else:
            n.deliver(int(f[1]), int(f[2]))
    assert not any(True for _ in moves(n, scripts, at)), 'not whole'
    return facts(n, scripts, told)
