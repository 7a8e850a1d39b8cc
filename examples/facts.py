"""The facts that a journal comes to, in the order in which an exploration tells them, and those that a check tells besides, read by the
tables of docs/FORMATS.md."""

from collections import defaultdict

# The acts that answer a command: of these words all are told but for the position or the hop, which stands at this place.
ANSWERS = {"take": 1, "depart": 3}
ANSWERS |= dict.fromkeys("post empty not-here rehome delete make make-full no-actor no-site group groups-full join leave".split())
ANSWERS |= dict.fromkeys("no-group there not-there members-full outstanding no-call no-request cancel".split())
# What settles a message, and how that is told: as it stands there, or by its word alone.
VERDICTS = {"accept": "accepted", "early": "early", "elsewhere": "elsewhere", "choose": "chosen"}
VERDICTS |= dict.fromkeys("full already clients-full no-port no-member gone".split())


def facts(text):
    lines = text.splitlines()
    entries = [line.split(" ") for line in lines[1 : 1 + int(lines[0].split(" ")[1])]]
    answers, verdicts, copies, stale = defaultdict(list), {}, {}, set()
    made, held, waiting = defaultdict(list), {}, defaultdict(list)
    for _, place, seat, act, *fields in entries:
        if act in ANSWERS and seat != "0":
            told = [field for at, field in enumerate(fields) if at != ANSWERS[act]]
            answers[int(seat)].append((act, told))
        if act in VERDICTS:
            verdicts[fields[0]] = VERDICTS[act] or " ".join([act, *fields[2:]])
        if act == "choose":
            copies[fields[0]] = [f"{fields[0][:-2]}:{number}" for number, _ in enumerate(fields[2:], 1)]
        elif act == "stale":
            stale.add(fields[0])
        elif act == "accept":
            waiting[fields[1]].append(fields[0])
        elif act == "take":
            waiting[fields[0]].remove(fields[2])
        elif act == "make":
            made[int(place)].append(fields[0])
            held[fields[0]] = fields[1]
        elif act == "rehome":
            held[fields[0]] = fields[1]
        elif act == "depart":
            held[fields[0]] = fields[2]
        elif act == "delete":
            del held[fields[0]]
    told = [f"answer {seat} {number} {' '.join([act, *fields])}" for seat in sorted(answers) for number, (act, fields) in enumerate(answers[seat], 1)]
    for post in (fields[0] for seat in sorted(answers) for act, fields in answers[seat] if act == "post"):
        for message in [post, *copies.get(post, [])]:
            told.append(f"verdict {message} {verdicts[message]}")
            told += [f"stale {message}"] * (message in stale)
    return told + [" ".join(["port", port, held[port], *waiting[port]]) for place in sorted(made) for port in made[place] if port in held]


def all_facts(text):
    """Those that a check tells of the end: whether a reply that was taken ended the call, the member of each copy, what each port accepted, the members
    of groups, the calls that are outstanding, and the requests in hand."""
    lines = text.splitlines()
    entries = [line.split(" ") for line in lines[1 : 1 + int(lines[0].split(" ")[1])]]
    settled, sent, accepted, members, tags = {}, {}, defaultdict(list), {}, {}
    calls, hands, answers, made, groups = defaultdict(int), {}, defaultdict(int), defaultdict(list), defaultdict(list)
    outstanding = {}
    for _, place, seat, act, *fields in entries:
        if act in ANSWERS and seat != "0":
            answers[seat] += 1
        if act == "post":
            tags[fields[0]] = fields[3:6]
            if fields[3] == "request" and int(fields[4]) > calls[seat]:
                calls[seat] = int(fields[4])
                outstanding[seat] = [fields[4]]
            elif fields[3] == "reply":
                hands.pop(seat, None)
        elif act == "take" and tags[fields[2][: fields[2].rindex(":")] + ":0"][0] == "request":
            hands[seat] = [[fields[2].split(":")[0], tags[fields[2][: fields[2].rindex(":")] + ":0"][1]]]
        elif act in ("done", "late"):
            settled[seat, answers[seat]] = f" {act} {fields[0]}"
        elif act == "choose":
            sent |= {f"{fields[0][:-2]}:{number}": port for number, port in enumerate(fields[2:], 1)}
        elif act == "accept":
            accepted[fields[1]].append(fields[0])
        elif act == "make":
            made[int(place)].append(fields[0])
        elif act == "group":
            groups[int(place)].append(fields[0])
            members[fields[0]] = []
        elif act == "join":
            members[fields[0]].append(fields[1])
        elif act == "leave":
            members[fields[0]].remove(fields[1])
        if act in ("done", "cancel"):
            outstanding.pop(seat, None)
    told = []
    for line in facts(text):
        word, *rest = line.split(" ")
        if word == "verdict" and rest[0] in sent:
            told.append(f"copy {rest[0]} {sent[rest[0]]}")
        told.append(line + (settled.get((rest[0], int(rest[1])), "") if word == "answer" else ""))
    told += [" ".join(["accepted", port, *accepted[port]]) for place in sorted(made) for port in made[place]]
    told += [" ".join(["members", group, *members[group]]) for place in sorted(groups) for group in groups[place]]
    for seat in sorted({*outstanding, *hands}, key=int):
        told += [f"outstanding {seat} {number}" for number in outstanding.get(seat, [])]
        told += [" ".join(["hand", seat, *hand]) for hand in hands.get(seat, [])]
    return told
