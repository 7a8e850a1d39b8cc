"""What a line of a journal needs, in words: of each rule its conditions, by the numbers by which `judge` names the one that fails.

The program alone judges a journal (crates/judge_rules/specs/Conditions.antt has the conditions, and those of a judgement by promises are
in crates/judge_promises/specs/Conditions.antt). This has their words."""

# Each act, by its word: its rule is its place here, from 1. Its words are those of its conditions from the second on; the first is that
# its names are of their kinds. {0}, {1} .. are the fields of the act.
HELD, ACTOR = "{%d} is held at place {place}", "there is an actor {%d}"
FIRST = "waits first in {0}"
DUE, LOCATED = "{0} is to be decided at place {place} for {1}", "{1} left place {place} for place {%d} by hop {%d}"
ENTERS = [
    HELD % 1,
    "place {place} is on the site that {0} asks for",
    "{1} did not accept this request before, nor a later one of its caller",
    "{1} remembers the caller, or fewer than 64",
]
GROUP = ["place {place} is the first of the site of {0}", "{0} is made at place {place}"]
MEMBER, NO_MEMBER = "{1} is a member of {0}", "{1} is no member of {0}"
TURN = "{0} is the next post to {1} for which members are chosen at place {place}"
CALL, TAKEN = "call {0} of the caller is outstanding", "the caller just took the reply to its request {0} at place {place}"
WORDS = {
    "make": [
        ACTOR % 1,
        "place {place} is the home of {1}",
        "its room is 1 to 64",
        "place {place} made fewer than its share of the 32 ports of its site",
        "{0} is the next port that place {place} makes",
    ],
    "make-full": [ACTOR % 0, "place {place} is the home of {0}", "place {place} made its share of the 32 ports of its site"],
    "no-actor": ["there is no actor {0}"],
    "no-site": ["there is no site {0}"],
    "post": [
        "the id {0} is one of the caller {seat}",
        "{0} is the next id of the caller",
        "the id {0} ends with 0",
        "a caller posts at one place alone",
    ],
    "accept": [*ENTERS, "{1} has room", "{2} messages were accepted before it", DUE],
    "full": [*ENTERS, "{1} has no room", "{2} messages wait in it", DUE],
    "already": [HELD % 1, "{1} accepted this request before, or a later one of its caller", DUE],
    "clients-full": [HELD % 1, "{1} remembers 64 callers, and not that of this request", DUE],
    "stale": [
        "{1} is not held at place {place}",
        LOCATED % (3, 4),
        "hop {4} is later than the one of the try, {2}",
        "it left for another place",
        "{0} is for no site",
        "{0} is to be decided at place {place} for {1}, tried by hop {2}",
    ],
    "early": ["{1} is on its way to place {place} by hop {2}", "{0} goes to {1} by hop {2}"],
    "no-port": ["{1} is not made, or of no site that is there", "{0} is to be decided at place {place} for {1}, as it was made there"],
    "elsewhere": ["{0} is for one site", LOCATED % (2, 3), "{0} finds {1} elsewhere than on its site"],
    "no-member": [TURN, "no member of {1} can be chosen for it"],
    "choose": [TURN, "members are chosen", "those members are the ones that {1} has for it"],
    "try": [
        "there is a site of {1}",
        "place {place} has {1} at place {2}",
        "it is there by hop {3}",
        "that is another place",
        "place {2} is on the site that {0} asks for",
        "{0} is the next message that place {place} sends to {1}, and is not under way",
    ],
    "told": ["that was decided on {0} where place {place} tried it"],
    "heard": ["that became of {0}, which the place did not hear yet", "{0} was posted at place {place} to a group of another place"],
    "take": [HELD % 0, "{1} messages were taken before it", "{2} " + FIRST],
    "done": [TAKEN, "it ends call {0} of the caller"],
    "late": [TAKEN, "it ends no call of the caller"],
    "empty": [HELD % 0, "nothing waits in {0}"],
    "not-here": [],
    "rehome": [HELD % 0, ACTOR % 1, "{1} is on the site of place {place}"],
    "depart": [HELD % 0, ACTOR % 2, "{2} is on another site", "place {1} is the one of {0} on that site", "it is hop {3} of {0}"],
    "arrive": ["{0} is on its way to place {place} by hop {1}"],
    "group": [GROUP[0], "a site makes at most 4 groups", "{0} is the next group of its site"],
    "groups-full": ["there is a site {0}", "place {place} is the first of site {0}", "it made all its 4 groups"],
    "join": [*GROUP, NO_MEMBER, "{0} has fewer than 32 members"],
    "leave": [*GROUP, MEMBER],
    "no-group": ["there is no group {0}"],
    "there": [*GROUP, MEMBER],
    "not-there": [*GROUP, NO_MEMBER],
    "members-full": [*GROUP, "{0} has 32 members"],
    "outstanding": [CALL],
    "no-call": ["no call of the caller is outstanding"],
    "no-request": ["the caller holds no request"],
    "cancel": [CALL],
    "delete": [HELD % 0, "these messages wait in {0}"],
    "gone": ["{1} was deleted at place {place}", DUE],
}
ACTS = list(WORDS)
# Behind the four of each post stand those of its tag.
TAGS = {
    "plain": [],
    "request": ["a request goes to a port", "it is the next request of the caller, or its outstanding one again"],
    "reply": ["it answers the request that the caller holds, at the port that this asks for"],
}
# What an act promises, by which `judge promises` judges: its words are those of its conditions from the first on.
SENT = ["{0} was sent to {1}", "{0} is not decided yet"]
ASKED = ["{0} is a post to {1}", "no member was chosen for {0} before, and none was found wanting"]
PROMISES = {
    "make": ["{0} was not made before", "its room is 1 to 64"],
    "post": [
        "the id {0} is one of the caller {seat}, and ends with 0",
        "the number of {0} is above those of all that the caller posted before",
    ],
    "accept": [
        *SENT,
        HELD % 1,
        "{1} has room",
        "{2} messages were accepted before it",
        "its number is above those of all that {1} accepted of the same caller by the same way, directly or by one group",
        "{1} did not accept this request before",
    ],
    "full": [*SENT, HELD % 1, "{2} messages wait in {1}, and it has no room for more"],
    "already": [*SENT, HELD % 1, "{1} accepted this request before, or a later one of its caller"],
    "clients-full": [*SENT, HELD % 1, "{0} is a request"],
    "early": [*SENT, "{1} is on its way to place {place} by hop {2}"],
    "no-port": [*SENT, "{1} was not made"],
    "elsewhere": [*SENT, "{0} is for one site"],
    "no-member": ASKED,
    "choose": [*ASKED, "members are chosen, none of them twice, and one alone where {0} is for one"],
    "take": [HELD % 0, "{2} " + FIRST, "{1} messages were taken before it"],
    "depart": [HELD % 0, "there is a place {1}, and it is another one", "hop {3} is the next one of {0}"],
    "arrive": ["{0} is on its way to place {place}", "it left by hop {1}"],
    "delete": [HELD % 0, "the messages that it names are those that wait in {0}, in order"],
    "gone": [*SENT, "{1} was deleted"],
}
OF_A_CLOCK = ["there is a place {place}", "its clock is above the last one of place {place}"]
KINDS, REPLY_RULE, NO_LINE = "its names are of the kinds that the act asks for", 41, 99
BEHIND_A_REPLY = "directly behind the take of a reply a done or a late stands at its place"


def words_of(line, rule, condition):
    """What this condition of a rule asks of the entry of a line."""
    _, place, seat, act, *fields = line.split(" ")
    if rule == REPLY_RULE:
        return BEHIND_A_REPLY
    if rule == 0:
        words = OF_A_CLOCK
    else:
        words = [KINDS, *WORDS[act], *(TAGS[next(it for it in fields[3:] if it in TAGS)] if act == "post" else [])]
    return words[condition - 1].format(*fields, place=place, seat=seat)


def promise_of(line, rule, condition):
    """What this condition of a rule asks of the entry of a line, by promises."""
    _, place, seat, act, *fields = line.split(" ")
    words = PROMISES[act] if rule else [*OF_A_CLOCK, KINDS]
    return words[condition - 1].format(*fields, place=place, seat=seat)
