/* Sites, and ports that move between them, as docs/FORMATS.md has their rules, for the protocols beside this file. Not here: groups,
   deletion, and more than one place a site.

   A protocol says before it includes this how many SITES, PORTS and MESSAGES there are; each is numbered from 1. What stands in one
   atomic block is one move of chorus: a command of a script, or the delivery of the first packet of a link. */

mtype = { unsent, waits, accepted, no_room, early, already, stale };  /* what became of a message; `stale` only on its way */
mtype = { try, verdict, port };                                    /* what a packet is */

#define from(a, b) link[(a) * (SITES + 1) + (b)]
#define sent(s, q) outbox[(s) * (PORTS + 1) + (q)]
#define seen(s, q) known[(s) * (PORTS + 1) + (q)]
#define after(s, q) hops[(s) * (PORTS + 1) + (q)]

/* packets between two sites come in their order: what it is, message, port, answer, place and hop */
chan link[(SITES + 1) * (SITES + 1)] = [6] of { mtype, byte, byte, mtype, byte, byte };
/* at a site, what it sends to a port and is not settled: the first is under way */
chan outbox[(SITES + 1) * (PORTS + 1)] = [MESSAGES] of { byte };
/* where a site knows a port to be, and by which hop */
byte known[(SITES + 1) * (PORTS + 1)], hops[(SITES + 1) * (PORTS + 1)];
/* of a port: the site that holds it, 0 while it is under way; its room; what waits in it; the last request that it accepted of its client */
byte held[PORTS + 1], room[PORTS + 1], request[PORTS + 1];
chan queue[PORTS + 1] = [MESSAGES] of { byte };
/* of a message: what became of it; whether it was told `stale`; as a request that may be sent again its number, or 0; as any request the
   port for its reply, and whether it was replied to */
mtype fate[MESSAGES + 1] = unsent;
bool was_stale[MESSAGES + 1];
byte number[MESSAGES + 1], back[MESSAGES + 1];
bool replied[MESSAGES + 1];

/* used within a move alone, and 0 behind it, so that they tell no states apart */
mtype kind, answer;
byte x, p, place, hop;

inline clear() {
    kind = 0;
    answer = 0;
    x = 0;
    p = 0;
    place = 0;
    hop = 0
}

/* port q is made at site s, and all sites know that */
inline make(q, s, capacity) {
    held[q] = s;
    room[q] = capacity;
    for (place : 1 .. SITES) {
        seen(place, q) = s
    }
    clear()
}

/* what site s answers to message x for port q, which was tried by hop h */
inline decide(s, q, h) {
    if
    :: held[q] == s && number[x] > 0 && request[q] >= number[x] -> answer = already
    :: held[q] == s && !(number[x] > 0 && request[q] >= number[x]) && len(queue[q]) == room[q] -> answer = no_room
    :: held[q] == s && !(number[x] > 0 && request[q] >= number[x]) && len(queue[q]) < room[q] ->
        queue[q] ! x;
        answer = accepted;
        if
        :: number[x] > 0 -> request[q] = number[x]
        :: else
        fi
    :: held[q] != s && after(s, q) > h && seen(s, q) != s -> answer = stale
    :: held[q] != s && !(after(s, q) > h && seen(s, q) != s) -> answer = early
    fi;
    if
    :: answer == stale -> was_stale[x] = true
    :: else -> fate[x] = answer
    fi
}

/* site s goes on with what it sends to port q */
inline go_on(s, q) {
    do
    :: empty(sent(s, q)) -> break
    :: nempty(sent(s, q)) && seen(s, q) != s ->
        sent(s, q) ? <x>;
        from(s, seen(s, q)) ! try, x, q, unsent, 0, after(s, q);
        break
    :: nempty(sent(s, q)) && seen(s, q) == s ->
        sent(s, q) ? x;
        decide(s, q, after(s, q))
    od
}

/* a caller on site s sends message m to port q */
inline send(s, m, q) {
    fate[m] = waits;
    sent(s, q) ! m;
    if
    :: len(sent(s, q)) == 1 -> go_on(s, q)
    :: len(sent(s, q)) > 1
    fi;
    clear()
}

/* a caller on site s takes from port q: `got` is the message, or 0 where there is none */
inline take(s, q, got) {
    if
    :: held[q] == s && nempty(queue[q]) -> queue[q] ? got
    :: held[q] != s || empty(queue[q]) -> got = 0
    fi
}

/* a caller on site s replies with message m to the request in `hand`, where it has one */
inline reply(s, m, hand) {
    if
    :: hand > 0 ->
        replied[hand] = true;
        send(s, m, back[hand])
    :: else
    fi
}

/* a caller on site s moves port q to another site, where it is there */
inline move(s, q, to) {
    if
    :: held[q] == s ->
        held[q] = 0;
        after(s, q) = after(s, q) + 1;
        seen(s, q) = to;
        from(s, to) ! port, 0, q, unsent, 0, after(s, q)
    :: else
    fi
}

/* works off the packets from site a to site b */
proctype deliver(byte a, b) {
end:
    do
    :: atomic {
        from(a, b) ? kind, x, p, answer, place, hop ->
        if
        :: kind == try ->
            decide(b, p, hop);
            from(b, a) ! verdict, x, p, answer, seen(b, p), after(b, p)
        :: kind == verdict && answer == stale ->
            if
            :: hop > after(b, p) ->
                seen(b, p) = place;
                after(b, p) = hop
            :: else
            fi;
            go_on(b, p)
        :: kind == verdict && answer != stale ->
            sent(b, p) ? x;
            go_on(b, p)
        :: kind == port ->
            held[p] = b;
            seen(b, p) = b;
            after(b, p) = hop
        fi;
        clear()
    }
    od
}

#define is_refused(m) (fate[m] == no_room || fate[m] == early || fate[m] == already)
#define is_accepted(m) (fate[m] == accepted -> 1 : 0)
/* where nothing may come any more, claim k of the scenario; of one that says `possible` that it is not so */
#define claim(k, what) assert(k > 0 && (what))
