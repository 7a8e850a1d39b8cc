/* examples/queue.chorus: a queue moves to site 3 by way of its client's site, 2. With -DWRONG examples/queue_wrong.chorus: at once. */
#define SITES 3
#define PORTS 1
#define MESSAGES 2
#include "sites.pml"

byte got;  /* what the next holder took */

proctype client() {
    atomic { send(2, 1, 1) };
    atomic { send(2, 2, 1) }
}

#ifdef WRONG
proctype holder() {
    atomic { move(1, 1, 3) }
}
#else
proctype holder() {
    atomic { move(1, 1, 2) }
}

proctype passes_on() {
    atomic { move(2, 1, 3) }
}
#endif

proctype next_holder() {
    atomic { take(3, 1, got) }
}

proctype claims() {
    atomic {
        timeout;
        claim(1, !is_refused(1) && !is_refused(2));
        claim(2, is_accepted(1) + is_accepted(2) == (got > 0 -> 1 : 0) + len(queue[1]));
        claim(3, got == 0 || got == 1);
        claim(4, !(was_stale[1] && got == 1))
    }
}

init {
    atomic {
        make(1, 1, 4);
        run client();
        run holder();
#ifndef WRONG
        run passes_on();
#endif
        run next_holder();
        run deliver(1, 2);
        run deliver(2, 1);
        run deliver(1, 3);
        run deliver(3, 1);
        run deliver(2, 3);
        run deliver(3, 2);
        run claims()
    }
}
