/* examples/pressure.chorus: two workers on site 1 each ask a sender on site 2 for a job, into a mailbox of their own. With -DWRONG
   examples/pressure_wrong.chorus: into one that they share. Ports 1 and 2 are mailboxes, port 3 is what the sender is asked; messages 1 and 2 are
   the requests, 3 and 4 the jobs. */
#define SITES 2
#define PORTS 3
#define MESSAGES 4
#include "sites.pml"

byte one, two, first, second;  /* what the sender and the workers took */

proctype sender() {
    atomic { take(2, 3, one) };
    atomic { reply(2, 3, one) };
    atomic { take(2, 3, two) };
    atomic { reply(2, 4, two) }
}

proctype first_worker() {
    atomic { send(1, 1, 3) };
    atomic { take(1, 1, first) }
}

proctype second_worker() {
    atomic { send(1, 2, 3) };
    atomic { take(1, back[2], second) }
}

#define is_taken(m) (one == m || two == m || first == m || second == m -> 1 : 0)

proctype claims() {
    atomic {
        timeout;
        claim(1, !is_refused(1) && !is_refused(2) && !is_refused(3) && !is_refused(4));
        claim(2, is_accepted(1) + is_accepted(2) + is_accepted(3) + is_accepted(4) ==
            is_taken(1) + is_taken(2) + is_taken(3) + is_taken(4) + len(queue[1]) + len(queue[2]) + len(queue[3]));
        claim(3, (one == 0 || replied[one]) && (two == 0 || replied[two]));
        claim(4, first == 0 || first != second);
        claim(5, first == 0 || second == 0)
    }
}

init {
    atomic {
        make(1, 1, 1);
        make(2, 1, 1);
        make(3, 2, 2);
        back[1] = 1;
#ifdef WRONG
        back[2] = 1;
#else
        back[2] = 2;
#endif
        run sender();
        run first_worker();
        run second_worker();
        run deliver(1, 2);
        run deliver(2, 1);
        run claims()
    }
}
