/* examples/payment.chorus: a client on site 2 asks the bank on site 1 for a payment, and asks again, with the same request. With -DWRONG
   examples/payment_wrong.chorus: with another one. Port 1 is the bank's, port 2 the client's; messages 1 and 2 are the requests, 3 and 4 the
   replies of the two tellers. */
#define SITES 2
#define PORTS 2
#define MESSAGES 4
#include "sites.pml"

byte got, first, second;  /* what the client and the tellers took */

proctype client() {
    atomic { send(2, 1, 1) };
#ifdef WRONG
    atomic { skip };  /* cancel */
#endif
    atomic { send(2, 2, 1) };
    atomic { take(2, 2, got) }
}

proctype first_teller() {
    atomic { take(1, 1, first) };
    atomic { reply(1, 3, first) }
}

proctype second_teller() {
    atomic { take(1, 1, second) };
    atomic { reply(1, 4, second) }
}

#define is_taken(m) (got == m || first == m || second == m -> 1 : 0)
#define LOST (is_accepted(1) + is_accepted(2) + is_accepted(3) + is_accepted(4) \
    != is_taken(1) + is_taken(2) + is_taken(3) + is_taken(4) + len(queue[1]) + len(queue[2]))
#define REPLIED ((first == 0 || replied[first]) && (second == 0 || replied[second]))

proctype claims() {
    atomic {
        timeout;
        claim(1, !(first > 0 && second > 0));
#ifdef WRONG
        claim(2, REPLIED);
        claim(3, !LOST);
        claim(4, got == 0)
#else
        claim(2, fate[1] != accepted || fate[2] == already);
        claim(3, REPLIED);
        claim(4, !LOST);
        claim(5, got == 0)
#endif
    }
}

init {
    atomic {
        make(1, 1, 2);
        make(2, 2, 2);
        back[1] = 2;
        back[2] = 2;
        number[1] = 1;
#ifdef WRONG
        number[2] = 2;
#else
        number[2] = 1;
#endif
        run client();
        run first_teller();
        run second_teller();
        run deliver(1, 2);
        run deliver(2, 1);
        run claims()
    }
}
