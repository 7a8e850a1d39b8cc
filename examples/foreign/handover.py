"""Two threads, and a mailbox that one hands over to the other while messages are sent to it. Prints its events as a journal.

    python3 examples/foreign/handover.py            the mailbox is handed over
    python3 examples/foreign/handover.py keeping    a fault: the thread that hands it over keeps it too

Both receive the same messages in the same order. The journal alone tells them apart.
"""

import sys
from collections import deque
from queue import Queue
from threading import Thread

from journal import Place, text

PORT = "1.p.1"  # the name of the mailbox: the first port that is made on site 1
KEEPING = sys.argv[1:] == ["keeping"]


class Mailbox:
    def __init__(self):
        self.waiting, self.accepted, self.taken = deque(), 0, 0


class Worker:
    """What one thread has: the mailboxes that it holds, and what the other one sends it."""

    def __init__(self, number):
        self.place, self.inbox, self.held = Place(number), Queue(), {}
        self.posts, self.received = 0, []

    def accept(self, seat, message, body, behind=0):
        mailbox = self.held[PORT]
        position = mailbox.accepted
        mailbox.accepted += 1
        mailbox.waiting.append((message, body))
        return position, self.place.log(seat, f"accept {message} {PORT} {position}", behind)

    def take(self, seat):
        mailbox = self.held[PORT]
        message, body = mailbox.waiting.popleft()
        self.place.log(seat, f"take {PORT} {mailbox.taken} {message}")
        mailbox.taken += 1
        self.received.append(body)

    def send(self, seat, body, other):
        """Puts a message into the mailbox, or where that was handed over sends it there, and waits for the answer."""
        self.posts += 1
        message = f"{seat}:{self.posts}:0"
        self.place.log(seat, f"post {message} port {PORT} plain ={body}")
        if PORT in self.held:
            self.accept(seat, message, body)
            return
        clock = self.place.log(seat, f"try {message} {PORT} {other.place.number} 1")
        other.inbox.put(("message", clock, (message, body)))
        _, clock, answer = self.inbox.get()
        self.place.log(0, f"told {message} {answer}", clock)

    def hand_over(self, seat, other):
        mailbox = self.held[PORT] if KEEPING else self.held.pop(PORT)
        number = other.place.number
        clock = self.place.log(seat, f"depart {PORT} {number} {number}.a.1 1")
        other.inbox.put(("mailbox", clock, mailbox))


def first(one, two):
    """Makes the mailbox, sends two messages to it, hands it over, and sends a third one."""
    one.held[PORT] = Mailbox()
    one.place.log(0, f"make {PORT} 1.a.1 4")
    one.send(1, "a", two)
    one.send(1, "b", two)
    one.hand_over(1, two)
    one.send(1, "c", two)
    two.inbox.put(("stop", 0, None))


def second(one, two):
    """Receives the first message when the mailbox has come, and the others when there will be no more."""
    kind = ""
    while kind != "stop":
        kind, clock, what = two.inbox.get()
        if kind == "mailbox":
            two.held[PORT] = what
            two.place.log(0, f"arrive {PORT} 1", clock)
            two.take(2)
        elif kind == "message":
            position, clock = two.accept(0, *what, clock)
            one.inbox.put(("told", clock, f"accepted {position}"))
    while two.held[PORT].waiting:
        two.take(2)


def main():
    workers = Worker(1), Worker(2)
    threads = [Thread(target=work, args=workers) for work in (first, second)]
    for thread in threads:
        thread.start()
    for thread in threads:
        thread.join()
    print("received " + ", ".join(workers[1].received), file=sys.stderr)
    print(text([worker.place for worker in workers]), end="")


if __name__ == "__main__":
    main()
