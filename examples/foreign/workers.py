"""Threads that hold mailboxes and send each other packets, and log what any system does whose mailboxes move.

What a mailbox does with a message is logged; how the message comes to it is not.
"""

import sys
from collections import deque
from queue import Queue
from threading import Thread

from journal import Place, text

PORT = "1.p.1"  # the name of the mailbox: the first one that is made on site 1


class Mailbox:
    def __init__(self, capacity):
        self.capacity, self.waiting, self.accepted, self.taken = capacity, deque(), 0, 0


class Worker:
    """A thread: the mailboxes that it holds, what it received, and the packets that came to it."""

    def __init__(self, number):
        self.number, self.place, self.inbox = number, Place(number), Queue()
        self.held, self.received, self.posts = {}, [], 0

    def send(self, other, kind, what=None):
        other.inbox.put((kind, self.place.clock, what))

    def next(self):
        """The next packet. What is logged from now on stands behind what was logged where it was sent."""
        kind, clock, what = self.inbox.get()
        self.place.clock = max(self.place.clock, clock)
        return kind, what

    def make(self, capacity):
        self.held[PORT] = Mailbox(capacity)
        self.place.log(0, f"make {PORT} {self.number}.a.1 {capacity}")

    def post(self, body):
        """A message to the mailbox, wherever that is."""
        self.posts += 1
        message = f"{self.number}:{self.posts}:0"
        self.place.log(self.number, f"post {message} port {PORT} plain ={body}")
        return message, body

    def put(self, message, body):
        """Puts a message into the mailbox, or refuses it where that is full."""
        mailbox = self.held[PORT]
        if len(mailbox.waiting) == mailbox.capacity:
            self.place.log(0, f"full {message} {PORT} {mailbox.capacity}")
            return
        self.place.log(0, f"accept {message} {PORT} {mailbox.accepted}")
        mailbox.accepted += 1
        mailbox.waiting.append((message, body))

    def take(self):
        mailbox = self.held[PORT]
        message, body = mailbox.waiting.popleft()
        self.place.log(self.number, f"take {PORT} {mailbox.taken} {message}")
        mailbox.taken += 1
        self.received.append(body)

    def take_all(self):
        while self.held[PORT].waiting:
            self.take()

    def move(self, other):
        """The mailbox leaves for another thread."""
        self.place.log(self.number, f"depart {PORT} {other.number} {other.number}.a.1 1")
        self.send(other, "mailbox", self.held.pop(PORT))

    def arrive(self, mailbox):
        self.held[PORT] = mailbox
        self.place.log(0, f"arrive {PORT} 1")


def run(*works):
    """Gives each work a thread; prints what was received, and the journal."""
    workers = [Worker(number) for number, _ in enumerate(works, 1)]
    threads = [Thread(target=work, args=workers) for work in works]
    for thread in threads:
        thread.start()
    for thread in threads:
        thread.join()
    print("received " + ", ".join(body for worker in workers for body in worker.received), file=sys.stderr)
    print(text([worker.place for worker in workers]), end="")
