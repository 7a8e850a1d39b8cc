"""A directory says where a mailbox is, and its client sends there.

    python3 examples/foreign/directory.py          who gets the mailbox registers it
    python3 examples/foreign/directory.py early    a fault: who gives it away does so first, to have no more messages while it moves
"""

import sys

from workers import PORT, Mailbox, run

EARLY = sys.argv[1:] == ["early"]


def old_holder(old, new, client, directory):
    """Gives the mailbox away behind the second message."""
    old.make(4)
    old.send(directory, "register", old)
    old.put(*old.next()[1])
    old.put(*old.next()[1])
    if EARLY:
        old.send(directory, "register", new)
    else:
        old.move(new)
    old.next()  # the client has no more for the old address
    if EARLY:
        old.move(new)
    old.send(new, "stop")


def new_holder(old, new, client, directory):
    while (packet := new.next())[0] != "stop":
        kind, what = packet
        if kind == "mailbox":
            new.arrive(what)
            new.send(directory, "register", new)
        else:
            if PORT not in new.held:
                new.held[PORT] = Mailbox(4)  # the directory sent the message here, so there must be one
            new.put(*what)
    new.take_all()


def client(old, new, client, directory):
    at = client.next()[1]
    client.send(at, "message", client.post("a"))
    client.send(at, "message", client.post("b"))
    at = client.next()[1]
    client.send(at, "message", client.post("c"))
    client.send(old, "moved on")


def directory(old, new, client, directory):
    """Tells the client each address that is registered; the first two matter here."""
    for _ in range(2):
        directory.send(client, "address", directory.next()[1])


if __name__ == "__main__":
    run(old_holder, new_holder, client, directory)
