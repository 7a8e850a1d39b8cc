"""A mailbox moves, and its old holder forwards what comes for it.

    python3 examples/foreign/forwarding.py             all that the client sends goes by way of the old holder
    python3 examples/foreign/forwarding.py shortcut    a fault: the old holder tells the new address before it forwards what came
"""

import sys

from workers import run

SHORTCUT = sys.argv[1:] == ["shortcut"]


def old_holder(old, new, client):
    """Gives the mailbox away behind the first message."""
    old.make(4)
    old.put(*old.next()[1])
    old.move(new)
    behind = []
    while (packet := old.next())[0] != "stop":
        behind.append(packet[1])
        if not SHORTCUT:
            old.send(new, "message", behind.pop())
        old.send(client, "address", new if SHORTCUT else old)
    for message in behind:
        old.send(new, "message", message)
    old.send(new, "stop")


def new_holder(old, new, client):
    new.arrive(new.next()[1])
    while (packet := new.next())[0] != "stop":
        new.put(*packet[1])
    new.take_all()


def client(old, new, client):
    """Sends the third message to the address that it is told behind the second one."""
    client.send(old, "message", client.post("a"))
    client.send(old, "message", client.post("b"))
    client.send(client.next()[1], "message", client.post("c"))
    client.send(old, "stop")


if __name__ == "__main__":
    run(old_holder, new_holder, client)
