"""A sender that does not wait for answers, and sends once more what it is not sure of; and a mailbox with room for three.

    python3 examples/foreign/pipeline.py               the mailbox knows a message that came before
    python3 examples/foreign/pipeline.py forgetting    a fault: it does not, and takes the message twice
"""

import sys

from workers import run

FORGETTING = sys.argv[1:] == ["forgetting"]


def receiver(receiver, _):
    """Takes one message at each pause, and all of them in the end."""
    receiver.make(3)
    known = set()
    while (packet := receiver.next())[0] != "stop":
        kind, message = packet
        if kind == "pause":
            receiver.take()
        elif FORGETTING or message not in known:
            known.add(message)
            receiver.put(*message)
    receiver.take_all()


def sender(receiver, sender):
    first = sender.post("a")
    sender.send(receiver, "message", first)
    sender.send(receiver, "message", sender.post("b"))
    sender.send(receiver, "message", first)
    sender.send(receiver, "message", sender.post("c"))
    sender.send(receiver, "message", sender.post("d"))
    sender.send(receiver, "pause")
    sender.send(receiver, "message", sender.post("e"))
    sender.send(receiver, "stop")


if __name__ == "__main__":
    run(receiver, sender)
