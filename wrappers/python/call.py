"""A feature with a program between two phones. It prints the state of each slot once nothing is under way."""

from collections import deque
from ipaddress import IPv4Address

import media_box as m

# the ends of two tunnels: each end's far end is the one that stands beside it in its pair
ENDS = [("alice", 0), ("desk", 0), ("desk", 1), ("bob", 0)]
STATES = ["closed", "opening", "opened", "flowing", "closing"]


def make_boxes():
    shut = m.State.of([m.Goal(m.GOAL_CLOSE)] * 2, [m.Rule(m.TOLD, 1, 0, 1)])
    through = m.State.of([m.Goal(m.GOAL_LINK, 1), m.Goal(m.GOAL_LINK, 0)], [m.Rule(m.TOLD, 0, 0, 0)])
    two = [m.Slot(m.AUDIO, 0, 1), m.Slot(m.AUDIO, 1, 2)]
    phone, other = m.Slot.at(m.AUDIO, 1, 0, "192.0.2.1", 40000), m.Slot.at(m.AUDIO, 0, 3, "192.0.2.2", 40000)
    return {
        "alice": m.Box(m.DEVICE, 0, [phone], codecs=[8, 0]),
        "bob": m.Box(m.DEVICE, 1, [other], codecs=[0, 8]),
        "desk": m.Box(m.FEATURE, 2, two, program=[shut, through]),
    }


boxes = make_boxes()
queues = [deque() for _ in ENDS]


def carry(who, sent):
    for slot, signal in sent:
        queues[ENDS.index((who, slot)) ^ 1].append(signal)


def act(who, kind, first=0, second=0):
    carry(who, boxes[who].act(kind, first, second))


def settle():
    while True:
        while boxes["desk"].see().shifts:
            act("desk", m.SHIFT)
        end = next((i for i, queue in enumerate(queues) if queue), None)
        if end is None:
            return
        who, slot = ENDS[end]
        carry(who, boxes[who].take(slot, queues[end].popleft()))


def show(when):
    print(when)
    for who, slot in ENDS:
        view = boxes[who].see_slot(slot)
        sends = f"{view.sends.codec} to {IPv4Address(view.sends.addr)}:{view.sends.port}" if view.sends.flows else None
        print(f"{who}.{slot} {STATES[view.state]} sends {sends} owes {view.owes}")


try:
    boxes["alice"].take(0, m.Signal(kind=m.CLOSEACK))
except m.Refused as refused:
    print(refused)
act("bob", m.SET_GOAL, 0, m.GOAL_HOLD)
act("alice", m.SET_GOAL, 0, m.GOAL_OPEN)
settle()
show("the desk lets nobody through")
act("desk", m.TELL, 1)
act("alice", m.RETRY, 0)
settle()
show("talking")
for box in boxes.values():
    box.close()
