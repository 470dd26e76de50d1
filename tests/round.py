"""A call for a frame goes round (paper 01, request W5): who is due, who is served and how many berths are passed over, read off what the
scenes program itself printed.

tests/run hands over the records of a round stream and the lines that a program printed for them. Nothing here asks the peer.
"""

import re
from collections import Counter
from itertools import product

TURN, LOAD_RECEIVE, LOAD_SEND, LOAD_NODE, STATE, NODE = 4, 7, 8, 9, 10, 11  # kinds of records
BERTHS, TO_BERTH_0, CONSECUTIVE = range(10), 0x660, 4
NONE = len(BERTHS)  # berths passed over where nothing is due
RECEIVE = ("idle", "owes overflow", "owes go", "awaits")  # by the state's number
SEND = ("idle", "single due", "first due", "awaits flow control", "consecutive", "consecutive in its gap")
DUE = {"owes overflow": "320000", "owes go": "30", "single due": "0", "first due": "1", "consecutive": "2"}  # how the frame begins
STATE_LINE = re.compile(r"state set \d+ \d+ rx ([\d ]+) last \d+ tx ([\d ]+)")


def send_state(number, gap_left):
    return SEND[number + (number == CONSECUTIVE and gap_left > 0)]


class Round:
    """The ten berths as they were loaded or looked at last, and the berth served last."""

    def __init__(self):
        self.receive, self.send = ["idle" for _ in BERTHS], ["idle" for _ in BERTHS]
        self.served = 9
        self.seen = Counter()

    def read(self, record, answer):
        """What should have been answered, where it was not."""
        kind, berth, state = record[:3]
        if kind == LOAD_RECEIVE:
            self.receive[berth] = RECEIVE[state]
        elif kind == LOAD_SEND:
            self.send[berth] = send_state(state, record[11])
        elif kind == LOAD_NODE:
            self.served = berth
        elif kind == TURN:
            return self.read_turn(answer)
        elif kind == NODE and int(answer.split()[-1]) != self.served:
            return f"served last is {self.served}"
        elif kind == STATE:
            self.read_state(berth, answer)
        return ""

    def read_state(self, berth, answer):
        receive, send = ([int(n) for n in numbers.split()] for numbers in STATE_LINE.fullmatch(answer).groups())
        self.receive[berth] = RECEIVE[receive[0]]
        self.send[berth] = send_state(send[0], send[7] if send[0] == CONSECUTIVE else 0)

    def due(self, berth):
        """What is due of a berth: flow control goes first."""
        return [state for state in (self.receive[berth], self.send[berth]) if state in DUE]

    def first_due(self):
        """From the berth after the one served last: how many are passed over up to the first with a frame due, and which it is."""
        for passed in BERTHS:
            berth = (self.served + 1 + passed) % len(BERTHS)
            if self.due(berth):
                return passed, berth
        return NONE, None

    def read_turn(self, answer):
        passed, berth = self.first_due()
        self.note(passed)
        if berth is None:
            return "" if re.fullmatch("none buffer (EE){8,}", answer) else "nothing is due"
        begins = DUE[self.due(berth)[0]]
        frame = rf"({begins}\w{{{16 - len(begins)}}})"  # the buffer holds it too, and nothing else is written there
        self.served = berth
        line = rf"frame {TO_BERTH_0 + berth:04X} {frame} passed {passed} code (0|1 party {berth}:[01]) buffer \1(EE)*"
        return "" if re.fullmatch(line, answer) else f"berth {berth} is the first with a frame due, {passed} passed over: {begins}.."

    def note(self, passed):
        """What this node has of all that the streams shall have."""
        due = [bool(self.due(k)) for k in BERTHS]
        idle = [(self.receive[k], self.send[k]) == ("idle", "idle") for k in BERTHS]
        front = idle.index(False) if False in idle else NONE
        self.seen["due berths, served last", tuple(due), self.served] += 1
        self.seen["passed over", passed] += 1
        self.seen["idle at the front, next is due, served last", front, front != NONE and due[front], self.served] += 1
        self.seen["none due, so many idle, served last", sum(idle), self.served] += not any(due)
        self.seen.update(("berth and its states", k, self.receive[k], self.send[k]) for k in BERTHS)


def round_or_not(records, output, sets):
    """A text of where the output on a round stream of so many sets of due berths is not the paper's, and what the stream has seen."""
    lines = output.decode().splitlines()
    if len(lines) != len(records):
        return f"{len(lines)} lines for {len(records)} records", Counter()
    going = Round()
    for record, line in zip(records[1:], lines[1:]):  # the first is the header, which has no kind
        answer = line.partition(" ")[2]
        try:
            wanted = going.read(record, answer)
        except (AttributeError, LookupError, ValueError):
            wanted = "another kind of line"
        if wanted or answer == "bad" or answer.startswith("refused"):
            return f"record {line}: {wanted or 'an answer'}", going.seen
    found = len({due for what, due, *_ in going.seen if what.startswith("due berths")})
    return "" if found == sets else f"{found} sets of due berths, not {sets}", going.seen


def unseen(seen):
    """A text of what the round streams together should have seen, and have not. A berth's states are wanted often, as they are drawn."""
    either = (False, True)
    wanted = {("due berths, served last", *one): 1 for one in product(product(either, repeat=len(BERTHS)), BERTHS)}
    wanted |= {("passed over", passed): 100 for passed in (*BERTHS, NONE)}
    wanted |= {("idle at the front, next is due, served last", *one): 1 for one in product(BERTHS, either, BERTHS)}
    wanted |= {("none due, so many idle, served last", *one): 1 for one in product((*BERTHS, NONE), BERTHS)}
    wanted |= {("berth and its states", *one): 50 for one in product(BERTHS, RECEIVE, SEND)}
    missing = [f"seen {seen[what]} times, not {least}: {what}" for what, least in wanted.items() if seen[what] < least]
    return "\n".join(missing[:10])


def in_short(seen):
    """How often each number of berths was passed over, in a line."""
    pairs = sum(what[0].startswith("due berths") for what in seen)
    times = [f"{'none' if n == NONE else n}: {seen['passed over', n]}" for n in (*BERTHS, NONE)]
    return f"all {pairs} pairs of due berths and a berth served last; passed over, so many times: {', '.join(times)}"
