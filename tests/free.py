"""Every berth comes free (request W13): the law, read off what the scenes program itself printed.

tests/run hands over the records of a free stream and the lines that a program printed for them. Nothing here asks the peer.
"""

import re
from collections import defaultdict

FRAME, TICK, SEND, TURN, DUMP, LOAD_NODE, STATE, NODE, CARD = 1, 2, 3, 4, 6, 9, 10, 11, 15  # kinds of records
TIMER_END, LONGEST_GAP, COUNT_TOP = 1_000, 128, 4_294_967_295
FREE_TICKS = TIMER_END + LONGEST_GAP
LOOKS = (0, FREE_TICKS - 1, FREE_TICKS)  # after so many ticks the states are looked at
CODES = {"receive": (0, 2, 2, 4), "send": (0, 2, 2, 3, 2)}  # by the state's number; idle comes first
OWES_OVERFLOW, CONSECUTIVE = 1, 4
COUNTED = {("receive", 2): 2, ("receive", 4): 3, ("send", 2): 8, ("send", 3): 8}  # the place on a card


class Side:
    """One side of a berth, by the numbers in the line of its state."""

    def __init__(self, name, numbers):
        self.name, self.state = name, numbers[0]
        self.idle = self.state == 0
        gap_left = numbers[7] if name == "send" and self.state == CONSECUTIVE else 0
        timer = 0 if self.idle else numbers[-2 if name == "send" else -1]  # behind that of a send side stands its party
        self.end = 0 if self.idle else gap_left + TIMER_END - timer  # the tick that ends it

    def reports(self):
        """What it reports while only the clock goes on: (tick, code), once."""
        return [] if self.idle else [(self.end, CODES[self.name][self.state])]


class Berth:
    """A berth by the line of its state: "state set BS STMIN rx NUMBERS last LENGTH tx NUMBERS"."""

    def __init__(self, line):
        found = re.fullmatch(r"state set (\d+ \d+) rx ([\d ]+) last (\d+) tx ([\d ]+)", line)
        if not found:
            raise ValueError(f"not the state of a berth: {line}")
        self.set, receive, self.last, send = found.groups()
        self.sides = [Side(name, [int(n) for n in numbers.split()]) for name, numbers in (("receive", receive), ("send", send))]


def card_line(counts):
    return f"card {' '.join(str(n) for n in counts)}{' frozen' if COUNT_TOP in counts else ''}"


class Freed:
    """One loaded node: the looks at it and the reports of its ticks."""

    def __init__(self):
        self.ticks = 0
        self.looks = defaultdict(dict)      # after so many ticks: of (kind, berth, choice) the line
        self.reports = defaultdict(list)    # of (berth, side): (tick, code)
        self.called = set()                 # berths with a frame, send or turn of their own between the ticks
        self.turned = False

    def read(self, record, answer):
        kind, berth, choice = record[:3]
        if kind == TICK:
            self.read_tick(answer)
        elif kind in (STATE, NODE, CARD, DUMP):
            self.looks[self.ticks][kind, berth, choice] = answer
        elif kind in (FRAME, SEND, TURN) and self.ticks < FREE_TICKS:
            self.read_call(record, answer)

    def read_tick(self, answer):
        self.ticks += 1
        for berth, *codes in re.findall(r" (\d):(\d):(\d)", answer):
            for name, code in zip(CODES, codes):
                if code != "0":
                    self.reports[int(berth), name].append((self.ticks, int(code)))

    def read_call(self, record, answer):
        if record[0] == FRAME:
            self.called.add(record[3] % 16)
        elif record[0] == SEND:
            self.called.add(record[1])
        elif answer.startswith("frame "):
            self.called.add(int(answer.split()[1], 16) % 16)
            self.turned = True

    def berth(self, ticks, k):
        return Berth(self.looks[ticks][STATE, k, 0])

    def area(self, ticks, k, choice):
        """In hex, by the node's own A: the parts that were dumped go by the header's. Empty if none was."""
        parts = [self.looks[ticks].get((DUMP, j, choice), "") for j in range(10)]
        digits = 2 * int(self.looks[0][NODE, 0, 0].split()[1])
        return "".join(part.removeprefix("area ") for part in parts)[k * digits:(k + 1) * digits]

    def left_alone(self):
        return [k for k in range(10) if k not in self.called]

    def complaints(self):
        if self.ticks != FREE_TICKS:
            return [f"{self.ticks} ticks were answered"]
        if not self.left_alone():
            return ["no berth was left alone"]
        try:
            told = [*self.of_node()]
            for k in self.left_alone():
                told += [*self.of_sides(k), *self.of_what_stays(k), *self.of_card(k)]
            return told
        except (LookupError, ValueError) as why:
            return [f"a look is missing, or cannot be read: {why}"]

    def of_sides(self, k):
        before, late, after = (self.berth(ticks, k).sides for ticks in LOOKS)
        for was, nearly, at_last in zip(before, late, after):
            name = f"berth {k}, {was.name} side in state {was.state}"
            reported = self.reports[k, was.name]
            if reported != was.reports():
                yield f"{name}: reported {reported}, not {was.reports()}"
            if nearly.idle != (was.end < FREE_TICKS):
                yield f"{name}, {was.end} ticks left: in state {nearly.state} after {FREE_TICKS - 1}"
            if not at_last.idle:
                yield f"{name}: in state {at_last.state} after {FREE_TICKS}"

    def of_what_stays(self, k):
        for name in ("last", "set"):
            had = [getattr(self.berth(ticks, k), name) for ticks in LOOKS]
            if len(set(had)) > 1:
                yield f"berth {k}: {name} {had}"
        for choice in (0, 1):
            before, after = (self.area(ticks, k, choice) for ticks in (0, FREE_TICKS))
            if before != after:
                yield f"berth {k}: area {choice} was {before}, is {after}"

    def of_card(self, k):
        before, after = (self.looks[ticks][CARD, k, 0] for ticks in (0, FREE_TICKS))
        counts = [int(n) for n in re.findall(r"\d+", before)]
        overflow = self.berth(0, k).sides[0].state == OWES_OVERFLOW
        reports = [(tick, name, code) for name in CODES for tick, code in self.reports[k, name]]
        frozen_since = 0 if COUNT_TOP in counts else FREE_TICKS
        for tick, name, code in sorted(reports):
            counted = (name, code) in COUNTED and not (overflow and name == "receive")
            if counted and tick <= frozen_since:  # both codes of the tick that freezes it are added
                counts[COUNTED[name, code]] += 1
                frozen_since = tick if COUNT_TOP in counts else frozen_since
        if after != card_line(counts):
            yield f"berth {k}: {before} became {after}, not {card_line(counts)}"

    def of_node(self):
        before, after = (self.looks[ticks][NODE, 0, 0].split() for ticks in (0, FREE_TICKS))
        if before[:-1] != after[:-1] or (before != after and not self.turned):
            yield f"{' '.join(before)} became {' '.join(after)}"

    def holds(self):
        """What of the edges it has."""
        if self.called:
            yield "other berths that go on"
        if self.turned:
            yield "other berths that are served"
        for k in self.left_alone():
            yield from self.berth_holds(k)

    def berth_holds(self, k):
        receive, send = self.berth(0, k).sides
        frozen = ["frozen" in self.looks[ticks][CARD, k, 0] for ticks in (0, FREE_TICKS)]
        if receive.idle and send.idle:
            yield "an idle berth"
        elif receive.end == send.end:
            yield "both codes in one tick"
        if frozen == [False, True]:
            yield "a card that freezes"
        for side in (receive, send):
            yield f"{side.name} side in state {side.state}"
            yield f"{side.name} side, {side.end} ticks left"


def read_nodes(records, lines):
    """The nodes of a stream, each from where its own settings are loaded, and the lines that should not be there."""
    nodes, odd = [], []
    for at, (record, line) in enumerate(zip(records, lines)):
        answer = line.partition(" ")[2]
        if answer.startswith("refused") or answer == "bad":
            odd.append(f"record {line}")
        elif at > 0 and record[0] == LOAD_NODE:
            nodes.append(Freed())
        elif nodes:
            nodes[-1].read(record, answer)
    return nodes, odd


def free_or_not(records, output, count):
    """A text of where the output on a free stream of so many nodes breaks the law, and the states and edges that these hold."""
    lines = output.decode().splitlines()
    if len(lines) != len(records):
        return f"{len(lines)} lines for {len(records)} records", set()
    nodes, odd = read_nodes(records, lines)
    if len(nodes) != count:
        return f"{len(nodes)} nodes, not {count}", set()
    broken = [f"node {i}: {text}" for i, node in enumerate(nodes, 1) for text in node.complaints()] + odd
    if broken:
        return "\n".join(broken[:10]), set()
    held = {text for node in nodes for text in node.holds()}
    at_the_edge = f"send side, {FREE_TICKS} ticks left" in held
    return "" if at_the_edge else f"no side had {FREE_TICKS} ticks left", held


def lacking(held):
    """A text of the wanted states and edges that are not held."""
    wanted = {"an idle berth", "both codes in one tick", "a card that freezes",
              "other berths that go on", "other berths that are served"}
    for name, codes in CODES.items():
        wanted |= {f"{name} side in state {state}" for state in range(len(codes))}
        wanted |= {f"{name} side, {TIMER_END - timer} ticks left" for timer in (0, 998, 999)}
    wanted |= {f"send side, {TIMER_END + gap} ticks left" for gap in (1, LONGEST_GAP - 1, LONGEST_GAP)}
    return "\n".join(f"never: {text}" for text in sorted(wanted - held))
