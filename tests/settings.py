"""Each berth has settings of its own (request W3): the answers of changes, the go frames, the ends of blocks and the order, read off what
the scenes program itself printed.

tests/run hands over the records of a settings stream and the lines that a program printed for them. Nothing here asks the peer.
"""

import re
from collections import Counter
from itertools import product

FRAME, TICK, SEND, TURN, SHOW, CHANGE = CALLS = 1, 2, 3, 4, 5, 18  # kinds of records
LOAD_RECEIVE, LOAD_NODE, STATE, NODE, SET_UP, LOAD_SETTINGS = 7, 9, 10, 11, 12, 17
BERTHS, TO_BERTH_0 = range(10), 0x660
IDLE, OWES_OVERFLOW, OWES_GO, AWAITS = range(4)
RECEIVING = OWES_GO, AWAITS
PARAMETERS = STMIN, BS = range(2)
WORDS = {"delivered": IDLE, "begun": OWES_GO, "toolong": OWES_OVERFLOW, "failed 5": IDLE}  # what an answered frame leads to


def allowed(parameter, value):
    return value <= 255 if parameter == BS else value <= 0x7F or 0xF1 <= value <= 0xF9


class Berth:
    """Its settings, by the parameter's number, what its receive side is at, and the frames taken in the block."""

    def __init__(self, block_size, stmin):
        self.set = [stmin, block_size]
        self.become(IDLE)

    def become(self, state, taken=0):
        self.state, self.taken = state, taken
        return ""

    def take(self):
        if self.state != AWAITS:
            return "the block is full, and go is owed"
        self.taken += self.set[BS] > 0
        return self.become(OWES_GO) if 0 < self.set[BS] == self.taken else ""

    def faults(self):
        """The parameters by which it puts the node out of order."""
        wrong = {STMIN: not allowed(STMIN, self.set[STMIN]), BS: 0 < self.taken >= self.set[BS]}
        return [parameter for parameter in PARAMETERS if wrong[parameter]]


class Settings:
    """The ten berths as the lines have told of them so far."""

    def __init__(self, header):
        self.fill(header)
        self.looks = {}  # at the berths and at the node, since anything but a change
        self.seen = Counter()

    def fill(self, numbers):
        self.berths = [Berth(int.from_bytes(numbers[4:6], "big"), int.from_bytes(numbers[6:8], "big")) for _ in BERTHS]

    def read(self, record, answer):
        """What should have been answered, where it was not."""
        kind, faults = record[0], [(k, fault) for k in BERTHS for fault in self.berths[k].faults()]
        if kind not in (STATE, NODE, CHANGE):
            self.looks = {}
        if kind in CALLS and faults:
            self.seen.update(("out of order by", *fault, kind) for fault in faults)
            refused = "show" if kind == SHOW else r"refused 1( buffer \w+)?"
            return "" if re.fullmatch(refused, answer) else f"out of order by {faults}"
        if kind in (STATE, NODE):
            return self.read_look(kind, record[1], answer)
        return self.read_change(record, answer) if kind == CHANGE else self.read_other(record, answer)

    def read_change(self, record, answer):
        at, parameter, value = record[1], record[2], int.from_bytes(record[3:7], "big")
        berth = self.berths[at % 10]
        refusal = 5 if at > 9 else 13 if parameter > BS else 14 if not allowed(parameter, value) else 15 if berth.state in RECEIVING else 0
        self.seen["change", refusal, berth.state if at in BERTHS else None, parameter] += 1
        if not refusal:
            berth.set[parameter] = value
        wanted = f"refused {refusal}" if refusal else f"changed {at}"
        return "" if answer == wanted else wanted

    def read_look(self, kind, at, answer):
        looked = answer
        if kind == STATE:
            berth, (settings, looked) = self.berths[at], re.fullmatch(r"state set (\d+ \d+) (rx .*)", answer).groups()
            taken = rf" \d+ \d+ \d+ {berth.taken} \d+" if berth.state in RECEIVING else r"( \d+)?"
            if settings != f"{berth.set[BS]} {berth.set[STMIN]}" or not re.match(rf"rx {berth.state}{taken} last", looked):
                return f"BS {berth.set[BS]}, STmin {berth.set[STMIN]}, receive side in state {berth.state}, {berth.taken} taken"
        before = self.looks.setdefault((kind, at), looked)
        return "" if before == looked else f"{before}, as before the change"

    def read_other(self, record, answer):
        kind, at = record[:2]
        if kind == LOAD_RECEIVE:
            return self.berths[at].become(record[2], record[8] if record[2] in RECEIVING else 0)
        if kind == SET_UP and answer == "setup":
            self.fill(record[1:])
        if kind == LOAD_SETTINGS:
            self.berths[at].set = [record[3], record[2]]
        if kind == LOAD_NODE:
            for berth in self.berths:
                berth.set = [record[5], record[4]]
        for k in re.findall(r" (\d):[^0]:\d", answer) if kind == TICK else ():
            self.berths[int(k)].become(IDLE)
        frame, word = re.match(r"frame (\w{4}) (\w{16}) ", answer), re.match(r"berth (\d) old \d (failed \d|\w+)", answer)
        if frame:
            return self.read_frame(int(frame[1], 16) - TO_BERTH_0, frame[2])
        if word and word[2] == "took":
            return self.berths[int(word[1])].take()
        return self.berths[int(word[1])].become(WORDS[word[2]]) if word and word[2] in WORDS else ""

    def read_frame(self, at, data):
        berth = self.berths[at]
        flow = {OWES_OVERFLOW: "320000", OWES_GO: f"30{berth.set[BS]:02X}{berth.set[STMIN]:02X}"}.get(berth.state)
        if not (data.startswith(flow) if flow else data[0] < "3"):
            return f"{flow or 'no flow control'} of berth {at}"
        return berth.become(AWAITS if berth.state == OWES_GO else IDLE) if flow else ""


def settings_or_not(records, output, changes):
    """A text of where the output on a settings stream of so many changes is not the paper's, and what the stream has seen."""
    lines = output.decode().splitlines()
    if len(lines) != len(records):
        return f"{len(lines)} lines for {len(records)} records", Counter()
    going = Settings(records[0])
    for record, line in zip(records[1:], lines[1:]):
        answer = line.partition(" ")[2]
        try:
            wanted = going.read(record, answer)
        except (AttributeError, LookupError, ValueError):
            wanted = "another kind of line"
        if wanted or answer == "bad":
            return f"record {line}: {wanted or 'an answer'}", going.seen
    made = sum(n for what, n in going.seen.items() if what[0] == "change")
    return "" if made >= changes // 2 else f"only {made} of {changes} changes", going.seen


def not_seen(seen):
    """A text of what the settings streams together should have seen, and have not."""
    wanted = [("change", *one) for one in product((0, 14), (IDLE, OWES_OVERFLOW), PARAMETERS)]
    wanted += [("change", *one) for one in product((14, 15), RECEIVING, PARAMETERS)] + [("change", 5, None, one) for one in PARAMETERS]
    wanted += [("change", 13, state, 2) for state in (IDLE, OWES_OVERFLOW, *RECEIVING)]
    wanted += [("out of order by", *one) for one in product(BERTHS, PARAMETERS, CALLS)]
    return "\n".join(f"never: {what}" for what in wanted if not seen[what])
