"""Each message is somebody's (request W6): whom the reports name, which sends are refused for their party and the order, read off what the
scenes program itself printed; and that nothing else goes by the party, read off what it prints for the same records with other parties.

tests/run hands over the records of a stream and the lines that a program printed for them. Nothing here asks the peer.
"""

import re
from collections import Counter
from itertools import product

FRAME, TICK, SEND, TURN, SHOW, CHANGE = CALLS = 1, 2, 3, 4, 5, 18  # kinds of records
LOAD_SEND, STATE, SET_UP = 8, 10, 12
RECORD, BERTHS, TO_BERTH_0 = 16, range(10), 0x660
PARTIES = SCHEDULER, LAPTOP = range(2)
IDLE, SINGLE_DUE, FIRST_DUE, AWAITS_FLOW, CONSECUTIVE = range(5)  # states of a send side
SENDING = SINGLE_DUE, FIRST_DUE, AWAITS_FLOW, CONSECUTIVE
PARTY_AT = {SEND: 9, LOAD_SEND: 14}  # the byte of a record that names a party
REPORTS = ("single handed over", "last frame handed over", "code 2", "code 3", "failed 6", "failed 9")
NAMED = re.compile(r" party((?: \d:\d+)+)(?= buffer |$)")
OTHERS = {"all exchanged": (LAPTOP, SCHEDULER), "all the scheduler's": (SCHEDULER, SCHEDULER)}  # what 0 and 1 become


class Parties:
    """Of each berth whose message it sends, None if it sends none, as the lines have told so far."""

    def __init__(self, header):
        self.area = int.from_bytes(header[:4], "big")
        self.party, self.state = [None for _ in BERTHS], [IDLE for _ in BERTHS]  # the state as it was loaded or looked at last
        self.last = [None for _ in BERTHS]  # the party of the last answered send
        self.seen = Counter()

    def read(self, record, answer):
        """What should have been answered, where it was not."""
        kind, at = record[:2]
        faults = [k for k in BERTHS if (self.party[k] or 0) > LAPTOP]
        if kind in CALLS and faults:
            self.seen.update(("out of order by", k, kind) for k in faults)
            self.seen.update(("out of order in", self.state[k], self.party[k]) for k in faults)
            refused = "show" if kind == SHOW else r"refused 1( buffer \w+)?"
            return "" if re.fullmatch(refused, answer) else f"out of order by the party of {faults}"
        if kind == SEND:
            return self.read_send(record, answer)
        if kind == STATE:
            return self.read_state(at, answer)
        if kind == LOAD_SEND:
            self.party[at], self.state[at] = record[PARTY_AT[kind]] if record[2] else None, record[2]
        if kind == SET_UP and answer == "setup":
            self.party = [None for _ in BERTHS]
        return self.read_reports(kind, answer)

    def read_send(self, record, answer):
        at, length, party = record[1], int.from_bytes(record[2:4], "big"), record[PARTY_AT[SEND]]
        kept = self.party[at] if at in BERTHS else None
        busy = kept is not None
        refusal = 5 if at not in BERTHS else 18 if party > LAPTOP else 6 if not length else 7 if length > self.area else 8 if busy else 0
        self.seen["send", refusal, min(party, LAPTOP + 1), kept] += 1
        if refusal:
            return "" if answer == f"refused {refusal}" else f"refused {refusal}"
        self.seen["sent", at, party, "after", self.last[at]] += 1
        self.party[at] = self.last[at] = party
        return "" if answer == f"sent {at}" else f"sent {at}"

    def read_state(self, at, answer):
        numbers = [int(n) for n in re.fullmatch(r"state set \d+ \d+ rx [\d ]+ last \d+ tx ([\d ]+)", answer)[1].split()]
        self.state[at] = numbers[0]
        shown = numbers[-1] if numbers[0] else None
        self.seen["state", numbers[0], shown] += 1
        fields = {IDLE: 1, SINGLE_DUE: 4, FIRST_DUE: 4}.get(numbers[0], 10)  # a party that is missing, or one too many
        return "" if shown == self.party[at] and len(numbers) == fields else f"the message of {self.party[at]}"

    def read_reports(self, kind, answer):
        """Each report ends its message and names the party that sent it, in the order of the berths; nothing else is named."""
        ends = self.ends_in(kind, answer)
        wanted = "".join(f" {k}:{self.party[k]}" for k, _ in ends)
        named = NAMED.search(answer)
        in_place = not named or answer.startswith(" buffer ", named.end()) == (kind == TURN)
        for k, how in ends:
            self.seen["report", how, self.party[k], k] += 1
            self.party[k] = None
        self.seen["reports of both parties in one tick"] += kind == TICK and {":0", ":1"} <= set(re.findall(r":\d", wanted))
        if answer.count("party") != bool(ends) or (named[1] if named else "") != wanted or not in_place:
            return f"party{wanted}" if ends else "no party"
        return ""

    def ends_in(self, kind, answer):
        if kind == TICK:
            return [(int(k), f"code {code}") for k, code in re.findall(r" (\d):\d:([^0])", answer)]
        last = re.match(r"frame (\w{4}) (\w).* code 1", answer)
        if last:
            return [(int(last[1], 16) - TO_BERTH_0, REPORTS[last[2] != "0"])]
        failed = re.match(r"berth (\d) old 0 (failed [69])", answer)
        return [(int(failed[1]), failed[2])] if failed else []


def parties_or_not(records, output, sends):
    """A text of where the output on a parties stream of so many odd sends is not the paper's, and what the stream has seen."""
    lines = output.decode().splitlines()
    if len(lines) != len(records):
        return f"{len(lines)} lines for {len(records)} records", Counter()
    going = Parties(records[0])
    for record, line in zip(records[1:], lines[1:]):  # the first is the header, which has no kind
        answer = line.partition(" ")[2]
        try:
            wanted = going.read(record, answer)
        except (AttributeError, LookupError, TypeError, ValueError):
            wanted = "another kind of line"
        if wanted or answer == "bad":
            return f"record {line}: {wanted or 'an answer'}", going.seen
    made = sum(n for what, n in going.seen.items() if what[0] == "send")
    return "" if made >= sends // 2 else f"only {made} of {sends} sends", going.seen


def not_met(seen):
    """A text of what the parties streams together should have seen, and have not."""
    strange = LAPTOP + 1
    wanted = [("report", *one) for one in product(REPORTS, PARTIES, BERTHS)] + ["reports of both parties in one tick"]
    wanted += [("send", *one) for one in product((6, 7, 8), PARTIES, PARTIES)] + [("send", 5, one, None) for one in (*PARTIES, strange)]
    wanted += [("send", 18, strange, kept) for kept in (None, *PARTIES)]
    wanted += [("sent", at, party, "after", last) for at, party, last in product(BERTHS, PARTIES, PARTIES)]
    wanted += [("state", *one) for one in product(SENDING, (*PARTIES, 2, 255))] + [("state", IDLE, None)]
    wanted += [("out of order by", *one) for one in product(BERTHS, CALLS)]
    wanted += [("out of order in", *one) for one in product(SENDING, (2, 255))]
    return "\n".join(f"never: {what}" for what in wanted if not seen[what])


# The same records with other parties


def with_parties(records, become):
    """The bytes of a scenes stream in which the parties 0 and 1 of sends and of loads have become these."""
    changed = bytearray(records)
    for start in range(RECORD, len(records) - RECORD + 1, RECORD):  # behind the header, and before a cut record
        at = start + PARTY_AT.get(records[start], 0)
        if at > start and records[at] in PARTIES:
            changed[at] = become[records[at]]
    return bytes(changed)


def lines_with_parties(output, become):
    """The lines with the parties 0 and 1 that they name become these, and nothing else."""
    def other(digits):
        return str(become[int(digits)]) if int(digits) in PARTIES else digits

    def line_with(line):
        line = re.sub(r"^(\d+ state .* tx [1-9] .*) (\d+)$", lambda found: f"{found[1]} {other(found[2])}", line)
        return NAMED.sub(lambda found: " party" + re.sub(r":(\d+)", lambda one: f":{other(one[1])}", found[1]), line)

    return "\n".join(map(line_with, output.decode().split("\n"))).encode()


def goes_by_party(records, output, run):
    """A text of where what is run on the same records with other parties prints other lines, but for the parties that they name."""
    for words, become in OTHERS.items():
        wanted, got = lines_with_parties(output, become).split(b"\n"), run("scenes", with_parties(records, become)).split(b"\n")
        if wanted != got:
            differ = next((pair for pair in zip(wanted, got) if pair[0] != pair[1]), (b"another number of lines", b""))
            return f"{words}: {differ[0].decode()[:200]} became {differ[1].decode()[:200]}"
    return ""
