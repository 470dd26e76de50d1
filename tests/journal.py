"""The journal (request W4), written and read: what it must hold, read off the exerciser's lines for the same records; that what is written
reads back equal, and that what is read is what is written, read off what the programs print for each other's output.

tests/run hands over what the programs were given and what they put out, and runs them on more. Nothing here asks the peer.
"""

import random
import re
from collections import Counter, namedtuple
from itertools import product
from struct import Struct

RECEIVE, SEND = SIDES = 1, 2
CODES = {RECEIVE: (1, 2, 4, 5, 7), SEND: (1, 2, 3, 6, 9)}
NAMES = {1: "N_OK", 2: "N_TIMEOUT_A", 3: "N_TIMEOUT_Bs", 4: "N_TIMEOUT_Cr", 5: "N_WRONG_SN", 6: "N_INVALID_FS", 7: "N_UNEXP_PDU",
         9: "N_BUFFER_OVFLW"}
BERTHS, TO_BERTH_0, DELIVERED_MAX = range(10), 0x660, 4_095
RECORD, REQUEST, ROOM_MAX = 16, 64, 48  # bytes of a record, of a request to the journal's scenes, and of what that is about
WRITE, READ, CHECK = 1, 2, 3  # its calls
FIELDS = Struct(">BBBxHxxQ")  # of a record; x is a zero
ENTRY_ASKED = Struct(">BBIIQ")  # of a request to write, from byte 2 on: kind, code, berth, length, tick
Entry = namedtuple("Entry", "kind berth code length tick")


def record_of(entry):
    return FIELDS.pack(*entry)


def records_in(journal):
    return [journal[at:at + RECORD] for at in range(0, len(journal), RECORD)]


def spaced(record):
    """A record's bytes for whoever looks at them, field by field."""
    digits = record.hex().upper()
    return " ".join(digits[a:b] for a, b in ((0, 2), (2, 4), (4, 6), (6, 8), (8, 12), (12, 16), (16, None)) if digits[a:b])


def line_of(number, entry):
    """The line of the journal's reader."""
    length = f" length {entry.length}" if (entry.kind, entry.code) == (RECEIVE, 1) else ""
    return f"{number} tick {entry.tick} berth {entry.berth} {'receive' if entry.kind == RECEIVE else 'send'} {NAMES[entry.code]}{length}"


def differs(wanted, got):
    """A text of the first place where two lists are not equal."""
    pairs = enumerate(zip(wanted, got), 1)
    one = next((f"{n}: {a!r} became {b!r}" for n, (a, b) in pairs if a != b), "")
    return one or ("" if len(wanted) == len(got) else f"{len(got)}, not {len(wanted)}")


# What a journal must hold


def reports_in(answer):
    """Each report of an answered call: kind, berth, code and length, in the order of the paper."""
    frame = re.fullmatch(r"berth (\d) old (\d) (\w+) ?(\d*)", answer)
    if frame:
        berth, old, word, number = int(frame[1]), int(frame[2]), frame[3], int(frame[4] or 0)
        ended = {"delivered": (RECEIVE, 1, number), "failed": (RECEIVE if number == 5 else SEND, number, 0)}.get(word)
        return ([(RECEIVE, berth, old, 0)] if old else []) + ([(ended[0], berth, *ended[1:])] if ended else [])
    if answer.startswith("tick"):
        codes = [[int(n) for n in one.split(":")] for one in answer.split()[1:]]
        return [(kind, k, code, 0) for k, *both in codes for kind, code in zip(SIDES, both) if code]
    handed = re.fullmatch(r"frame (\w{4}) \w{16} passed \d code 1", answer)
    return [(SEND, int(handed[1], 16) - TO_BERTH_0, 1, 0)] if handed else []


def entries_told(output):
    """The entries of all reports that the exerciser's lines have, each with the ticks answered so far."""
    ticks = 0
    for line in output.decode().splitlines():
        answer = line.partition(" ")[2]
        ticks += answer.startswith("tick")
        for report in reports_in(answer):
            yield Entry(*report, ticks)


def journal_told(output):
    return b"".join(record_of(entry) for entry in entries_told(output))


def holds_every_report(records, journal, run):
    """A text of where the journal of a run on the records, or what its reader prints, is not what the exerciser's lines tell."""
    told = list(entries_told(run("exerciser", records)))
    broken = differs([spaced(record_of(entry)) for entry in told], [spaced(record) for record in records_in(journal)])
    if broken:
        return f"record {broken}"
    broken = differs([line_of(n, entry) for n, entry in enumerate(told, 1)], run("journal_reader", journal).decode().splitlines())
    return f"the reader's line {broken}" if broken else ""


def noted_in(journal):
    """What a journal has of all that the streams shall have."""
    seen, before = Counter(), None
    for record in records_in(journal):
        entry = Entry(*FIELDS.unpack(record.ljust(RECORD, b"\0")))
        seen["code", entry.kind, entry.code] += 1
        seen["berth", entry.kind, entry.berth] += 1
        if before and before.tick == entry.tick and {before.code, entry.code} <= {2, 3, 4}:
            seen["a tick with both codes of a berth" if before.berth == entry.berth else "a tick with codes of several"] += 1
        if before and before[:3] == (RECEIVE, entry.berth, 7) and entry.kind == RECEIVE and entry.code == 1:
            seen["a 7, and right behind it a 1 of the same berth"] += 1
        before = entry
    return seen


# What is written reads back equal, and what is read is what is written


def request_to_write(entry, room=RECORD):
    asked = ENTRY_ASKED.pack(entry.kind, entry.code, entry.berth, entry.length, entry.tick)
    return (bytes((WRITE, room)) + asked).ljust(REQUEST, b"\0")


def request_to_read(record):
    return (bytes((READ, len(record))).ljust(RECORD, b"\0") + record).ljust(REQUEST, b"\0")


def entry_read(answer):
    return Entry(**{name: int(n) for name, n in re.findall(r"(\w+) (\d+)", answer.removeprefix("read "))})


def answer_of_read(entry):
    return "read " + " ".join(f"{name} {n}" for name, n in entry._asdict().items())


def asked_again(request, answer):
    """Requests that an answer calls for, each with what must be answered: of a check that a record is read, whatever it holds."""
    held = request[RECORD:RECORD + request[1]] if request[1] <= ROOM_MAX else b""
    if answer.startswith("written ["):
        kind, code, berth, length, tick = ENTRY_ASKED.unpack_from(request, 2)
        yield request_to_read(bytes.fromhex(answer[9:-1])), answer_of_read(Entry(kind, berth, code, length, tick))
    elif answer.startswith("read "):
        yield request_to_write(entry_read(answer)), f"written [{held[:RECORD].hex().upper()}]"
    elif answer.startswith(("all good ", "first bad ")):
        pieces, number = records_in(held), int(answer.split()[-1])
        good = answer.startswith("all good ")
        yield from ((request_to_read(piece), "read") for piece in pieces[:number - (not good)])
        if number != len(pieces) if good else not 1 <= number <= len(pieces):
            yield request_to_read(b""), f"a verdict on {len(pieces)} records"
        elif not good:
            yield request_to_read(pieces[number - 1]), "refused 17"


def reads_back(requests, output, run):
    """A text of where writer, reader and check do not fit each other, by the lines on a stream of requests and by further ones."""
    pieces = [requests[at:at + REQUEST] for at in range(0, len(requests), REQUEST)]
    answers = [line.partition(" ")[2] for line in output.decode().splitlines()]
    try:
        again = [(*one, f"{n} {answer}") for n, (piece, answer) in enumerate(zip(pieces, answers), 1)
                 if answer not in ("bad", "short") for one in asked_again(piece, answer)]
    except (TypeError, ValueError) as error:
        return f"another kind of line: {error}"
    got = [line.partition(" ")[2] for line in run("journal_scenes", b"".join(request for request, _, _ in again)).decode().splitlines()]
    if len(answers) != len(pieces) or len(got) != len(again):
        return f"{len(answers)} and {len(got)} lines for {len(pieces)} and {len(again)} requests"
    return next((f"request {about}: {answer}, not {wanted}" for (_, wanted, about), answer in zip(again, got)
                 if answer != wanted and not (wanted == "read" and answer.startswith("read "))), "")


def answered_in(requests, output):
    """What the lines on a stream of requests have of all that the streams shall have."""
    seen = Counter()
    for at, line in zip(range(0, len(requests), REQUEST), output.decode().splitlines()):
        answer, call = line.partition(" ")[2], requests[at]
        if answer.startswith("written "):
            seen["written", requests[at + 2], requests[at + 3]] += 1
        elif answer.startswith("read "):
            entry = entry_read(answer)
            seen["read", entry.kind, entry.code] += 1
        elif answer.startswith("refused "):
            seen["refused", call, int(answer.split()[1])] += 1
        else:
            seen[answer] += 1
    return seen


def not_noted(seen):
    """A text of what the streams of the journal together should have seen, and have not."""
    pairs = [(kind, code) for kind in SIDES for code in CODES[kind]]
    wanted = [("code", *pair) for pair in pairs] + [("berth", *one) for one in product(SIDES, BERTHS)]
    wanted += ["a tick with both codes of a berth", "a tick with codes of several", "a 7, and right behind it a 1 of the same berth"]
    wanted += [(word, *pair) for word, pair in product(("written", "read"), pairs)]
    wanted += [("refused", WRITE, 16), ("refused", WRITE, 17), ("refused", READ, 17), "bad", "short"]
    wanted += [f"all good {n}" for n in range(4)] + [f"first bad {n}" for n in range(1, 4)]
    return "\n".join(f"never: {what}" for what in wanted if not seen[what])


# Entries at random, written and read


def some_entries(seed, count):
    """So many entries within the rules: every code and berth, and lengths and tick counts of every size."""
    dice = random.Random(seed)
    for _ in range(count):
        kind = dice.choice(SIDES)
        code = dice.choice(CODES[kind])
        length = dice.choice((1, 255, 256, DELIVERED_MAX, dice.randint(1, DELIVERED_MAX))) if (kind, code) == (RECEIVE, 1) else 0
        tick = dice.choice((0, 2 ** 32 - 1, 2 ** 32, 2 ** 64 - 1)) if dice.random() < 0.05 else dice.getrandbits(dice.randint(1, 64))
        yield Entry(kind, dice.choice(BERTHS), code, length, tick)


def written_by(output):
    """The bytes that the journal's scenes have written, put together."""
    return b"".join(bytes.fromhex(digits) for digits in re.findall(r" written \[(\w+)\]", output.decode()))


def other_than_entries(entries, output):
    """A text of the first line of the reader that does not tell its entry."""
    return differs([line_of(n, entry) for n, entry in enumerate(entries, 1)], output.decode().splitlines())
