"""The common CAN log (request W10), read and written: what the records of a log must hold, read off its lines; that a written file reads back
as its frames and the ticks between them; that a log of whole milliseconds from 0.000000 is the same file once it was read and written.

tests/run hands over what the programs were given and what they put out, and runs them on more. Nothing here asks the peer.
"""

import random
import re
from collections import Counter
from itertools import groupby
from struct import Struct

READ, READ_TURNS, WRITE, SCENES = "candump_converter read", "candump_converter read turns", "candump_converter write can0", "candump_scenes"
RECORD, REQUEST, NAME_ROOM, LINE_PLACE, RECORD_PLACE = 16, 128, 24, 32, 48  # bytes, and places in a request to candump's scenes
FRAME, TICK, SEND, TURN = range(1, 5)  # kinds of records
APART_MAX, IDENTIFIER_MAX, TIME_END, LAST_TIME = 60_000, 0x7FF, 10 ** 16, 2 ** 64 - 1  # ticks; microseconds
ASK_READ, ASK_WRITE = 1, 2  # calls of candump's scenes
TICK_RECORD, TURN_RECORD = bytes((TICK,)).ljust(RECORD, b"\0"), bytes((TURN,)).ljust(RECORD, b"\0")
FRAME_HEAD = Struct(">BxHBxxx")  # of a record: kind, identifier, data length
LINE = re.compile(rb"\(([0-9]{1,10})\.([0-9]{6})\) ([A-Za-z0-9]{1,15}) ([0-7][0-9A-F]{2})#((?:[0-9A-F]{2}){0,8})\n")
ASIDE = b"on standard error: "  # stands behind a program's output, and before what it said there


def joined(written, said):
    return written + ASIDE + said if said else written


def parted(output):
    """What was written, and what was said on standard error."""
    written, _, said = output.partition(ASIDE)
    return written, said


def records_of(output):
    return [output[at:at + RECORD] for at in range(0, len(output), RECORD)]


def lines_of(log):
    """The lines of a log, each with its LF; the last one may have none."""
    return re.findall(rb"[^\n]*\n|[^\n]+", log)


def time_in(line):
    return int(line[1]) * 1_000_000 + int(line[2])


def frame_in(line):
    data = bytes.fromhex(line[5].decode())
    return FRAME_HEAD.pack(FRAME, int(line[4], 16), len(data)) + data.ljust(8, b"\0")


def with_turns(output):
    """What reading with turns must put out where reading without them puts out this."""
    written, said = parted(output)
    return joined(b"".join(record + TURN_RECORD for record in records_of(written)), said)


# What the records of a log must hold


def ticks_and_frames(records):
    """Each frame with the ticks before it, and the ticks behind the last one."""
    ticks, frames = 0, []
    for record in records:
        if record[0] == FRAME:
            frames.append((ticks, record))
            ticks = 0
        ticks += record[0] == TICK
    return frames, ticks


def records_told(lines):
    """What must be put out for the lines of a log, and the refusal of the first that is refused with its number."""
    first = last = None
    told = []
    for number, text in enumerate(lines, 1):
        line = LINE.fullmatch(text)
        time = time_in(line) if line else 0
        first = time if first is None else first
        last = first if last is None else last
        ticks = (time - first) // 1000 - (last - first) // 1000
        if not line or time < last or ticks > APART_MAX:
            return told, f"refused {19 if not line else 20 if time < last else 21} line {number}\n".encode()
        told += [TICK_RECORD] * ticks + [frame_in(line)]
        last = time
    return told, b""


def differs(wanted, got):
    """A text of the first place where two lists are not equal."""
    pairs = enumerate(zip(wanted, got), 1)
    one = next((f"{n}: {a!r} became {b!r}" for n, (a, b) in pairs if a != b), "")
    return one or ("" if len(wanted) == len(got) else f"{len(got)}, not {len(wanted)}")


def not_those_lines(log, output):
    """A text of where what a log was read as is not what its lines tell."""
    told, refusal = records_told(lines_of(log))
    written, said = parted(output)
    broken = differs(told, records_of(written))
    if broken:
        return f"record {broken}"
    return "" if said == refusal else f"{said!r} on standard error, not {refusal!r}"


def reads_what_is_there(log, output, run):
    """A text of where a log's records are not its frames and ticks, or where these, written and read once more, do not come back."""
    broken = not_those_lines(log, output)
    if broken:
        return broken
    records = parted(output)[0]
    written = run(WRITE, records)
    again = run(READ, written)
    if again != records:
        return f"written and read again: record {differs(records_of(records), records_of(again))}"
    same = run(WRITE, again) == written
    return "" if same else "a log of whole milliseconds from 0.000000 is another one once it was read and written"


def turns_stand_behind(log, output, run):
    """A text of where a log read with turns is not what it is without them, with a turn behind each record."""
    without = run(READ, log)
    broken = differs(records_of(parted(with_turns(without))[0]), records_of(parted(output)[0]))
    if broken:
        return f"record {broken}"
    return "" if parted(without)[1] == parted(output)[1] else f"{parted(output)[1]!r} on standard error"


# What a written file reads back as


def between_the_frames(records):
    """The frames with the ticks between them: without kinds 3 and 4, and without the ticks before the first frame."""
    frames, _ = ticks_and_frames(records)
    ticks = [0] + [ticks for ticks, _ in frames[1:]]
    return list(zip(ticks, (record for _, record in frames)))


def told_back(frames):
    """What reading a file with these frames must put out: up to the first that is too far from the one before it."""
    number = next((n for n, (ticks, _) in enumerate(frames, 1) if ticks > APART_MAX), 0)
    kept = frames[:number - 1] if number else frames
    records = [record for ticks, frame in kept for record in [TICK_RECORD] * ticks + [frame]]
    return records, f"refused 21 line {number}\n".encode() if number else b""


def refused_at(said, what):
    """The number in what was said of a refusal; 0 for none."""
    found = re.fullmatch(rb"refused 19 %s ([1-9][0-9]*)\n" % what, said)
    if said and not found:
        raise ValueError(f"{said!r} on standard error")
    return int(found[1]) if found else 0


def reads_back_as_written(records, output, run):
    """A text of where a written file does not read back as the frames and the ticks between them, of what was not refused."""
    written, said = parted(output)
    try:
        number = refused_at(said, b"record")
    except ValueError as error:
        return str(error)
    given = records_of(records)
    given = given[:number - 1] if number else given
    frames = between_the_frames(given)
    if len(lines_of(written)) != len(frames):
        return f"{len(lines_of(written))} lines for {len(frames)} frames"
    wanted, refusal = told_back(frames)
    back, said = parted(run(READ, written))
    broken = differs(wanted, records_of(back))
    if broken:
        return f"record {broken}"
    if said != refusal:
        return f"{said!r} on standard error, not {refusal!r}"
    return "" if not frames or begins_with_its_ticks(given, written) else f"the first line is {lines_of(written)[0]!r}"


def begins_with_its_ticks(records, log):
    """Whether the first line has the time of the ticks before it, with the name, from 0.000000 on."""
    (ticks, frame), *_ = ticks_and_frames(records)[0]
    line = LINE.fullmatch(lines_of(log)[0])
    return line and line[3] == b"can0" and line[1] == str(int(line[1])).encode() and time_in(line) == ticks * 1000 and frame_in(line) == frame


# Candump's scenes: reader and writer are of one mind


def request_to_read(line, begun=False, first=0, last=0):
    head = bytes((ASK_READ, len(line), begun)).ljust(8, b"\0") + first.to_bytes(8, "big") + last.to_bytes(8, "big")
    return (head.ljust(LINE_PLACE, b"\0") + line).ljust(REQUEST, b"\0")


def request_to_write(name, record, time):
    head = bytes((ASK_WRITE, len(name), len(record))).ljust(8, b"\0") + time.to_bytes(8, "big")
    return ((head.ljust(NAME_ROOM, b"\0") + name).ljust(RECORD_PLACE, b"\0") + record).ljust(REQUEST, b"\0")


def asked_again(request, answer):
    """A request that an answer calls for, with what must be answered: the line that was read is written, the line that was written is read."""
    read = re.fullmatch(r"read \d+ first \d+ last (\d+) \[(\w{32})\]", answer)
    written = re.fullmatch(r"written (\d+) \[(\w+)\]", answer)
    if read:
        line = request[LINE_PLACE:LINE_PLACE + request[1]]
        name = line.split(b" ")[1]
        without_zeros = re.sub(rb"^\(0+(?=[0-9])", b"(", line)
        yield request_to_write(name, bytes.fromhex(read[2]), int(read[1])), f"written {read[1]} [{without_zeros.hex().upper()}]"
    elif written:
        record = request[RECORD_PLACE:RECORD_PLACE + RECORD]
        yield request_to_read(bytes.fromhex(written[2])), f"read 0 first {written[1]} last {written[1]} [{record.hex().upper()}]"
    elif answer.startswith("written "):
        yield from nothing_written(request, answer)
    elif not re.fullmatch(r"refused (19|20|21)|bad|short", answer):
        raise ValueError(answer)


def nothing_written(request, answer):
    """The time behind a record that has no line: a tick later, up to the last time, or as it was."""
    before, kind = int.from_bytes(request[8:16], "big"), request[RECORD_PLACE]
    after = min(before + 1000, LAST_TIME) if kind == TICK else before
    if kind not in (TICK, SEND, TURN) or answer != f"written {after} []":
        yield request_to_read(b""), f"another answer than {answer!r} at {before} us"


def next_line_asked(request, answer):
    """The same line once more, behind itself: no tick between them, and the same record."""
    if answer.startswith("read "):
        _, first, last, record = re.fullmatch(r"read (\d+) first (\d+) last (\d+) (.*)", answer).groups()
        line = request[LINE_PLACE:LINE_PLACE + request[1]]
        yield request_to_read(line, True, int(first), int(last)), f"read 0 first {first} last {last} {record}"


def of_one_mind(requests, output, run):
    """A text of where candump's reader and writer do not fit each other, by the lines on a stream of requests and by further ones."""
    pieces = [requests[at:at + REQUEST] for at in range(0, len(requests), REQUEST)]
    answers = [line.partition(" ")[2] for line in output.decode().splitlines()]
    try:
        again = [(*one, f"{n} {answer}") for n, (piece, answer) in enumerate(zip(pieces, answers), 1)
                 for asked in (asked_again, next_line_asked) for one in asked(piece, answer)]
    except (AttributeError, IndexError, OverflowError, ValueError) as error:
        return f"another kind of line: {error}"
    got = [line.partition(" ")[2] for line in run(SCENES, b"".join(request for request, _, _ in again)).decode().splitlines()]
    if len(answers) != len(pieces) or len(got) != len(again):
        return f"{len(answers)} and {len(got)} lines for {len(pieces)} and {len(again)} requests"
    return next((f"request {about}: {answer}, not {wanted}" for (_, wanted, about), answer in zip(again, got) if answer != wanted), "")


# What the streams have of all that they shall have


def told_in(stream, records, output):
    """What a log's reading, its writing or the answers to requests have of it."""
    return requests_told_in(records, output) if stream == SCENES else converted_in(stream, output)


def converted_in(stream, output):
    written, said = parted(output)
    word = "written" if stream == WRITE else "read"
    seen = Counter([(word, *said.split()[1:2])])  # its refusal, or none
    if stream == WRITE:
        seen.update((word, "data bytes", len(line[5]) // 2) for line in map(LINE.fullmatch, lines_of(written)) if line)
        return seen
    for kind, run in groupby(records_of(written), lambda record: record[0]):
        run = list(run)
        seen.update((word, "data bytes", record[4]) for record in run if kind == FRAME)
        seen["read", "60,000 ticks"] += kind == TICK and len(run) == APART_MAX
    return seen


def requests_told_in(requests, output):
    seen = Counter()
    for at, line in zip(range(0, len(requests), REQUEST), output.decode().splitlines()):
        answer, call = line.partition(" ")[2], requests[at]
        kind, number = (answer.split() + [""])[:2]
        if kind == "refused" or (kind == "read" and int(number) in (0, 1, APART_MAX)):
            seen["asked", call, kind, int(number)] += 1
        elif kind == "written":
            seen["asked", "written", "nothing" if answer.endswith("[]") else "a line"] += 1
            seen["asked", "written at the last time"] += int(number) == LAST_TIME
            seen["asked", "written, ten digits"] += number >= str(TIME_END // 10) and len(number) == 16 and not answer.endswith("[]")
        else:
            seen["asked", kind] += 1
    return seen


def not_told(seen):
    """A text of what the streams of the log together should have seen, and have not."""
    wanted = [("read", number) for number in (b"19", b"20", b"21")] + [("read",), ("written",), ("written", b"19"), ("read", "60,000 ticks")]
    wanted += [(word, "data bytes", n) for word in ("read", "written") for n in range(9)]
    wanted += [("asked", ASK_READ, "refused", n) for n in (19, 20, 21)] + [("asked", ASK_WRITE, "refused", 19)]
    wanted += [("asked", ASK_READ, "read", n) for n in (0, 1, APART_MAX)]
    wanted += [("asked", "written", "nothing"), ("asked", "written", "a line"), ("asked", "written at the last time")]
    wanted += [("asked", "written, ten digits"), ("asked", "bad"), ("asked", "short")]
    return "\n".join(f"never: {what}" for what in wanted if not seen[what])


# A log at random, there and back


def some_log(seed, count, whole=True):
    """So many lines from 0.000000 on with one name, at whole milliseconds or not."""
    dice, time = random.Random(seed), 0
    for _ in range(count):
        data = dice.randbytes(dice.randint(0, 8)).hex().upper()
        identifier = dice.choice((0, IDENTIFIER_MAX, 0x640 + dice.randrange(10), dice.randint(0, IDENTIFIER_MAX)))
        yield b"(%d.%06d) can0 %03X#%s\n" % (*divmod(time, 1_000_000), identifier, data.encode())
        time += 1000 * dice.choice((0, 0, 1, 1, 1, 2, dice.randint(0, 9))) + (0 if whole else dice.randrange(1000))


def some_records(seed, count):
    """Records with so many frames, ticks between them and behind the last, and some of kinds 3 and 4."""
    dice = random.Random(seed)
    for line in some_log(seed, count):
        yield frame_in(LINE.fullmatch(line))
        yield from [TICK_RECORD] * dice.choice((0, 0, 1, 1, 2, 5))
        if dice.random() < 0.1:
            yield dice.choice((TURN_RECORD, bytes((SEND, dice.randrange(10), 0, dice.randrange(256))).ljust(RECORD, b"\0")))


def not_the_same(log, records, run):
    """A text of where a log is another one, or records are other frames and ticks, once they were there and back."""
    read = run(READ, log)
    broken = not_those_lines(log, read) or differs(lines_of(log), lines_of(run(WRITE, read)))
    if broken:
        return f"the log: {broken}"
    wanted, refusal = told_back(between_the_frames(records_of(records)))
    back, said = parted(run(READ, run(WRITE, records)))
    broken = differs(wanted + [refusal], records_of(back) + [said])
    return f"the records: {broken}" if broken else ""


# The logs of the can-utils package

ASC_HEAD = "base hex  timestamps absolute\nno internal events logged\n"
ASC_LINE = re.compile(r" *([0-9]+)\.([0-9]{6}) 1  ([0-9A-F]+) +Rx   d ([0-8])((?: [0-9A-F]{2})*)")


def frames_since_first(lines):
    """Microseconds since the first line, identifier and data of each."""
    found = [LINE.fullmatch(line) for line in lines]
    return [(time_in(line) - time_in(found[0]), int(line[4], 16), bytes.fromhex(line[5].decode())) for line in found]


def asc_of(log):
    """The frames of a log as asc2log reads them."""
    lines = [f"{time // 1_000_000:4}.{time % 1_000_000:06} 1  {identifier:<15X} Rx   d {len(data)} {data.hex(' ').upper()}".rstrip()
             for time, identifier, data in frames_since_first(lines_of(log))]
    return (ASC_HEAD + "\n".join(lines) + "\n").encode()


def frames_in_asc(text):
    """The same of what log2asc has written."""
    found = [ASC_LINE.fullmatch(line) for line in text.decode().splitlines()]
    return [(int(line[1]) * 1_000_000 + int(line[2]), int(line[3], 16), bytes.fromhex(line[5])) for line in found if line]


def not_as_can_utils(log, records, run, tool):
    """A text of where the converter and can-utils do not read each other's logs: asc2log's has a direction behind each line, another form."""
    made = tool("asc2log", asc_of(log))
    refused = run(READ, made)
    if refused != joined(b"", b"refused 19 line 1\n"):
        return f"asc2log's own log {made[:80]!r} was read: {refused[:80]!r}"
    broken = not_those_lines(log, run(READ, re.sub(rb" [RT]\n", b"\n", made)))
    if broken:
        return f"asc2log's lines: {broken}"
    # log2asc takes every line before 1.000000 for a first one.
    written = run(WRITE, TICK_RECORD * 1000 + records)
    broken = differs(frames_since_first(lines_of(written)), frames_in_asc(tool("log2asc", written)))
    return f"log2asc: frame {broken}" if broken else ""
