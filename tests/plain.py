"""The plain engine's ladder (request W12): its own list drives two nodes, one that sends and one that takes, by the line's law. Each frame
that either hands over must be the list's, in its place, and none more; then the taker's area must hold the message, and only that. What is
not refused, and what is, is read off the words. Damaged lists must not get through.

tests/run hands over the words of the runs and what was printed for them, and runs the scenes program. Nothing here asks the peer.
"""

import ast
import random
import re
from collections import Counter

LADDER = "plain_ladder"
THERE, BACK = "there", "back"
RECORD, LENGTH_MAX, AREA_MIN, BERTHS = 16, 4095, 8, 10
FRAME, TICK, SEND, TURN, SHOW, DUMP, STATE, SET_UP = 1, 2, 3, 4, 5, 6, 10, 12  # kinds of records of the scenes program
SINGLE, FIRST, CONSECUTIVE, FLOW_CONTROL = range(4)  # kinds of frames
OLD = 0xEE  # what the taker's area holds before
SHORT = 40  # frames of a list in which a while may pass
HEAD = b"words "  # before each run's lines
WORD = re.compile(r'"(?:[^"\\]|\\.)*"|\S+')  # as it is, or in quotes as Python has it
RUNG = re.compile(r"([1-9][0-9]*) (there|back) ([0-9A-F]{16}) (.+)")
SHOWN = re.compile(r"\s*([0-9]+)\s+([-<>|\s]*)((?:[0-9A-F]{2} ){7}[0-9A-F]{2})(?=[-<>|\s])([-<>|\s]*)([a-z].*)")
NUMBER, RANGE = "refused: {} is no number of one to nine digits", "refused: {} is not {}"
COUNT = "refused: LENGTH, BS and STMIN are wanted"
ARGUMENTS = (
    ("LENGTH", "1 to 4095", lambda n: 1 <= n <= 4095),
    ("BS", "0 to 255", lambda n: n <= 255),
    ("STMIN", "0 to 127 or 241 to 249", lambda n: n <= 127 or 241 <= n <= 249),
)


# Runs: the words of each, and what was printed for it


def words_in(line):
    return [ast.literal_eval(f"b{word}") if word.startswith('"') else word.encode() for word in WORD.findall(line)]


def runs_of(records):
    """The words of each run, as they stand in its line, and as they are given to the program."""
    return [(line, words_in(line)) for line in records.decode().splitlines()]


def put_together(printed):
    """One output of many runs: before each its words."""
    return b"".join(HEAD + line.encode() + b"\n" + output for line, output in printed)


def taken_apart(records, output):
    """Each run's words, and the text that was printed for it."""
    for line, words in runs_of(records):
        head = HEAD + line.encode() + b"\n"
        if not output.startswith(head):
            raise ValueError(f"another run than {line}")
        after = output.find(b"\n" + HEAD, len(head) - 1)
        printed, output = (output[len(head):after + 1], output[after + 1:]) if after >= 0 else (output[len(head):], b"")
        yield line, words, printed.decode(errors="replace")


def refusal_of(words):
    """The line that these words are refused with; none if they are good."""
    if len(words) != len(ARGUMENTS):
        return COUNT
    for (name, text, fits), word in zip(ARGUMENTS, words):
        if not re.fullmatch(rb"[0-9]{1,9}", word):
            return NUMBER.format(name)
        if not fits(int(word)):
            return RANGE.format(name, text)
    return ""


# A list


def words_of(frame):
    kind, low = divmod(frame[0], 16)
    if kind == FLOW_CONTROL and low == 0:
        return f"flow control, go, BS {frame[1]}, STmin {frame[2]}"
    told = {SINGLE: f"single frame, length {low}", FIRST: f"first frame, length {low * 256 + frame[1]}", CONSECUTIVE: f"consecutive frame, SN {low}"}
    return told.get(kind, "no frame of an exchange")


def list_in(printed):
    """The frames of a list with their directions, and the bytes delivered; it must have the form that is promised."""
    *rungs, last = printed.split("\n")[:-1] if printed.endswith("\n") else [""]
    frames = []
    for number, line in enumerate(rungs, 1):
        found = RUNG.fullmatch(line)
        frame = bytes.fromhex(found[3]) if found else b""
        if not found or int(found[1]) != number or found[4] != words_of(frame):
            raise ValueError(f"line {number} is {line!r}")
        frames.append((found[2], frame))
    delivered = re.fullmatch(r"delivered ([1-9][0-9]*)", last)
    if not delivered or not frames:
        raise ValueError(f"the last line is {last!r}")
    return frames, int(delivered[1])


def printed_list(frames, delivered):
    rungs = [f"{n} {way} {frame.hex().upper()} {words_of(frame)}\n" for n, (way, frame) in enumerate(frames, 1)]
    return "".join(rungs) + f"delivered {delivered}\n"


def and_so_on(before, after):
    """The consecutive frames between two lines of a list, the first of them one too: each goes on with number, SN and bytes."""
    number, frame = int(before.split()[0]), bytes.fromhex(before.split()[2])
    if kind_of(frame) != CONSECUTIVE:
        raise ValueError("it does not go on from a consecutive frame")
    for n in range(number + 1, int(after.split()[0])):
        frame = bytes((0x20 + (frame[0] + 1) % 16, *((byte + 7) % 256 for byte in frame[1:])))
        yield f"{n} {THERE} {frame.hex().upper()} {words_of(frame)}\n"


# Two nodes, driven by a list


class Scene:
    """Records for the scenes program, and the lines that it must print for them."""

    def __init__(self, area, block_size, stmin, berth):
        self.berth, self.served = berth, False
        self.area = area
        self.records, self.lines = [self.settings(block_size, stmin)], ["setup"]

    def settings(self, block_size, stmin):
        return self.area.to_bytes(4, "big") + block_size.to_bytes(2, "big") + stmin.to_bytes(2, "big")

    def add(self, record, line):
        self.records.append(bytes(record))
        self.lines.append(line)

    def set_up_again(self, block_size, stmin):
        self.add(bytes((SET_UP,)) + self.settings(block_size, stmin), "setup")
        self.served = False

    def send(self, length):
        self.add((SEND, self.berth, *divmod(length, 256)), f"sent {self.berth}")

    def frame(self, frame, word):
        self.add(bytes((FRAME, 0, 0x06, 0x40 + self.berth, len(frame), 0, 0, 0)) + frame, f"berth {self.berth} old 0 {word}")

    def turn(self, frame, code=0):
        text, party = frame.hex().upper(), f" party {self.berth}:0" if code else ""
        self.add((TURN,), f"frame 066{self.berth} {text} passed {9 if self.served else self.berth} code {code}{party} buffer {text}")
        self.served = True

    def turn_in_vain(self):
        self.add((TURN,), "none buffer EEEEEEEEEEEEEEEE")

    def ticks(self, number):
        self.records += [bytes((TICK,))] * number
        self.lines += ["tick"] * number

    def differs(self, run):
        """A text of the first line that the program does not print so."""
        got = run("scenes", b"".join(record.ljust(RECORD, b"\0") for record in self.records)).decode(errors="replace").splitlines()
        wanted = [f"{n} {line}" for n, line in enumerate(self.lines)]
        pairs = zip(wanted, got)
        broken = next((f"{b[:120]!r}, not {a[:120]!r}" for a, b in pairs if a != b), "")
        return broken or ("" if len(got) == len(wanted) else f"{len(got)} lines, not {len(wanted)}")


def rising(length):
    return bytes(i % 256 for i in range(length))


def gap_of(stmin):
    """The ticks between two consecutive frames (paper 01, request W2)."""
    ticks = stmin if stmin <= 127 else 1 if 241 <= stmin <= 249 else 127
    return ticks + 1 if ticks else 0


def kind_of(frame):
    return frame[0] // 16


def neighbours(frames):
    """Each frame with its place and its direction, that of the next one, and whether it is the last of the message or stands behind it."""
    ways = [way for way, _ in frames] + [None]
    last = max((at for at, way in enumerate(ways) if way == THERE), default=0)
    for at, (way, frame) in enumerate(frames):
        yield at, way, frame, ways[at + 1], at >= last


def pass_gap(scene, gap):
    """No frame is due before the gap's last tick."""
    if gap:
        scene.turn_in_vain()
        scene.ticks(gap - 1)
        scene.turn_in_vain()
        scene.ticks(1)


def some_area(length, dice):
    """One that holds the message, and often just so."""
    least = max(length, AREA_MIN)
    return dice.choice((least, dice.randint(least, LENGTH_MAX)))


def senders_scene(length, frames, dice):
    """The node that sends: its frames are the list's, and the list's flow control comes in where it stands."""
    scene = Scene(some_area(length, dice), dice.choice((0, 1, 8)), 0, dice.randrange(BERTHS))
    gap = 0
    scene.turn_in_vain()
    scene.send(length)
    for _, way, frame, after, last in neighbours(frames):
        if way == BACK:
            gap = gap_of(frame[2])
            scene.frame(frame, "going")
            continue
        scene.turn(frame, 1 if last else 0)
        if after == THERE and kind_of(frame) == CONSECUTIVE:
            pass_gap(scene, gap)
        else:
            scene.turn_in_vain()
    scene.turn_in_vain()
    scene.add((STATE, scene.berth), f"state set {scene.records[0][5]} 0 rx 0 last 0 tx 0")
    return scene


def frames_behind_first(length):
    return -(-(length - 6) // 7)  # rounded up


def fill_area(scene):
    """A message of other bytes, as long as the area, with BS 0."""
    scene.frame(bytes((0x10 + scene.area // 256, scene.area % 256)) + bytes((OLD,)) * 6, f"begun {scene.area}")
    scene.turn(bytes.fromhex("300000CCCCCCCCCC"))
    frames = frames_behind_first(scene.area)
    for n in range(1, frames + 1):
        scene.frame(bytes((0x20 + n % 16,)) + bytes((OLD,)) * 7, f"delivered {scene.area}" if n == frames else "took")


def takers_scene(length, block_size, stmin, frames, dice):
    """The node that takes: the list's frames come in, and its flow control is the list's; then the area holds the message."""
    scene = Scene(some_area(length, dice), 0, 0, dice.randrange(BERTHS))
    fill_area(scene)
    scene.set_up_again(block_size, stmin)  # which touches no store
    pause = dice.randrange(len(frames)) if len(frames) <= SHORT else -1
    for at, way, frame, after, last in neighbours(frames):
        scene.ticks(999 if at == pause else dice.randrange(3))
        if way == BACK:
            scene.turn(frame)
        elif last or kind_of(frame) == SINGLE:
            scene.frame(frame, f"delivered {length}")
        else:
            scene.frame(frame, f"begun {length}" if kind_of(frame) == FIRST else "took")
        if after != BACK:
            scene.turn_in_vain()
    area = rising(length) + bytes((OLD,)) * (scene.area - length)
    scene.add((SHOW, scene.berth, 0), f"show {rising(length).hex().upper()}")
    scene.add((DUMP, scene.berth, 0), f"area {area.hex().upper()}")
    scene.add((DUMP, (scene.berth + 1) % BERTHS, 0), f"area {bytes(scene.area).hex()}")  # the next berth's
    scene.add((STATE, scene.berth), f"state set {block_size} {stmin} rx 0 last {length} tx 0")
    return scene


def drives_others(words, printed, run):
    """A text of where a list has another form, or two nodes do not go by it."""
    try:
        frames, delivered = list_in(printed)
    except ValueError as error:
        return str(error)
    length, block_size, stmin = map(int, words)
    if delivered != length:
        return f"{delivered} bytes are delivered"
    dice = random.Random(printed)
    scenes = {"sends": senders_scene(length, frames, dice), "takes": takers_scene(length, block_size, stmin, frames, dice)}
    told = ((name, scene.differs(run)) for name, scene in scenes.items())
    return next((f"the node that {name}: {text}" for name, text in told if text), "")


def drives_two_nodes(records, output, run):
    """A text of where a ladder is not what two nodes do, or where words are refused, or not, against their ranges."""
    try:
        runs = [(line, words, printed, refusal_of(words)) for line, words, printed in taken_apart(records, output)]
    except ValueError as error:
        return str(error)
    refused = (f"{line}: {printed[:80]!r}, not {refusal!r}" for line, _, printed, refusal in runs if refusal and printed != f"{refusal}\n")
    driven = ((line, drives_others(words, printed, run)) for line, words, printed, refusal in runs if not refusal)
    return next(refused, "") or next((f"{line}: {broken}" for line, broken in driven if broken), "")


# What the streams have of all that they shall have


def laddered_in(records, output):
    seen = Counter()
    for _, words, printed in taken_apart(records, output):
        if refusal_of(words):
            seen[printed.strip()] += 1
            continue
        length, block_size, stmin = map(int, words)
        frames, _ = list_in(printed)
        consecutive = sum(kind_of(frame) == CONSECUTIVE for _, frame in frames)
        seen["in all"] += 1
        seen["frames"] += len(frames)
        seen["BS", block_size] += consecutive > 0
        seen["STmin", stmin] += consecutive > 0
        seen["consecutive frames", consecutive] += 1
        seen["a last frame that is full"] += consecutive > 0 and (length - 6) % 7 == 0
        if block_size and consecutive > block_size:
            seen["a last block, and one before it, of BS", min(consecutive % block_size, 2)] += 1
            seen["after SN 15 comes 0, in a block" if block_size > 16 else "after SN 15 comes 0, over blocks"] += consecutive > 16
    return seen


def not_laddered(seen):
    """A text of what the ladders together should have seen, and have not."""
    wanted = [("BS", n) for n in range(256)] + [("STmin", n) for n in (0, 1, 126, 127, *range(241, 250))]
    wanted += [("consecutive frames", n) for n in (0, 1, 2, 3, 15, 16, 17, 585)]
    wanted += [("a last block, and one before it, of BS", n) for n in range(3)]  # full, of one frame, of more
    wanted += ["a last frame that is full", "after SN 15 comes 0, in a block", "after SN 15 comes 0, over blocks", COUNT]
    wanted += [text for name, ends, _ in ARGUMENTS for text in (NUMBER.format(name), RANGE.format(name, ends))]
    return "\n".join(f"never: {what}" for what in wanted if not seen[what])


# Damaged lists


def with_byte(frame, place, byte):
    return frame[:place] + bytes((byte,)) + frame[place + 1:]


def numbered_anew(frames):
    """The SN set back after each go."""
    sn, changed = 1, []
    for way, frame in frames:
        sn = 1 if way == BACK else sn
        if kind_of(frame) == CONSECUTIVE:
            frame, sn = with_byte(frame, 0, 0x20 + sn % 16), sn + 1
        changed.append((way, frame))
    return changed


def places(frames, dice, most=12):
    every = range(len(frames))
    return list(every) if len(frames) <= most else sorted({0, 1, 2, len(frames) - 1, *dice.sample(every, most - 4)})


def moved(frames, at):
    """A go a frame later, or a frame earlier: what stood behind it comes first."""
    return frames[:at] + [frames[at + 1], frames[at]] + frames[at + 2:]


def damages(frames, dice):
    """(what was done, the damaged frames) of a list."""
    go = next((frame for way, frame in frames if way == BACK), bytes.fromhex("300000CCCCCCCCCC"))
    yield "a go behind the last frame", frames + [(BACK, go)]
    yield "the SN set back after each go", numbered_anew(frames)
    yield "the last frame twice", frames + frames[-1:]
    yield "a frame more", frames + [(THERE, bytes.fromhex("2000CCCCCCCCCCCC"))]
    yield "no go at all", [(way, frame) for way, frame in frames if way == THERE]
    yield "no more than the first go", [rung for at, rung in enumerate(frames) if at < 2 or rung[0] == THERE]
    for at in places(frames, dice):
        way, frame = frames[at]
        yield f"frame {at + 1} left out", frames[:at] + frames[at + 1:]
        yield f"frame {at + 1} twice", frames[:at + 1] + frames[at:]
        yield f"frame {at + 1} the other way", frames[:at] + [(BACK if way == THERE else THERE, frame)] + frames[at + 1:]
        if at + 1 < len(frames):
            yield f"frames {at + 1} and {at + 2} swapped", moved(frames, at)
            if frames[at + 1][0] == THERE:
                yield f"a go behind frame {at + 1}", frames[:at + 1] + [(BACK, go)] + frames[at + 1:]
        for place in range(8):
            changed = with_byte(frame, place, frame[place] ^ 0xCC)  # a filler becomes 00
            yield f"byte {place} of frame {at + 1} changed", frames[:at] + [(way, changed)] + frames[at + 1:]


def misprints(printed, dice):
    """(what was done, the text) of a list that is not printed as it should be."""
    lines = printed.splitlines(True)
    at = dice.randrange(len(lines) - 1)
    number, way, frame, words = lines[at].split(" ", 3)

    def with_line(text):
        return "".join(lines[:at] + [text] + lines[at + 1:])

    yield "another number", with_line(f"{int(number) + 1} {way} {frame} {words}")
    yield "other words", with_line(f"{number} {way} {frame} single frame, length 9\n")
    yield "lower case", printed.replace("CC", "cc") if "CC" in printed else printed.lower()
    yield "an empty line", with_line(lines[at] + "\n")
    yield "no number", with_line(f"{way} {frame} {words}")
    yield "nothing delivered", "".join(lines[:-1])
    yield "delivered twice", printed + lines[-1]
    yield "other bytes delivered", "".join(lines[:-1]) + f"delivered {int(lines[-1].split()[1]) + 1}\n"
    yield "no line's end", printed[:-1]
    yield "a refusal behind it", printed + COUNT + "\n"


def not_seen_damaged(words, printed, run, seed):
    """A text of each damage to a list that two nodes would go by all the same, and how many damages there were."""
    dice = random.Random(seed)
    frames, delivered = list_in(printed)
    damaged = [(what, printed_list(changed, delivered)) for what, changed in damages(frames, dice)] + list(misprints(printed, dice))
    damaged = [(what, text) for what, text in damaged if text != printed]
    unseen = [what for what, text in damaged if not drives_others(words, text, run)]
    whole = drives_others(words, printed_list(frames, delivered), run)
    return "\n".join([f"the list as it is: {whole}"] * bool(whole) + [f"not seen: {what}" for what in unseen]), len(damaged)


# The ladder as ./carumpek plain shows it


def drawn_as(line):
    """The line of the list that a drawn one shows: the arrow may stand before the bytes, behind them or around them, and has one head."""
    found = SHOWN.fullmatch(line)
    if not found:
        return ""
    number, before, frame, behind, words = found.groups()
    heads = re.findall(r"-->|<--|[<>]", before + behind)
    ways = {("-->",): THERE, ("<--",): BACK}
    return f"{number} {ways.get(tuple(heads))} {frame.replace(' ', '')} {words.rstrip()}"


def shown_otherwise(printed, shown):
    """A text of where what is shown is not the list: each frame with its number, its arrow, its bytes and its words, and what is delivered."""
    *rungs, delivered = printed.splitlines()
    lines = [line for line in shown.splitlines() if line.strip()]
    drawn = [line for line in lines[:-1] if line.strip()[:1].isdigit()]
    if not lines or lines[-1].strip() != delivered:
        return f"the last line is {lines[-1:]}, not {delivered!r}"
    pairs = zip(rungs, drawn)
    other = next((f"{line!r} for {rung!r}" for rung, line in pairs if drawn_as(line) != rung), "")
    return other or ("" if len(drawn) == len(rungs) else f"{len(drawn)} frames, not {len(rungs)}")


def not_seen_misdrawn(printed, shown):
    """A text of each damage to what is shown that would be taken for the list all the same."""
    lines = shown.splitlines(True)
    at = next(n for n, line in enumerate(lines) if "<--" in line)
    line = lines[at]
    changed = {
        "another arrow": line.replace("<--", "---").replace("--|", "->|"), "no arrow's head": line.replace("<", "-"),
        "left out": "", "twice": line * 2,
        "another byte": line.replace("CC", "CD", 1), "a byte less": line.replace("CC ", "", 1), "lower case": line.replace("CC", "cc"),
        "another number": line.replace("2", "3", 1), "other words": line.replace("go", "wait"), "behind the next": lines[at + 1] + line,
    }
    texts = {what: "".join(lines[:at] + [text] + lines[at + 1 + (what == "behind the next"):]) for what, text in changed.items()}
    texts |= {"nothing delivered": "".join(lines[:-1]), "other bytes delivered": shown.replace("delivered ", "delivered 1"), "nothing": ""}
    return "\n".join(f"not seen: {what}" for what, text in texts.items() if text == shown or not shown_otherwise(printed, text))
