"""Which operations a command does, one by one, and where each note comes: docs/MODEL.md, "Tasks" and "The mailbox".

A Step is an operation, the phase that it belongs to, and the place at which a note may come with it.
"""
import re

LOG_LINE, GATE_LINE = 32768, 32769
# of each format: lines of a slot
SLOT_LINES = {1: 8, 2: 16}
LINE_BYTES = 64


class Step:
    def __init__(self, op, phase, place=""):
        self.op, self.phase, self.place = op, phase, place


class Phase:
    """A stretch of operations with one purpose: what it is called, and whether its lines go to memory or come from it."""

    def __init__(self, kind, text, total=0, things=()):
        self.kind, self.text, self.total, self.things = kind, text, total, things


def load_line(line):
    return [("drop", line)] + [("load", line)] * 8


def store_line(line, words, last):
    return [("store", line, word, value) for word, value in enumerate(words)] + [(last, line)]


def steps(ops, phase, place=""):
    """The place is that of the last one."""
    made = [Step(op, phase) for op in ops]
    made[-1].place = place
    return made


def slot_line(log, slot):
    lines = SLOT_LINES[log.form]
    return LOG_LINE + lines + lines * slot


def slot_numbers(log, slot):
    first = slot_line(log, slot)
    return list(range(first, first + SLOT_LINES[log.form]))


def file_lines(entry):
    """The lines of the device that hold a file's bytes, by its entry as a listing has it."""
    _, _, _, _, size, place, _ = entry.split(" ", 6)
    if place == "-":
        return []
    chunk, _, extents = place.rpartition(":")
    extents = [tuple(map(int, each.split("+"))) for each in extents.split(",")]
    return [byte_at(int(chunk or 0), extents, offset) // LINE_BYTES for offset in range(0, int(size), LINE_BYTES)]


def byte_at(chunk, extents, offset):
    if chunk:
        at, strip = offset // chunk // len(extents), offset // chunk % len(extents)
        return extents[strip][0] + at * chunk + offset % chunk
    for start, length in extents:
        if offset < length:
            return start + offset
        offset -= length
    raise ValueError("a file is longer than its extents")


def head_steps():
    phase = Phase("head", "reads superblock and header", 29)
    lines = steps(load_line(1) + load_line(2), phase, "super") + steps(load_line(LOG_LINE), phase, "header")
    return steps([("drop", 0), ("load", 0)], phase, "magic") + lines


def task_of(command, log, kept):
    """The steps of a command on a log, of a host that keeps so many entries. `log` tells what is there when it is asked."""
    yield from head_steps()
    yield Step(("drop", GATE_LINE), Phase("mark", "drops the gate's line", 1, ("gate",)), "mark")
    yield Step(("load", GATE_LINE), Phase("gate", "loads gate", 1, ("gate",)), "gate")
    gate = log.gate
    surveys = command[0] == "fsck"
    first = 0 if surveys or kept > gate else kept
    yield from slot_steps(log, first, log.slots if surveys else gate)
    wanted = wanted_lines(command, log) if command[0] in ("verify", "read") else []
    yield Step(("digest",), Phase("decides", "decides", 1), "decision" if wanted else "last decision")
    if command[0] in ("mkdir", "creat", "cp"):
        yield from append_steps(command, log, gate)
    elif wanted:
        phase = Phase("data", "drops and loads the file's lines", 9 * len(wanted), ("file",))
        for number, line in enumerate(wanted):
            yield from steps(load_line(line), phase, f"data {number}" if number + 1 < len(wanted) else "end")


def slot_steps(log, first, end):
    size = 9 * SLOT_LINES[log.form] + 1
    which = f"slot {first}" if end - first == 1 else f"slots {first} to {end - 1}"
    phase = Phase("slots", f"drops and loads {which}", size * (end - first), ("slots",))
    for slot in range(first, end):
        for line in slot_numbers(log, slot):
            yield from steps(load_line(line), phase)
        yield Step(("digest",), phase, f"slot {slot}")


def append_steps(command, log, gate):
    entry = log.entry
    if entry is None:
        raise ValueError("no note says what an append writes")
    lines = file_lines(entry)
    content = next((word for word in command if word.startswith("seed=")), command[1] if command[0] == "cp" else "zeros")
    phase = Phase("file", "stores and sends its file, line by line", 9 * len(lines), ("file",))
    for number, line in enumerate(lines):
        yield from steps(store_line(line, [(content, number, word) for word in range(8)], "drop"), phase)
    phase = Phase("slot", f"stores slot {gate}, asks for each line", 9 * SLOT_LINES[log.form], (f"slot {gate}",))
    for number, line in enumerate(slot_numbers(log, gate)):
        yield from steps(store_line(line, [((entry, gate, log.form), number, word) for word in range(8)], "ask"), phase)
    yield Step(("fence",), Phase("fence", f"fence: slot {gate} is sent", 1, (f"slot {gate}",)))
    phase = Phase("publish", f"stores gate {gate + 1}", 2, ("gate",))
    yield from steps([("store", GATE_LINE, 0, gate + 1), ("ask", GATE_LINE)], phase)
    yield Step(("fence",), Phase("fence", f"fence: gate {gate + 1} is sent", 1, ("gate",)), "end")


def wanted_lines(command, log):
    """The lines that a verify or read reads of the file at the path, as far as the script tells it."""
    lines = log.file_at(command[1])
    if command[0] == "verify":
        return lines
    offset, count = int(command[2]), int(command[3])
    return lines[offset // LINE_BYTES:(offset + count + LINE_BYTES - 1) // LINE_BYTES] if count else []


def mkfs_steps(log, uuid):
    phase = Phase("head", "reads lines 0, 1 and 2", 27)
    yield from steps(load_line(0) + load_line(1) + load_line(2), phase, "read")
    header, gate = Phase("made", "the log's header", 9, ("header",)), Phase("made", "gate 0", 9, ("gate",))
    zeros, magic = Phase("made", "line 0, zeros", 9, ("line 0",)), Phase("made", "line 0, the magic", 9, ("line 0",))
    yield from steps(store_line(0, [0] * 8, "drop"), zeros)
    yield from steps(store_line(GATE_LINE, [0] * 8, "drop"), gate)
    yield from steps(store_line(LOG_LINE, [("header", uuid, word) for word in range(8)], "drop"), header)
    for line in (1, 2):
        phase = Phase("made", f"line {line}, superblock", 9, ("line 0",))
        yield from steps(store_line(line, [(uuid, line, word) for word in range(8)], "drop"), phase)
    yield from steps(store_line(0, ["magic"] + [0] * 7, "drop"), magic)


def mail_task_of(command, log):
    """A post or a take, on the lines of a box: line 0 has the gate, and line 1 + I is record I."""
    yield Step(("drop", 0), Phase("mark", "drops the gate's line", 1, ("gate",)), "mark")
    yield Step(("load", 0), Phase("gate", "loads gate", 1, ("gate",)), "gate")
    gate = log.gate
    if command[0] == "take":
        yield Step(("digest",), Phase("decides", "counts", 1), "decision")
        phase = Phase("slots", "drops and loads each record", 9 * gate, ("records",))
        for record in range(gate):
            yield from steps(load_line(1 + record), phase, f"slot {record}" if record + 1 < gate else "end")
        return
    numbers = command[1:] + [0] * (8 - len(command))
    words = [len(command) - 1] + [int(number) for number in numbers[:7]]
    phase = Phase("slot", f"stores record {gate}, asks for it", 9, (f"record {gate}",))
    yield from steps(store_line(1 + gate, words, "ask"), phase)
    yield Step(("fence",), Phase("fence", f"fence: record {gate} is sent", 1, (f"record {gate}",)))
    phase = Phase("publish", f"stores gate {gate + 1}", 2, ("gate",))
    yield from steps([("store", 0, 0, gate + 1), ("ask", 0)], phase)
    yield Step(("fence",), Phase("fence", f"fence: gate {gate + 1} is sent", 1, ("gate",)), "end")


# where an answer comes, by its first words
PLACES = [
    (r"mark$", "mark"), (r"found ", "gate"), (r"writes ", "decision"), (r"no superblock", "magic"),
    (r"bad superblock|not master|path too long", "super"), (r"bad log gate|bad box|full ", "gate"), (r"bad log", "header"),
    (r"ok |posted ", "end"),
    (r"played|mounted|checked|fsck|exists|no parent|parent is|bad stripe|log full|no space|not found|is a dir|length", "decision"),
]


def places_of(note):
    """The places at which a note may come."""
    text = note.text
    if text.startswith("fsck damaged") and note.more:
        told = note.more[1] if note.more[0].startswith("superblock sound") and len(note.more) > 1 else note.more[0]
        text = told if told.startswith(("no superblock", "bad ")) else text
    if text.startswith(("bad entry", "bad record")):
        return {f"slot {note.words[2]}", "end"}
    if text.startswith("taken "):
        return {"end"} if note.words[1] != "0" else {"decision"}
    if text.startswith("differs"):
        return {f"data {int(note.words[2]) // LINE_BYTES}", "end"}
    if re.match(r"(same|bytes) ", text):
        return {"end", "last decision"}
    place = next((place for pattern, place in PLACES if re.match(pattern, text)), "")
    return {place, "last decision"} if place == "decision" else {place}
