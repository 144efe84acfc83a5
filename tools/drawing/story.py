"""What happened: each event of a script, done on a machine with the notes that it put, as rows of a picture.

A row is a stretch of one host's operations with the notes that came with it, and how memory and caches stand behind it.
"""
import re

from drawing.machine import Machine
from drawing.tasks import GATE_LINE, SLOT_LINES, file_lines, mail_task_of, mkfs_steps, places_of, slot_line, task_of

COUNTED = re.compile(r"(?:found|played|mounted|same|bytes|checked|not found|is a directory|differs|length differs|taken|full) (\d+)")
GOOD = re.compile(r"(ok|played|mounted|same|bytes|posted|taken) |fsck sound|checked \d+ missing 0 extra 0 changed 0 ")
# phases that stand in one row with those before them
JOINED = {"gate", "decides"}

# why an event is refused, beside that there is no such host
BEGINS = ("image too small", "busy", "mounted", "no file", "copy limit", "bad listing", "not writer")
MOVES = ("no line", "media fault")
CAUSES = {
    "host": ("same host", "too many hosts"), "writer": ("same host", "too many hosts", "second writer"), "reader": ("same host", "too many hosts"),
    "mkfs": ("image too small", "bad geometry", "too small", "busy", "dirty", "has superblock", "media fault"), "begin": BEGINS, "run": BEGINS,
    "step": ("idle",), "finish": ("idle",), "stop": ("idle",), "halt": (), "umount": ("busy", "not mounted"), "evict": MOVES, "leak": MOVES, "fetch": MOVES,
}


class Misfit(Exception):
    """The notes are none of this script."""


class Row:
    def __init__(self, event, host, parts, arrows=()):
        self.event, self.host, self.parts, self.arrows = event, host, parts, list(arrows)
        self.symbol = None
        self.last = event
        self.lost = []
        self.memory, self.caches, self.busy = {}, {}, set()


class Log:
    """What a task asks for: the gate that it loaded, the entry that it writes, and what files are known."""

    def __init__(self, form):
        self.form, self.gate, self.slots = form, 0, 0
        self.entry, self.sequence = None, 0
        self.entries = {}

    def file_at(self, path):
        return file_lines(self.entries[path]) if path in self.entries else []


class Story:
    def __init__(self, events, notes, form=1, lines=None):
        """`lines` are the first and the last line of the script of which rows are kept."""
        self.events, self.notes, self.at = events, notes, 0
        self.lines = lines or (0, events[-1].number if events else 0)
        self.machine, self.log = Machine(), Log(form)
        self.mail = any(event.kind in ("writer", "reader") for event in events)
        self.gate_line = 0 if self.mail else GATE_LINE
        self.tasks, self.kept, self.begun = {}, {}, {}
        self.hosts, self.rows, self.files = [], [], set()

    # notes

    def peek(self):
        return self.notes[self.at] if self.at < len(self.notes) else None

    def take(self, host, *firsts):
        """The next note, where it is this host's and begins so."""
        note = self.peek()
        if note and note.host == host and (not firsts or note.words[0] in firsts):
            self.at += 1
            return note
        return None

    def ahead(self, host):
        """How many entries this host's command comes to say that there are, where memory's gate isn't known."""
        for note in self.notes[self.at:]:
            told = COUNTED.match(note.text)
            if note.host == host and note.text.startswith("start "):
                return 0
            if note.host == host and told:
                return int(told[1])
            report = next((re.match(r"log sound (\d+) of", line) for line in note.more if line.startswith("log sound")), None)
            if note.host == host and report:
                return int(report[1])
        return 0

    # events

    def play(self):
        for event in self.events:
            if self.at >= len(self.notes) and event.kind not in ("step", "evict", "leak", "fetch", "finish"):
                break
            try:
                getattr(self, "do_" + ("host" if event.kind in ("writer", "reader") else event.kind))(event)
            except (KeyError, IndexError) as fault:
                raise Misfit(f"line {event.number} of the script and the notes don't fit") from fault
        if self.at < len(self.notes):
            note = self.notes[self.at]
            raise Misfit(f"the note `{note.host} {note.text}` is of no event")
        return self

    def put(self, row):
        """The row, with what stands behind it."""
        if self.lines[0] <= row.event.number <= self.lines[1]:
            self.stand(row)
            self.rows.append(row)
        return row

    def stand(self, row):
        row.memory = self.memory_now()
        row.caches = {host: self.cache_now(host) for host in self.hosts}
        row.busy = set(self.tasks)

    def refused(self, event):
        note = self.peek()
        cause = note.text.removeprefix("refused ") if note else ""
        note = self.take(event.host, "refused") if cause.startswith(("no host", *CAUSES[event.kind])) else None
        if note:
            self.put(Row(event, event.host if event.host in self.hosts else None, [(note.text, "bad")])).symbol = "refusal"
        return note

    def do_host(self, event):
        if not self.refused(event) and self.take(event.host, "host", "writer", "reader"):
            self.hosts.append(event.host)
            self.machine.caches[event.host] = {}
            self.kept[event.host] = None

    def do_mkfs(self, event):
        if self.refused(event):
            return
        note = self.take(event.host)
        if note is None or note.words[0] not in ("made", "mkfs"):
            raise Misfit(f"line {event.number} of the script makes a file system, and no note says so")
        uuid = event.words[2]
        count = 81 if note.words[0] == "made" else int(note.words[2])
        made = []
        for number, step in enumerate(mkfs_steps(self.log, uuid), 1):
            if number > max(count, 27):
                break
            self.operate(event.host, step.op)
            made += [step.phase] if step.phase not in made else []
        if note.words[0] == "made":
            options = dict(word.split("=") for word in event.words if "=" in word)
            self.log.form = int(options.get("format", 1))
            self.log.slots = int(note.words[5]) // (64 * SLOT_LINES[self.log.form]) - 1
            self.put(Row(event, event.host, [("made a file system", "good")], [("send", "line 0")])).symbol = "answer"
        else:
            row = self.put(Row(event, event.host, [(note.text, "bad")], [("send", "line 0")] if count >= 36 else []))
            self.lose(event.host, row)

    def do_begin(self, event):
        """Whether it was begun."""
        if self.refused(event):
            return False
        note = self.take(event.host, "start")
        if note is None:
            raise Misfit(f"line {event.number} of the script begins a command, and no note says so")
        command = event.command()
        kept = self.kept[event.host]
        self.begun[event.host] = command
        self.tasks[event.host] = mail_task_of(command, self.log) if self.mail else task_of(command, self.log, kept or 0)
        if event.kind == "begin":
            self.put(Row(event, event.host, [("begins " + " ".join(command), "bold")]))
        return True

    def do_run(self, event):
        if self.do_begin(event):
            self.go_on(event, None, [(" ".join(event.command()) + ": ", "bold")])

    def do_step(self, event):
        if not self.refused(event):
            self.go_on(event, int(event.words[2]) if len(event.words) > 2 else 1, [])

    def do_finish(self, event):
        if not self.refused(event):
            self.go_on(event, None, [])

    def do_stop(self, event):
        if not self.refused(event) and self.take(event.host, "stop"):
            self.tasks.pop(event.host, None)
            self.put(Row(event, event.host, [("stops", "bad")])).symbol = "stop"

    def do_halt(self, event):
        if not self.refused(event) and self.take(event.host, "halt"):
            self.lose(event.host, self.put(Row(event, event.host, [("halts", "bad")])))

    def lose(self, host, row):
        """The host's cache is lost, behind this row's operations."""
        lost = self.machine.lose(host)
        self.tasks.pop(host, None)
        self.kept[host] = None
        row.lost = sorted({self.thing(line) for line in lost})
        if row.lost:
            row.parts.append((f", loses {', '.join(row.lost)}", "bad"))
        row.symbol = "halt"
        row.caches[host] = {}
        row.busy.discard(host)

    def do_umount(self, event):
        if not self.refused(event) and self.take(event.host, "umount"):
            self.kept[event.host] = None
            self.put(Row(event, event.host, [("umount: keeps nothing", "")])).symbol = "dot"

    def move(self, event, words, arrow):
        if self.refused(event):
            return
        line = int(event.words[2])
        thing = self.thing(line)
        before = self.machine.state(event.host, line)
        getattr(self.machine, "drop" if event.kind == "evict" else event.kind)(event.host, line, *map(int, event.words[3:]))
        unsent = before in ("unsent", "asked")
        moved = unsent if arrow == "send" else not unsent
        row = self.same_move(event, thing)
        if row is None or not moved:
            idle = "" if moved else f": nothing to {'send' if arrow == 'send' else 'bring'}"
            row = self.put(Row(event, event.host, [(f"cache {words} {a_line(thing)}{idle}", "" if moved else "dim")], [(arrow, thing)] if moved else []))
            row.symbol = "move"
        else:
            row.last = event
            row.parts = [(f"cache {words} {a_line(thing).replace('a line', 'lines')}", "")]
            self.stand(row)

    def same_move(self, event, thing):
        """The last row, where it is of the same cache's moves at the same thing."""
        row = self.rows[-1] if self.rows else None
        same = row and row.symbol == "move" and row.event.kind == event.kind and row.host == event.host
        return row if same and [each for _, each in row.arrows] == [thing] else None

    def do_evict(self, event):
        self.move(event, "evicts", "send")

    def do_leak(self, event):
        self.move(event, "leaks words of", "send")

    def do_fetch(self, event):
        self.move(event, "fetches", "bring")

    # operations

    def go_on(self, event, count, parts):
        """So many steps of the host's task, or all: a row for each phase, the cheap ones in one."""
        host = event.host
        stretch = Stretch(self, event, parts)
        while host in self.tasks and (count is None or count > 0):
            fault = self.peek()
            step = next(self.tasks[host], None)
            if step is None:
                raise Misfit(f"the command of {host} in line {event.number} of the script has no answer")
            if fault and fault.host == host and fault.words[:2] == ["media", "fault"] and self.touches(host, step.op, int(fault.words[2])):
                self.take(host)
                stretch.end(fault, "refusal")
                break
            stretch.enter(step.phase)
            stretch.own = step.place == "gate" and self.machine.state(host, self.gate_line) is not None
            if step.place == "mark" and self.machine.state(host, self.gate_line) in ("unsent", "asked"):
                stretch.add(f"sends gate {self.machine.caches[host][self.gate_line].words[0]}", "")
                stretch.moves("send", "gate")
            self.operate(host, step.op)
            if step.place == "gate":
                self.load_gate(host, stretch)
            self.hear(host, step, stretch)
            count = None if count is None else count - 1
        stretch.flush()

    def touches(self, host, op, line):
        """Whether an operation asks memory for this line."""
        state = self.machine.state(host, line)
        if op[0] == "fence":
            return state == "asked"
        if len(op) < 2 or op[1] != line:
            return False
        return state is None if op[0] in ("load", "store") else state in ("unsent", "asked")

    def operate(self, host, op):
        if op[0] == "digest":
            return
        getattr(self.machine, op[0])(host, *op[1:])

    def load_gate(self, host, stretch):
        gate = self.machine.caches[host][self.gate_line].words[0]
        if gate is None:
            gate = self.ahead(host)
            self.machine.memory[self.gate_line] = [gate] + [None] * 7
            self.machine.caches[host][self.gate_line].words[0] = gate
        self.log.gate = gate
        stretch.add(f"loads gate {gate}" + (" from its own copy" if stretch.own else ""), "")
        if not stretch.own:
            stretch.moves("bring", "gate")

    def hear(self, host, step, stretch):
        """The notes that come with a step."""
        while step.place and host in self.tasks:
            note = self.peek()
            if not (note and note.host == host and step.place in places_of(note)):
                return
            self.take(host)
            if note.words[0] in ("mark", "found"):
                stretch.add(note.text, "told")
                stretch.symbol = "mark" if note.words[0] == "mark" else stretch.symbol
            elif note.words[0] == "writes":
                self.log.entry, self.log.sequence = " ".join(note.words[2:]), int(note.words[1])
                self.log.entries[note.words[-1]] = self.log.entry
                self.files = set(file_lines(self.log.entry)) or self.files
                stretch.add(f"writes {note.words[1]}: {note.words[-1]}", "told")
            else:
                self.answer(host, note)
                stretch.end(note, "answer" if GOOD.match(note.text) else "refusal")

    def answer(self, host, note):
        if note.words[0] == "mounted" or note.words[0] == "played" and self.kept[host] is not None:
            self.kept[host] = int(note.words[1])
        for line in note.more:
            if re.match(r"f [0-7]{4} ", line):
                self.log.entries[line.split(" ")[-1]] = line

    # what stands

    def thing(self, line):
        """What a line belongs to."""
        if line == self.gate_line:
            return "gate"
        if self.mail:
            return f"record {line - 1}"
        if line < 3:
            return "line 0" if line == 0 else "superblock"
        first = slot_line(self.log, 0)
        if line < first:
            return "log header"
        slot = (line - first) // SLOT_LINES[self.log.form]
        return f"slot {slot}" if slot < (self.log.slots or 131071) else "file"

    def cache_now(self, host):
        """Of each thing the host holds: how its copies stand, and the gate's value."""
        worst = {}
        for line in self.machine.caches[host]:
            state, thing = self.machine.state(host, line), self.thing(line)
            if thing in ("log header", "superblock"):
                continue
            if ORDER.index(state) > ORDER.index(worst.get(thing, "current")) or thing not in worst:
                worst[thing] = state
        told = {thing: (state, thing_tag(thing, None)) for thing, state in worst.items()}
        if "gate" in worst:
            told["gate"] = (worst["gate"], thing_tag("gate", self.machine.caches[host][self.gate_line].words[0]))
        return told

    def is_whole(self, slot, words):
        """Whether a slot's words, line by line, are those of one entry that was written there."""
        lines = SLOT_LINES[self.log.form]
        places = [(word[0][1:], word[1:]) if isinstance(word, tuple) else None for word in words]
        wanted = [((slot, self.log.form), (line, word)) for line in range(lines) for word in range(8)]
        return sorted(places, key=str) == sorted(wanted, key=str) and len({word[0] for word in words}) == 1

    def memory_now(self):
        """Of each thing how it stands in memory: part, whole or counted; of the gate its value."""
        gate = self.machine.line(self.gate_line)[0]
        told = {} if gate is None else {"gate": ("counted", thing_tag("gate", gate))}
        if not self.mail and self.machine.line(0)[0] is not None:
            told["line 0"] = ("counted", "magic") if self.machine.line(0)[0] == "magic" else ("part", "zero")
        things = {}
        for line in self.machine.memory:
            thing = self.thing(line)
            if thing.startswith(("slot", "record")):
                things.setdefault(thing, []).extend(self.machine.line(line))
        for thing, words in things.items():
            number = int(thing.split(" ")[1])
            whole = None not in words if self.mail else self.is_whole(number, words)
            told[thing] = ("part" if not whole else "counted" if gate is not None and number < gate else "whole", thing_tag(thing, None))
        lines = [line for line in self.files if line in self.machine.memory]
        if lines:
            counted = gate is not None and self.log.sequence < gate
            told["file"] = ("part" if len(lines) < len(self.files) else "counted" if counted else "whole", "f")
        return told


# how copies of one thing stand, the one that matters most last
ORDER = ["current", "stale", "asked", "unsent"]


def a_line(thing):
    """A line of a thing, in words."""
    return {"gate": "the gate's line", "file": "a line of a file", "line 0": "line 0"}.get(thing, f"a line of {thing}")


def thing_tag(thing, value):
    """A thing in two or three letters."""
    if thing == "gate":
        return "g?" if value is None else f"g{value}"
    return {"line 0": "0", "file": "f"}.get(thing) or thing[0] + thing.split(" ")[1]


# which way the lines of a phase go
WAYS = {"file": "send", "fence": "send", "made": "send", "head": "bring", "slots": "bring", "data": "bring"}


class Stretch:
    """The row that is being made of an event's steps."""

    def __init__(self, story, event, parts):
        self.story, self.event = story, event
        self.phase, self.done, self.own = None, 0, False
        self.clear(parts)

    def clear(self, parts):
        self.parts, self.symbol, self.told = parts, None, False
        self.arrows = []

    def enter(self, phase):
        if phase is self.phase:
            self.done += 1
            return
        if self.phase is not None and self.phase.kind != "head":
            self.describe()
            if phase.kind not in JOINED:
                self.flush()
        self.phase, self.done, self.told = phase, 1, False

    def moves(self, way, thing):
        if way and (way, thing) not in self.arrows:
            self.arrows.append((way, thing))

    def add(self, text, kind):
        """Words behind those that stand there."""
        if self.parts and not self.parts[-1][0].endswith(": "):
            self.parts.append((", ", ""))
        self.parts.append((text, kind))

    def end(self, note, symbol):
        """The answer, with what it lists."""
        paths = ", ".join(line.split(" ")[-1] for line in note.more if re.match(r"[df] [0-7]{4} ", line))
        numbers = ", ".join(note.more) if note.words[0] == "taken" else ""
        past = [line for line in note.more if line.startswith("past gate")]
        listed = f": {paths or numbers}" if paths or numbers else "".join(f", {line}" for line in past)
        self.describe()
        self.add(note.text + listed, "good" if symbol == "answer" else "bad")
        self.symbol = symbol
        self.story.tasks.pop(self.event.host, None)

    def describe(self):
        """What the phase did, where the notes don't say it."""
        if self.told or self.phase is None:
            return
        self.told = True
        self.moves(WAYS.get(self.phase.kind), self.phase.things[0] if self.phase.things else "line 0")
        if self.phase.text and self.phase.kind not in ("mark", "gate", "decides"):
            left = f" ({self.done} of {self.phase.total})" if self.done < self.phase.total else ""
            self.add(self.phase.text + left, "")

    def flush(self):
        if self.phase is None:
            return
        self.describe()
        row = self.story.put(Row(self.event, self.event.host, self.parts, self.arrows))
        row.symbol = self.symbol or "dot"
        self.phase, self.done = None, 0
        self.clear([])

