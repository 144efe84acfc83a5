"""Which recorded histories are legal, by the definitions of docs/MODEL.md, "The journal" and "Recorded histories", computed
plainly: all states in which hosts may be behind a line are kept, and each is tried with whatever notes were left out.

The image is blank before the first line, and has as many lines as the first file system that is made says, or else as many
as an image may have."""
from collections import namedtuple

import recorded

Params = namedtuple("Params", "fs unit log device format slots master")
File = namedtuple("File", "entry fill")
# What is settled: a damage, or else parameters, the history and the pending entry.
State = namedtuple("State", "damage params history pending")
Host = namedtuple("Host", "name uuid keeps runs command stage floor wrote")
Possible = namedtuple("Possible", "state hosts")

HEAD, LEAST_LINES, LINE, MOST_LINES = 2097152, 32770, 64, 1 << 34
UNITS = [4096 << k for k in range(10)]
LOG_LIMIT, HOST_LIMIT = 67108864, 64
FIRST_SENT = 36
NO_SUPER = ("damage", "none", 0)
CLEARED = (("none", 0), ("unread",), (0, 0), (0, 0), None, None, 0)
APPENDS = (b"mkdir", b"creat", b"cp")
DECIDED = ("bad stripe", "exists", "no parent", "parent is a file", "log full", "no space")


# Contents.

def rotated(value, by):
    """A word rotated to the left."""
    return (value << by | value >> 64 - by) & recorded.WORD - 1


def seeded(seed):
    """The bytes of a seed: Xoshiro256++ behind SplitMix64, low byte first."""
    state, mask = [], recorded.WORD - 1
    for _ in range(4):
        seed = seed + 0x9e3779b97f4a7c15 & mask
        mixed = (seed ^ seed >> 30) * 0xbf58476d1ce4e5b9 & mask
        mixed = (mixed ^ mixed >> 27) * 0x94d049bb133111eb & mask
        state.append(mixed ^ mixed >> 31)
    while True:
        yield from (rotated(state[0] + state[3] & mask, 23) + state[0] & mask).to_bytes(8, "little")
        kept = state[1] << 17 & mask
        state[2] ^= state[0]
        state[3] ^= state[1]
        state[1] ^= state[2]
        state[0] ^= state[3]
        state[2] ^= kept
        state[3] = rotated(state[3], 45)


def content(fill):
    """The bytes of a content, without end; None is one that isn't told."""
    if fill[0] == "seed":
        yield from seeded(fill[1])
    while True:
        yield 0 if fill[0] == "zero" else None


def pairs(fill, other, size):
    """The bytes of two contents, side by side."""
    return zip(range(size), content(fill), content(other))


def may_be_same(fill, other, size):
    """No byte of the two is told to differ."""
    return fill == other or all(a == b or a is None or b is None for _, a, b in pairs(fill, other, size))


def may_differ(fill, other, size, answer):
    """The two may first differ so."""
    _, _, offset, found, wanted = answer
    if offset >= size or found == wanted:
        return False
    for at, a, b in pairs(fill, other, offset + 1):
        if at == offset:
            return a in (None, found) and b in (None, wanted)
        if a != b and a is not None and b is not None:
            return False
    return False


def may_be_read(fill, size, command, found):
    """A read may give these bytes."""
    wanted = max(0, min(command.count, size - command.offset))
    if len(found) != wanted:
        return False
    behind = (b for at, b in zip(range(command.offset + wanted), content(fill)) if at >= command.offset)
    return fill[0] == "untold" or all(a == b for a, b in zip(found, behind))


# Rules.

def used_units(params, history):
    """Which units of the device are used."""
    used = bytearray(params.device // params.unit)
    taken = [(0, HEAD + params.log)] + [it for file in history for it in file.entry.map[1]]
    for offset, length in taken:
        for unit in range(offset // params.unit, (offset + length) // params.unit):
            used[unit] = 1
    return used


def room(used, start, end, count):
    """The lowest start at which so many units are free below the end."""
    if count > end - start:
        return None
    at = used.find(bytes(count), start, end)
    return None if at < 0 else at


def strips(params, history, size, stripe):
    """The map of a striped file, or the units that there is no room for."""
    count, buckets, chunk = stripe
    units = min(-(-(-(-size // chunk)) // count) * chunk // params.unit, recorded.WORD - 1)
    used, width = used_units(params, history), params.device // params.unit // buckets
    turns = ((len(history) + turn) % buckets for turn in range(buckets))
    offers = [it for it in (room(used, x * width, (x + 1) * width, units) for x in turns) if it is not None]
    if len(offers) < count:
        return "no space", units
    return chunk, tuple((start * params.unit, units * params.unit) for start in offers[:count])


def place(params, history, command):
    """The map of a new file, or the units that there is no room for."""
    if command.size == 0:
        return "-", ()
    if command.stripe is not None:
        return strips(params, history, command.size, command.stripe)
    units = -(-command.size // params.unit)
    start = room(used_units(params, history), 0, params.device // params.unit, units)
    return ("no space", units) if start is None else ("=", ((start * params.unit, units * params.unit),))


def is_stripe(params, stripe):
    """A stripe that may be asked for."""
    count, buckets, chunk = stripe
    return 1 <= chunk and chunk % params.unit == 0 and 1 <= count <= 16 and count <= buckets <= 64


def path_limit(params):
    """The most bytes of a path."""
    return 168 if params.format == 1 else 512


def refused(params, me, history, command):
    """Why nothing is appended, but for want of room; or None."""
    if me != params.master:
        return "not master", me, params.master
    if len(command.path) > path_limit(params):
        return "path too long", path_limit(params)
    if command.stripe is not None and not is_stripe(params, command.stripe):
        return ("bad stripe",)
    kinds = {it.entry.path: it.entry.kind for it in history}
    if command.path in kinds:
        return "exists", b"directory" if kinds[command.path] == "d" else b"file"
    parent, slash, _ = command.path.rpartition(b"/")
    if slash and kinds.get(parent) != "d":
        return ("parent is a file",) if parent in kinds else ("no parent",)
    return ("log full", params.slots) if len(history) >= params.slots else None


def decide(params, me, history, command):
    """The entry that is appended, or why none is."""
    why = refused(params, me, history, command)
    if why:
        return why
    found = place(params, history, command)
    if found[0] == "no space":
        return found
    kind = "d" if command.word == b"mkdir" else "f"
    return recorded.Entry(kind, *command.attr, command.size, found, command.path)


# What is settled.

def settled(state):
    """How many entries are."""
    return len(state.history) if state.damage is None else 0


def everything(state):
    """The history and the pending entry."""
    return state.history + ((state.pending,) if state.pending else ())


def shows(state, count):
    """So many entries were shown: a pending one joins where it is among them."""
    if state.damage or count != len(state.history) + 1:
        return state
    return state._replace(history=everything(state), pending=None)


def finds(state, count):
    """An append found so many entries: a pending one is dropped or joins."""
    if state.damage or count != len(state.history):
        return shows(state, count)
    return state._replace(pending=None)


def may_find(state):
    """How many entries an append may find."""
    if state.damage:
        return []
    return [len(state.history)] + ([len(state.history) + 1] if state.pending else [])


def acknowledges(state, seq):
    """Entry seq was acknowledged."""
    if state.damage or seq != len(state.history):
        return state
    return state._replace(history=everything(state), pending=None)


# Hosts of a state.

def changed(x, h, **fields):
    """The state with other fields of a host."""
    return x._replace(hosts=x.hosts[:h] + (x.hosts[h]._replace(**fields),) + x.hosts[h + 1:])


def found(x, h, count):
    """A host's command has found so many entries."""
    return changed(x, h, stage=("met", count))._replace(state=finds(x.state, count))


def named(x, h, seq, entry):
    """It has named an entry."""
    pending = File(entry, x.hosts[h].command.fill or ("zero",))
    state = x.state if x.state.damage else x.state._replace(pending=pending)
    return changed(x, h, stage=("named", seq), wrote=(seq, entry))._replace(state=state)


def wants(host):
    """It runs a command that appends."""
    return host.runs and host.command.word in APPENDS


def met(x, h):
    """The states in which a host's command has found entries by now."""
    host = x.hosts[h]
    if host.runs and host.stage[0] == "met":
        yield x
    if wants(host) and host.stage[0] in ("begun", "marked"):
        for count in may_find(x.state):
            yield found(x, h, count)


def decided(x, h):
    """What the rules decide for a host's command, with nothing pending; else None."""
    host, state = x.hosts[h], x.state
    if state.damage or state.pending or not wants(host):
        return None
    return decide(state.params, host.uuid, state.history, host.command)


def wrote(x, h):
    """The states in which it has named an entry by now."""
    for now in met(x, h):
        entry = decided(now, h)
        if isinstance(entry, recorded.Entry) and now.hosts[h].stage == ("met", len(now.state.history)):
            yield named(now, h, len(now.state.history), entry)


def reached(x, h):
    """How far a host's command may have come."""
    if x.hosts[h].runs:
        if x.hosts[h].stage[0] == "begun":
            yield changed(x, h, floor=None)
            yield changed(x, h, stage=("marked",))
        else:
            yield x
        yield from met(x, h)
        yield from wrote(x, h)


# Notes of running commands.

def counts(answer):
    """How many entries an answer tells, if any."""
    if answer[0] == "fsck":
        log = answer[2][1]
        return log[1] if log[0] == "sound" else None
    return answer[1] if answer[0] in ("played", "mounted", "same", "bytes", "not found", "is a directory", "checked", "differs", "length differs") else None


def is_in_bounds(x, h, count):
    """So many entries may be shown to a host's command."""
    floor = x.hosts[h].floor
    return x.state.damage is None and floor is not None and floor <= count <= len(everything(x.state))


def first_counts(paths, command, answer):
    """How a tree of these paths may differ from a listing of so many entries."""
    _, _, (missing, extra, altered), first = answer
    if command.count + missing != len(paths) + extra:
        return False
    if (first is None) != (missing == extra == altered == 0):
        return False
    behind = sum(first is not None and it > first for it in paths)
    if first is None:
        return True
    if first in paths:
        return 1 <= missing + altered <= behind + 1
    return 1 <= extra and missing + altered <= behind


def file_answered(file, command, answer):
    """What a verify or a read may be answered of a file."""
    size = file.entry.size
    if answer[0] == "bytes":
        return command.word == b"read" and may_be_read(file.fill, size, command, answer[2])
    if command.word != b"verify":
        return False
    if answer[0] == "length differs":
        return command.count is not None and answer[2:] == (size, command.count) and size != command.count
    if command.count not in (None, size):
        return False
    if answer[0] == "same":
        return may_be_same(file.fill, command.fill, size)
    return answer[0] == "differs" and may_differ(file.fill, command.fill, size, answer)


def asked(files, command, answer):
    """The question may be answered so of these entries."""
    word = command.word
    if answer[0] == "played":
        return word == b"logplay" and list(answer[2]) == sorted((it.entry for it in files), key=lambda it: it.path)
    if answer[0] == "mounted":
        return word == b"mount"
    if answer[0] == "checked":
        return word == b"check" and first_counts([it.entry.path for it in files], command, answer)
    if word not in (b"verify", b"read"):
        return False
    file = next((it for it in files if it.entry.path == command.path), None)
    if file is None or file.entry.kind == "d":
        return answer[0] == ("not found" if file is None else "is a directory")
    return file_answered(file, command, answer)


def is_sound_report(params, files, report):
    """The report of a sound file system of these entries."""
    used = sum(used_units(params, files))
    kinds = tuple(sum(it.entry.kind == kind for it in files) for kind in "fd")
    wanted = (("sound",), ("sound", len(files), params.slots), kinds, (used, params.device // params.unit - used), None, None)
    return report[:6] == wanted and report[6] <= params.slots - len(files)


def reported(x, h, answer):
    """An fsck may report so."""
    host, (_, sound, report) = x.hosts[h], answer
    says = report[0] == ("sound",) and report[1][0] == "sound" and report[4] is None and report[5] is None
    if host.command.word != b"fsck" or says != sound:
        return False
    count = counts(answer)
    if x.state.damage:
        return report == CLEARED and host.stage[0] == "begun"
    if count is None or host.stage[0] != "marked" or not is_in_bounds(x, h, count):
        return False
    return is_sound_report(x.state.params, everything(x.state)[:count], report)


def declined(x, h, answer):
    """Nothing may be appended for this cause."""
    host, params = x.hosts[h], x.state.params
    if answer[0] in DECIDED:
        return host.stage[0] == "met" and decided(x, h) == answer
    if not wants(host) or host.stage[0] != "begun" or x.state.damage:
        return False
    return refused(params, host.uuid, (), host.command) == answer


def acknowledged(x, h, seq):
    """Entry seq is the one that the command named, and the last that is settled."""
    host, state = x.hosts[h], acknowledges(x.state, seq)
    return (host.stage == ("named", seq) and state.damage is None and len(state.history) == seq + 1
            and host.wrote == (seq, state.history[seq].entry))


def answered(x, h, answer):
    """The command may be answered so as far as it has come."""
    host = x.hosts[h]
    if answer[0] == "media fault":
        return True
    if answer[0] == "ok":
        return acknowledged(x, h, answer[1])
    if answer[0] in DECIDED or answer[0] in ("not master", "path too long"):
        return declined(x, h, answer)
    if answer[0] == "fsck":
        return reported(x, h, answer)
    if answer[0] == "damage":
        return x.state.damage == answer and host.command.word != b"fsck" and host.stage[0] == "begun"
    count = counts(answer)
    if host.stage[0] != "marked" or not is_in_bounds(x, h, count):
        return False
    return asked(everything(x.state)[:count], host.command, answer)


def behind_answer(x, h, answer):
    """The state behind an answer."""
    count, state = counts(answer), x.state
    if answer[0] == "ok":
        state = acknowledges(state, answer[1])
    elif count is not None:
        state = shows(state, count)
    keeps = x.hosts[h].keeps or answer[0] == "mounted"
    return changed(x, h, runs=False, keeps=keeps)._replace(state=state)


def own_note(x, h, what, told):
    """The state behind a note of a running command that has come so far; None where it can't stand."""
    host = x.hosts[h]
    if what == "mark":
        return changed(x, h, stage=("marked",), floor=settled(x.state)) if host.stage[0] == "begun" else None
    if what == "found":
        return found(x, h, told) if wants(host) and host.stage[0] == "marked" and told in may_find(x.state) else None
    if what == "writes":
        fits = host.stage == ("met", told[0]) and decided(x, h) == told[1] and told[0] == settled(x.state)
        return named(x, h, *told) if fits else None
    return behind_answer(x, h, told) if answered(x, h, told) else None


# Other notes, by what is seen of the hosts.

def number_of(x, name):
    """The number of the host of a name."""
    return next((h for h, it in enumerate(x.hosts) if it.name == name), None)


def engaged(x):
    """The first host that runs a command or keeps something of the log."""
    return next((h for h, it in enumerate(x.hosts) if it.runs or it.keeps), None)


def may_make(x, lines):
    """Some file system fits, and nobody is busy."""
    return HEAD + 2 * UNITS[0] <= LINE * lines and engaged(x) is None


def is_log(unit, length):
    """The length of a log."""
    return 0 < length <= LOG_LIMIT and length % unit == 0


def is_made(told, lines):
    """Such a file system may be made on so many lines."""
    _, unit, log, device, _ = told
    return unit in UNITS and is_log(unit, log) and HEAD + log + unit <= device == LINE * lines


def refuses_making(x, h, lines, why, values):
    """A cause that a mkfs alone has."""
    if why == "bad geometry":
        return h is not None and not (values[0] in UNITS and is_log(*values))
    if why == "too small":
        need, have = values
        return h is not None and any(is_log(unit, need - HEAD - unit) for unit in UNITS) and have == LINE * lines < need
    if why == "dirty":
        dirty = number_of(x, values[0])
        return may_make(x, lines) and h is not None and dirty not in (None, h)
    return may_make(x, lines) and h is not None


def refuses(x, name, lines, why, *values):
    """A call for the host of this name may be refused so."""
    h = number_of(x, name)
    host = None if h is None else x.hosts[h]
    other = number_of(x, values[0]) if why in ("same host", "busy") else None
    enough = lines >= LEAST_LINES
    if why in ("bad geometry", "too small", "dirty", "has superblock"):
        return refuses_making(x, h, lines, why, values)
    rows = {
        "no host": lambda: h is None,
        "same host": lambda: other is not None and (h is None or other <= h),
        "too many hosts": lambda: h is None and len(x.hosts) >= HOST_LIMIT,
        "image too small": lambda: h is not None and values[0] == lines and not enough,
        "busy": lambda: other is not None and h is not None and (
            h == other and host.runs or HEAD + 2 * UNITS[0] <= LINE * lines and engaged(x) == other),
        "idle": lambda: h is not None and not host.runs,
        "mounted": lambda: enough and h is not None and not host.runs and host.keeps,
        "not mounted": lambda: h is not None and not host.runs and not host.keeps,
        "no line": lambda: h is not None and values[1] == lines <= values[0],
        "media fault": lambda: h is not None and values[0] < lines}
    return rows.get(why, lambda: enough and h is not None and not host.runs)()


def begun(x, h, command, lines):
    """The state behind a start."""
    host = x.hosts[h]
    if host.runs or lines < LEAST_LINES or command.word == b"mount" and host.keeps:
        return None
    return changed(x, h, runs=True, command=command, stage=("begun",), floor=settled(x.state), wrote=None)


def made_or_halted(x, h, what, told, lines):
    """The state behind a file system that was made, or whose maker halted."""
    if what == "mkfs":
        if not may_make(x, lines):
            return None
        return x if told < FIRST_SENT else x._replace(state=State(NO_SUPER, None, (), None))
    if engaged(x) is not None or not is_made(told, lines):
        return None
    fs, unit, log, device, number = told
    params = Params(fs, unit, log, device, number, log // (512 * number) - 1, x.hosts[h].uuid)
    return x._replace(state=State(None, params, (), None))


def declared(x, name, uuid):
    """The state behind a host that is declared."""
    if len(x.hosts) >= HOST_LIMIT or any(name == it.name or uuid == it.uuid for it in x.hosts):
        return None
    return x._replace(hosts=x.hosts + (Host(name, uuid, False, False, None, None, None, None),))


def world_note(x, note, lines):
    """The state behind a note that no running command gives; None where it can't stand."""
    if note.what == "host":
        return declared(x, note.name, note.told)
    if note.what == "refused":
        return x if refuses(x, note.name, lines, *note.told) else None
    h = number_of(x, note.name)
    if h is None:
        return None
    host = x.hosts[h]
    if note.what == "start":
        return begun(x, h, note.told, lines)
    if note.what in ("made", "mkfs"):
        return made_or_halted(x, h, note.what, note.told, lines)
    if note.what == "stop":
        return changed(x, h, runs=False) if host.runs else None
    if note.what == "umount":
        return changed(x, h, keeps=False) if host.keeps and not host.runs else None
    return changed(x, h, runs=False, keeps=False)


# Lines.

OWN = ("mark", "found", "writes", "answer")


def steps(x, note, lines):
    """The states to which a note leads from a state, as it is but for its own command."""
    h = number_of(x, note.name)
    if note.what not in OWN:
        yield world_note(x, note, lines)
    elif h is not None and x.hosts[h].runs:
        is_fault = note.what == "answer" and note.told[0] == "media fault"
        for now in [x] if is_fault else reached(x, h):
            yield own_note(now, h, note.what, note.told)


def tells_of(x, k, note):
    """The note may tell whether host k has named its entry by now."""
    if number_of(x, note.name) == k and note.what in ("start", "mark", "found", "answer", "stop", "halt"):
        return True
    count = note.told if note.what == "found" else counts(note.told) if note.what == "answer" else None
    if note.what == "answer" and note.told[0] == "ok":
        count = note.told[1] + 1
    return count is not None and any(count == seq + 1 for seq in (now.hosts[k].stage[1] for now in wrote(x, k)))


def normal(x):
    """The state without what nothing asks for any more, and the floors of what may still be asked."""
    hosts, floors = [], []
    for it in x.hosts:
        stage = it.stage if it.runs else None
        asks = stage is not None and stage[0] in ("begun", "marked")
        floors.append(it.floor if asks else None)
        hosts.append(it._replace(stage=stage, floor=None, wrote=it.wrote if stage and stage[0] == "named" else None))
    return x._replace(hosts=tuple(hosts)), tuple(floors)


def is_under(low, high):
    """The first floors allow no less than the second ones."""
    return all(a == b or a is not None and b is not None and a <= b for a, b in zip(low, high))


def merged(states):
    """The states without those that allow no more than another one."""
    kept = {}
    for x in states:
        key, floors = normal(x)
        others = kept.setdefault(key, [])
        if not any(is_under(it[0], floors) for it in others):
            others[:] = [it for it in others if not is_under(floors, it[0])] + [(floors, x)]
    return [it[1] for others in kept.values() for it in others]


def behind(states, note, lines):
    """The states to which a note leads."""
    out = []
    for x in states:
        out += steps(x, note, lines)
        for k in range(len(x.hosts)):
            if tells_of(x, k, note):
                for now in wrote(x, k):
                    out += steps(now, note, lines)
    return merged(it for it in out if it is not None)


def read(text):
    """The notes of a text before its first bad line, and that line's fault, if there is one."""
    found = []
    try:
        for note in recorded.notes(text):
            found.append(note)
    except recorded.Bad as bad:
        return found, bad
    return found, None


def judged_notes(notes):
    """The first line that isn't legal, if there is one, and the states behind the lines before it."""
    devices = [it.told[3] for it in notes if it.what == "made"]
    lines = min(devices[0] // LINE, MOST_LINES) if devices else MOST_LINES
    states = [Possible(State(NO_SUPER, None, (), None), ())]
    for note in notes:
        after = behind(states, note, lines)
        if not after:
            return note.line, states
        states = after
    return None, states


def judged(text):
    """What is said of a history first, without why a line isn't legal; and the states behind the last line that is."""
    notes, bad = read(text)
    line, states = judged_notes(notes)
    if line is not None:
        return f"illegal {line}", states
    if bad:
        return f"bad line {bad.line} {bad.column}", states
    return f"legal {recorded.line_count(text)} {figures(states)}", states


def figures(states):
    """What is settled and pending in the states, and how many there are."""
    told = [{settled(x.state) for x in states}, {int(x.state.pending is not None) for x in states}]
    first, second = (str(*it) if len(it) == 1 else "?" for it in told)
    return f"settled {first} pending {second} states {len(states)}"
