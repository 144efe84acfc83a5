"""Rows of a story as a space-time picture: time runs down, memory and each host is a line, and what a host holds are bars."""
import re

from drawing.svg import Picture

ROW, BAR, TOP = 21, 26, 74
GUTTER = 216
# bars beside a host's line, at most
MOST_BARS = 6
UUID = re.compile(r"([0-9a-f]{4})[0-9a-f]{4}-[0-9a-f]{4}-[0-9a-f]{4}-[0-9a-f]{4}-[0-9a-f]{12}")
LEGEND = [
    ("current", "g0", "a copy that is as memory is (g: the gate's line, s: a slot, r: a record, f: a file, 0: line 0, –: line 0 of zeros)"), ("stale", "s0", "a stale copy"),
    ("unsent", "g1", "stored, and not sent"), ("asked", "s0", "asked for, and not sent"),
    ("part", "s0", "in memory in part"), ("whole", "s0", "whole in memory, and no gate counts it"), ("counted", "s0", "counted by memory's gate"),
]
SIGNS = [
    ("busy", "a command runs"), ("mark", "mark: the gate's line is dropped"), ("answer", "an answer"), ("refusal", "a refusal or a fault"), ("stop", "a stop"),
    ("halt", "a halt, and what it loses"), ("move", "a cache's own move"), ("arrow", "sent"), ("moves", "brought"),
]


def cut(text, most):
    return text if len(text) <= most else text[:most - 1] + "…"


def wide(parts):
    """About how many points the words of a row take."""
    return sum(len(text) for text, _ in parts) * 6.1


class Bar:
    """What a host holds of one thing, over the rows from one to another; `runs` are the states in between."""

    def __init__(self, first):
        self.first, self.end, self.runs, self.lost = first, first, [], False

    def keeps(self):
        """Whether it is worth a bar: it was stale or unsent at some time."""
        return any(state != "current" for _, state, _ in self.runs)

    def trim(self):
        """A copy that ends as memory is has one row of that, and no more."""
        begin, state, _ = self.runs[-1]
        if state == "current" and not self.lost:
            self.end = min(self.end, begin + 1)


def bars_of(rows, host):
    """The bars of a host, in the order in which they begin."""
    opened, done = {}, []
    for number, row in enumerate(rows):
        held = row.caches.get(host, {})
        for thing in [each for each in opened if each not in held]:
            bar = opened.pop(thing)
            bar.lost = row.host == host and thing in row.lost
            done.append(bar)
        for thing, (state, tag) in held.items():
            bar = opened.setdefault(thing, Bar(number))
            if not bar.runs or bar.runs[-1][1:] != (state, tag):
                bar.runs.append((number, state, tag))
            bar.end = number + 1
    for bar in done + list(opened.values()):
        bar.trim()
    return sorted([bar for bar in done + list(opened.values()) if bar.keeps()], key=lambda bar: bar.first)


def lanes_of(bars):
    """A lane for each bar, so that no two overlap; and how many lanes there are."""
    ends, lanes = [], []
    for bar in bars:
        lane = next((at for at, end in enumerate(ends) if end < bar.first), len(ends))
        ends[lane:lane + 1] = [bar.end]
        lanes.append(lane)
    return lanes, min(len(ends), MOST_BARS)


def memory_things(rows):
    """What memory is shown of: the gate, slots and files that change, and line 0 where a mkfs was cut."""
    things = []
    for row in rows:
        things += [thing for thing in row.memory if thing not in things]
    halted = any(row.memory.get("line 0", ("", ""))[1] == "zero" for row in rows)
    order = [thing for thing in things if thing != "line 0" or halted]
    return sorted(order, key=lambda thing: (["line 0", "gate"].index(thing) if thing in ("line 0", "gate") else 9, thing == "file", len(thing), thing))[:MOST_BARS + 2]


class SpaceTime:
    def __init__(self, title, story, about):
        self.rows, self.hosts = story.rows, story.hosts
        self.picture = Picture(title, about)
        self.things = memory_things(self.rows)
        self.bars = {host: bars_of(self.rows, host) for host in self.hosts}
        self.lanes = {host: lanes_of(self.bars[host]) for host in self.hosts}
        self.memory_at = 16 + GUTTER
        self.life = {}
        x = self.memory_at + max(2, len(self.things)) * BAR + 34
        for host in self.hosts:
            self.life[host] = x + self.lanes[host][1] * BAR + 8
            texts = [wide(row.parts) for row in self.rows if row.host == host]
            x = self.life[host] + 18 + max([70] + texts) + 18
        self.right = x - 18

    def y(self, row):
        return TOP + row * ROW

    def draw(self):
        picture = self.picture
        picture.text(16, 26, picture.title, "title")
        picture.text(16, 54, "the script", "head")
        picture.text(self.memory_at, 54, "memory", "head")
        bottom = self.y(len(self.rows)) + 4
        for host in self.hosts:
            picture.text(self.life[host] - 5, 54, f"host {host}", "head")
        picture.line(16, 62, self.right, 62, "rule")
        for host in self.hosts:
            picture.line(self.life[host], TOP - 8, self.life[host], bottom, "life")
        self.draw_busy()
        self.draw_memory()
        for host in self.hosts:
            self.draw_bars(host)
        for number, row in enumerate(self.rows):
            self.draw_row(number, row)
        self.legend(bottom + 20)
        picture.reach(self.right, bottom)
        return picture.svg()

    def draw_busy(self):
        for host in self.hosts:
            for number, row in enumerate(self.rows):
                runs = host in row.busy
                if runs or row.host == host and number and host in self.rows[number - 1].busy:
                    end = self.y(number + 1) if runs and number + 1 < len(self.rows) else self.y(number) + ROW / 2
                    begin = self.y(number) + (0 if number and host in self.rows[number - 1].busy else ROW / 2)
                    self.picture.line(self.life[host], begin, self.life[host], end, "busy")

    def segments(self, states):
        """Runs of one state and tag over the rows; None where there is nothing."""
        runs = []
        for number, state in enumerate(states):
            if not runs or runs[-1][2] != state:
                runs.append([number, number + 1, state])
            runs[-1][1] = number + 1
        return [run for run in runs if run[2]]

    def draw_memory(self):
        for at, thing in enumerate(self.things):
            x = self.memory_at + at * BAR
            for begin, end, (state, tag) in self.segments([row.memory.get(thing) for row in self.rows]):
                self.bar(x, begin, end, state, tag)

    def bar(self, x, begin, end, state, tag):
        top, bottom = self.y(begin) + ROW / 2, self.y(end) + ROW / 2
        self.picture.box(x, top, BAR - 5, bottom - top, state)
        self.picture.text(x + (BAR - 5) / 2, top + 13, {"magic": "0", "zero": "–"}.get(tag, tag), "tag middle")

    def draw_bars(self, host):
        lanes, count = self.lanes[host]
        for bar, lane in zip(self.bars[host], lanes):
            if lane >= MOST_BARS:
                continue
            x = self.life[host] - 12 - (lane + 1) * BAR + 4
            for at, (begin, state, tag) in enumerate(bar.runs):
                end = bar.runs[at + 1][0] if at + 1 < len(bar.runs) else bar.end
                self.bar(x, begin, end, state, tag)
            if bar.lost:
                self.picture.cross(x + (BAR - 5) / 2, self.y(bar.end) + ROW / 2)

    def draw_row(self, number, row):
        y = self.y(number) + ROW / 2
        picture = self.picture
        if number == 0 or self.rows[number - 1].event is not row.event:
            words = UUID.sub(r"\1…", " ".join(row.event.words))
            if row.host is None:
                words += ": " + row.parts[0][0]
            until = f" .. {row.last.number}" if row.last is not row.event else ""
            picture.text(16, y + 4, f"{row.event.number:>3} {cut(words, 28 - len(until))}{until}", "mono dim")
        if row.host is None:
            return
        x = self.life[row.host]
        for at, (way, thing) in enumerate(row.arrows):
            self.arrow(row.host, way, thing, y + (3 if at else 0) - (3 if len(row.arrows) > 1 and not at else 0))
        self.symbol(x, y, row.symbol)
        picture.spans(x + 13, y + 4, row.parts)

    def arrow(self, host, way, thing, y):
        thing = next((each for each in self.things if each == thing or thing.endswith("s") and each.startswith(thing[:-1])), None)
        at = self.things.index(thing) if thing else len(self.things) - 1
        near, far = self.memory_at + (at + 1) * BAR - 3, self.life[host] - 7
        if way == "send":
            self.picture.arrow(far, y, near, y)
        else:
            self.picture.arrow(near, y, far, y, "moves")

    def symbol(self, x, y, kind):
        if kind in ("answer", "refusal", "dot"):
            self.picture.dot(x, y, kind, 5 if kind != "dot" else 3)
        elif kind == "mark":
            self.picture.diamond(x, y, "mark")
        elif kind == "halt":
            self.picture.cross(x, y, 6)
        elif kind == "stop":
            self.picture.box(x - 4, y - 4, 8, 8, "refusal", 0)
        elif kind == "move":
            self.picture.dot(x, y, "current", 4)

    def legend(self, y):
        picture = self.picture
        picture.line(16, y - 12, self.right, y - 12, "rule")
        x = 16
        for kind, tag, words in LEGEND:
            if x + 34 + len(words) * 6 > max(self.right, 700):
                x, y = 16, y + 22
            picture.box(x, y, BAR - 5, 16, kind)
            picture.text(x + (BAR - 5) / 2, y + 12, tag, "tag middle")
            picture.text(x + BAR, y + 12, words, "dim")
            x += BAR + len(words) * 6 + 22
        self.symbols(y + 22)

    def symbols(self, y):
        """What the signs on a host's line mean."""
        picture, x = self.picture, 26
        for kind, words in SIGNS:
            if x + len(words) * 6 + 20 > max(self.right, 700):
                x, y = 26, y + 22
            if kind == "busy":
                picture.line(x, y, x, y + 16, kind)
            elif kind in ("arrow", "moves"):
                picture.arrow(x - 8, y + 8, x + 18, y + 8, kind)
                x += 14
            else:
                self.symbol(x, y + 8, kind)
            picture.text(x + 12, y + 12, words, "dim")
            x += len(words) * 6 + 40
