"""The picture of how an append reaches memory, and what a reader may see meanwhile: docs/MODEL.md, "The protocol"."""
from drawing.svg import Picture

# what the master does; how file, slot and gate then stand in its cache, and in memory; what a gate that is loaded here says; what a halt leaves
ROWS = [
    ("drops the gate's line: its mark", "loads gate n, reads the slots, decides", (None, None, ("current", "n")), (None, None, ("counted", "n")), "n", "n entries"),
    ("stores each line of the file,", "and sends it by a drop", (None, None, ("current", "n")), (("part", "f"), None, ("counted", "n")), "n", "n entries"),
    ("stores each line of slot n,", "and asks for it: it may be sent, or not", (None, ("asked", "s"), ("current", "n")), (("whole", "f"), ("part", "s"), ("counted", "n")), "n", "n entries"),
    ("fence:", "all of slot n stands in memory", (None, ("current", "s"), ("current", "n")), (("whole", "f"), ("whole", "s"), ("counted", "n")), "n", "n, and one past the gate"),
    ("stores gate n + 1,", "and asks for it: it may be sent, or not", (None, ("current", "s"), ("asked", "n+1")), (("whole", "f"), ("whole", "s"), ("part", "n?")), "n or n + 1", "n or n + 1 entries"),
    ("fence:", "the gate stands in memory", (None, ("current", "s"), ("current", "n+1")), (("counted", "f"), ("counted", "s"), ("counted", "n+1")), "n + 1", "n + 1 entries"),
    ("answers ok n:", "the entry is settled", (None, ("current", "s"), ("current", "n+1")), (("counted", "f"), ("counted", "s"), ("counted", "n+1")), "n + 1", "n + 1 entries, for good"),
]
ROW, TOP, BAR = 46, 92, 40
DOES, CACHE, MEMORY, GATE, HALT = 44, 300, 460, 620, 740


def bars(picture, x, column):
    """File, slot and gate down the rows, one bar for each stretch in which they stand alike."""
    for at in range(3):
        begin = 0
        for number in range(1, len(ROWS) + 1):
            here = ROWS[begin][column][at]
            if number < len(ROWS) and ROWS[number][column][at] == here:
                continue
            if here:
                top = TOP + begin * ROW
                picture.box(x + at * (BAR + 6), top, BAR, (number - begin) * ROW, here[0])
                picture.text(x + at * (BAR + 6) + BAR / 2, top + 27, here[1], "middle")
            begin = number


def draw():
    about = "The steps of an append, from the top down: the file's lines, the slot, a fence, the gate, a fence; with what memory holds and what a reader may see behind each."
    picture = Picture("How an append reaches memory, behind n settled entries", about)
    picture.text(20, 26, picture.title, "title")
    for x, words in [(DOES, "the master"), (CACHE, "its cache"), (MEMORY, "memory"), (GATE, "a gate that is"), (HALT, "a halt of the master")]:
        picture.text(x, 56, words, "head")
    for x, words in [(CACHE, "file    slot    gate"), (MEMORY, "file    slot    gate"), (GATE, "loaded here says"), (HALT, "here leaves")]:
        if x in (GATE, HALT):
            picture.text(x, 72, words, "head")
    for x in (CACHE, MEMORY):
        for at, words in enumerate(("file", "slot", "gate")):
            picture.text(x + at * (BAR + 6) + BAR / 2, 80, words, "middle dim")
    for number in range(len(ROWS) + 1):
        picture.line(20, TOP + number * ROW, 900, TOP + number * ROW, "rule")
    bars(picture, CACHE, 2)
    bars(picture, MEMORY, 3)
    picture.arrow(28, TOP, 28, TOP + len(ROWS) * ROW)
    for number, (first, second, _, _, gate, halt) in enumerate(ROWS):
        y = TOP + number * ROW
        picture.text(DOES, y + 19, first, "bold")
        picture.text(DOES, y + 36, second)
        picture.text(GATE, y + 27, gate)
        picture.text(HALT, y + 27, halt, "good" if number == 6 else "")
    for number in (1, 3, 5):
        y = TOP + number * ROW + ROW / 2 + 8
        picture.arrow(CACHE + 3 * (BAR + 6) + 2, y, MEMORY - 4, y)
    y = TOP + len(ROWS) * ROW
    lines = [
        "A reader drops the gate's line, which is its mark; loads the gate; and only then drops and loads the slots that this gate counts.",
        "So what it counts stood whole in memory before it looked, and what was settled at its mark is among it.",
        "Whatever a cache sends early or keeps long, memory's gate never counts a slot that isn't whole.",
    ]
    for number, words in enumerate(lines):
        picture.text(20, y + 24 + 18 * number, words)
    y += 86
    for kind, words, x in [("asked", "asked for, not sent", 20), ("part", "in part, or one of two", 180), ("whole", "whole, not counted", 350), ("counted", "counted", 500), ("current", "as memory is", 590)]:
        picture.box(x, y, 21, 16, kind)
        picture.text(x + 28, y + 12, words, "dim")
    return picture.svg()
