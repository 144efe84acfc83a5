"""The picture of what speaks of what: docs/MODEL.md, the first heading."""
from drawing.svg import Picture

# a layer: its name, what one of it is, what is said of it, and the crate with its definitions
LAYERS = [
    ("words", "famfs mkdir IMAGE PATH", "which command they are, or none", "fam_words, fam_top"),
    ("events", "run m mkdir x", "what a script asks for; a journal follows events", "fam_journal: Events, Follows"),
    ("calls", "begin, steps, finish, evict, mkfs", "each has its row: its first refusal, or what it does", "fam_journal: Calls"),
    ("steps", "one operation of the host's task", "the table says which comes next, and its note", "fam_commands: Table"),
    ("operations", "load, store, write back, fence, drop", "memory and one cache before and after", "fam_machine: Operations"),
    ("transfers", "bring, refresh, send, ask, clean, drop", "what each keeps, all keep: the invariant", "fam_machine: Moves"),
]
TOP, ROW, LEFT = 76, 62, 20


def draw():
    about = "From words to transfers: each layer is made of the one below it; beside them the notes of the journal and what is promised of them."
    picture = Picture("What speaks of what", about)
    picture.text(LEFT, 26, picture.title, "title")
    picture.text(LEFT, 48, "Each thing on the left is done by those below it. What they note goes to the journal, of which the promise speaks.", "dim")
    for number, (name, one, said, crate) in enumerate(LAYERS):
        y = TOP + number * ROW
        picture.box(LEFT, y, 250, 44, "whole" if number else "box")
        picture.text(LEFT + 10, y + 18, name, "head")
        picture.text(LEFT + 10, y + 36, one)
        picture.text(LEFT + 262, y + 18, said)
        picture.text(LEFT + 262, y + 36, crate, "dim")
        if number:
            picture.arrow(LEFT + 40, y - ROW + 44, LEFT + 40, y)
    bottom = TOP + len(LAYERS) * ROW
    picture.box(LEFT, bottom, 250, 44, "box")
    picture.text(LEFT + 10, bottom + 18, "memory and caches", "head")
    picture.text(LEFT + 10, bottom + 36, "an image of lines, and copies of lines")
    picture.arrow(LEFT + 40, bottom - ROW + 44, LEFT + 40, bottom)
    picture.text(LEFT + 262, bottom + 18, "a reading: no superblock, damage, or entries")
    picture.text(LEFT + 262, bottom + 36, "fam_format: Reading; fam_rules: Decide, Ask", "dim")
    right(picture, bottom)
    return picture.svg()


def right(picture, bottom):
    """The journal, what it settles, and the invariant."""
    x, tall = 640, 62
    text, journal, settled, invariant = TOP, TOP + 1.8 * ROW, TOP + 3.6 * ROW, bottom - 18
    boxes = [
        (text, "text and status", "of the journal's notes", "fam_outcomes"),
        (journal, "journal", "start, mark, found, writes, answers ..", "fam_journal: Notes; Legal says what may come next"),
        (settled, "what is settled", "the history, and at most one pending entry", "fam_journal: Past"),
        (invariant, "invariant of publishing", "of memory, all caches and all tasks", "fam_protocol: Invariant"),
    ]
    for y, name, one, crate in boxes:
        picture.box(x, y, 270, tall, "counted")
        picture.text(x + 10, y + 18, name, "head")
        picture.text(x + 10, y + 35, one)
        picture.text(x + 10, y + 52, crate, "dim tag")
    for begin, end, words in [(journal, text + tall, "is printed"), (journal + tall, settled, "settles"), (invariant, settled + tall, "says so of memory")]:
        picture.arrow(x + 40, begin, x + 40, end)
        picture.text(x + 50, (begin + end) / 2 + 4, words, "dim")
    for y, words in [(journal + 30, "notes"), (invariant + 8, "keep it")]:
        picture.arrow(566, y, x - 4, y)
        picture.text(572, y - 6, words, "dim")
