"""The picture of what lies where on an image: docs/FORMAT.md, "Regions", "Superblock", "The log" and "Slots"."""
from drawing.svg import Picture

# regions: words, first line, first byte, width, kind, who writes it
REGIONS = [
    ("magic", "0", "0", 62, "box"), ("superblock", "1, 2", "64", 92, "box"), ("unused", "3 ..", "192", 70, "paper"),
    ("log header", "32,768", "2,097,152", 92, "box"), ("gate", "32,769", "2,097,216", 70, "counted"), ("unused", "32,770 ..", "", 70, "paper"),
    ("slot 0", "32,776", "2,097,664", 80, "whole"), ("slot 1 ..", "32,784 ..", "2,098,176", 110, "whole"),
    ("files' units", "behind the log", "2,097,152 + log", 180, "whole"), ("rest", "", "", 50, "paper"),
]
# parts of a line or slot: words, bytes, width
SUPERBLOCK = [
    ("version", 8, 60), ("log offset", 8, 70), ("log length", 8, 70), ("unit", 8, 50), ("device", 8, 60), ("UUID of the file system", 16, 150),
    ("UUID of the master", 16, 150), ("zero", 48, 60), ("CRC", 8, 50),
]
HEADER = [("magic", 8, 60), ("log length", 8, 80), ("slots", 8, 60), ("UUID of the file system", 16, 150), ("zero", 16, 60), ("CRC", 8, 50)]
GATE = [("gate", 8, 60), ("zero, and never looked at", 56, 200)]
SLOT = [
    ("number", 8, 56), ("kind", 8, 44), ("size", 8, 44), ("mode", 8, 46), ("uid", 8, 40), ("gid", 8, 40), ("path length", 8, 76), ("map", 8, 44),
    ("chunk", 8, 50), ("extents", 8, 58), ("16 extents: offset, length", 256, 166), ("path", 168, 90), ("CRC", 8, 44),
]
LEFT = 20


def strip(picture, y):
    """The regions, with the number of the first line above and of the first byte below."""
    x, at = LEFT, {}
    for words, line, byte, width, kind in REGIONS:
        picture.box(x, y, width, 40, kind if kind != "paper" else "current", 0)
        picture.text(x + width / 2, y + 24, words, "middle" if kind != "paper" else "middle dim")
        picture.text(x + 2, y - 6, line, "tag dim")
        picture.text(x + 2, y + 52, byte, "tag dim")
        at.setdefault(words, (x, width))
        x += width
    return at


def zoom(picture, y, region, title, parts, kind):
    """One region's parts, with the byte at which each begins."""
    x, width = region
    whole = sum(each[2] for each in parts)
    left = max(LEFT, min(x, LEFT + sum(each[3] for each in REGIONS) - whole))
    picture.text(left, y - 10, title, "bold")
    offset = 0
    for words, size, wide in parts:
        picture.box(left, y, wide, 30, kind, 0)
        picture.text(left + wide / 2, y + 19, words, "middle")
        picture.text(left + 2, y + 42, str(offset), "tag dim")
        left, offset = left + wide, offset + size
    picture.text(left + 4, y + 42, f"{offset} bytes", "tag dim")


def draw():
    about = "The regions of an image of format 1 by line and byte, and the parts of superblock, log header, gate and slot."
    picture = Picture("What lies where on an image of format 1", about)
    picture.text(LEFT, 26, picture.title, "title")
    picture.text(LEFT, 48, "A line is 64 bytes, eight words. Above each region the number of its first line, below that of its first byte.", "dim")
    at = strip(picture, 76)
    y = 190
    for region, title, parts, kind in [
        ("superblock", "superblock, lines 1 and 2: mkfs writes it, and line 0's magic last of all", SUPERBLOCK, "box"),
        ("log header", "log header, line 32,768: mkfs writes it", HEADER, "box"),
        ("gate", "gate, line 32,769: alone in its line and in no checksum, since it changes alone, by one whole store", GATE, "counted"),
        ("slot 0", "a slot, 8 lines: what stands at or above the gate is no entry, and the next append writes over it", SLOT, "whole"),
    ]:
        zoom(picture, y, (LEFT, 0), title, parts, kind)
        y += 84
    y -= 12
    for kind, words, x in [("box", "written by mkfs", LEFT), ("whole", "written by an append, before the gate", 170), ("counted", "written by an append last of all: it publishes the slot (mkfs writes 0)", 430)]:
        picture.box(x, y, 21, 16, kind)
        picture.text(x + 28, y + 12, words, "dim")
    picture.text(LEFT, y + 40, "Format 2 has slots of 1,024 bytes, 16 lines, with paths of up to 512 bytes; slot 0 is at line 32,784. All else is the same.", "dim")
    return picture.svg()
