"""The notes of a recorded history, read from its text plainly, word by word from left to right.

A note is a tuple: the number of its first line, the host's name, what it is, and what it tells. Words, paths and texts are bytes.
What doesn't fit is a `Bad`, with the line and the column of docs/MANUAL.md, "A recorded history"."""
from collections import namedtuple

WORD = 1 << 64
Note = namedtuple("Note", "line name what told")
Entry = namedtuple("Entry", "kind mode uid gid size map path")
Command = namedtuple("Command", "word path size attr stripe fill offset count")
NOTHING = Command(None, None, 0, None, None, None, 0, 0)


class Bad(Exception):
    """A line that is none of a history: its number, and the column of the first word that doesn't fit."""

    def __init__(self, line, column):
        super().__init__(line, column)
        self.line, self.column = line, column


class Words:
    """The words of a line, of which each is taken once."""

    def __init__(self, number, line):
        line = line[:-1] if line.endswith(b"\r") else line
        self.number, self.end, self.words, begun = number, len(line) + 1, [], None
        for at, byte in enumerate(line + b" "):
            if byte in b" \t":
                if begun is not None:
                    self.words.append((begun + 1, line[begun:at]))
                begun = None
            elif begun is None:
                begun = at

    def misfit(self):
        """The next word doesn't fit, or is missing."""
        raise Bad(self.number, self.words[0][0] if self.words else self.end)

    def take(self, reads):
        """The next word, as it is read; None is one that doesn't fit."""
        value = reads(self.words[0][1]) if self.words else None
        if value is None:
            self.misfit()
        del self.words[0]
        return value

    def is_next(self, *texts):
        """Whether the next words are these; then they are taken."""
        if [it[1] for it in self.words[:len(texts)]] != list(texts):
            return False
        del self.words[:len(texts)]
        return True

    def fixed(self, text):
        """Each of these words must come."""
        for word in text.split():
            self.take(lambda it: it if it == word else None)

    def number_of(self, text=b""):
        """A number behind these words."""
        self.fixed(text)
        return self.take(number)

    def done(self, value=None):
        """No word is left."""
        if self.words:
            self.misfit()
        return value


def number(word, limit=WORD):
    """1 to 20 decimal digits, below a limit."""
    is_one = 1 <= len(word) <= 20 and word.isdigit()
    return int(word) if is_one and int(word) < limit else None


def size(word):
    """A number, and at most one letter behind it."""
    shift = {b"k": 10, b"m": 20, b"g": 30}.get(word[-1:].lower(), 0)
    value = number(word[:-1] if shift else word)
    return None if value is None or value << shift >= WORD else value << shift


def mode(word):
    """1 to 4 octal digits."""
    return int(word, 8) if 1 <= len(word) <= 4 and all(it in b"01234567" for it in word) else None


def is_hex(text):
    """Digits of sixteen, in either case."""
    return all(it in b"0123456789abcdefABCDEF" for it in text)


def uuid(word):
    """A UUID, as 32 digits in lower case."""
    if len(word) == 45 and word[:9].lower() == b"urn:uuid:":
        word = word[9:]
    elif len(word) == 38 and word[:1] == b"{" and word[-1:] == b"}":
        word = word[1:-1]
    elif len(word) not in (32, 36):
        return None
    if len(word) == 36:
        if any(word[at:at + 1] != b"-" for at in (8, 13, 18, 23)):
            return None
        word = b"".join(word[a:b] for a, b in ((0, 8), (9, 13), (14, 18), (19, 23), (24, 36)))
    return word.lower() if len(word) == 32 and is_hex(word) else None


def name(word):
    """The name of a host."""
    is_one = 1 <= len(word) <= 16 and all(it == 95 or bytes([it]).isalnum() and it < 128 for it in word)
    return word if is_one else None


def unescaped(word):
    """The bytes that a word stands for."""
    out, at = bytearray(), 0
    while at < len(word):
        if 0x21 <= word[at] <= 0x7e and word[at] != 0x5c:
            out.append(word[at])
            at += 1
        elif word[at:at + 2] == b"\\x" and len(word) >= at + 4 and is_hex(word[at + 2:at + 4]):
            out.append(int(word[at + 2:at + 4], 16))
            at += 4
        else:
            return None
    return bytes(out)


def path(word):
    """A path."""
    found = unescaped(word)
    if not found or len(found) > 512 or 0 in found:
        return None
    return None if any(it in (b"", b".", b"..") for it in found.split(b"/")) else found


def file_name(word):
    """The name of a source."""
    found = unescaped(word)
    try:
        return found if found and found.decode() else None
    except UnicodeDecodeError:
        return None


def some_bytes(word):
    """Bytes, each by two digits."""
    if word == b"-":
        return b""
    return bytes.fromhex(word.decode()) if len(word) % 2 == 0 and is_hex(word) else None


def one_byte(word):
    """One byte."""
    return int(word, 16) if len(word) == 2 and is_hex(word) else None


def chosen(*texts):
    """One of these words."""
    return lambda word: word if word in texts else None


# Entries.

def extents(text):
    """1 to 16 extents."""
    found = []
    for part in text.split(b","):
        ends = part.split(b"+", 1)
        pair = tuple(number(it) for it in ends)
        if len(pair) != 2 or None in pair:
            return None
        found.append(pair)
    return tuple(found) if len(found) <= 16 else None


def mapped(word):
    """A map: none, extents, or a chunk with strips. `=` stands in place of a chunk."""
    if word == b"-":
        return ("-", ())
    chunk, colon, rest = word.partition(b":")
    found = extents(rest if colon else word)
    first = number(chunk) if colon else "="
    return None if found is None or first is None else (first, found)


def entry(words):
    """An entry, as a listing has it."""
    kind = words.take(chosen(b"d", b"f")).decode()
    attr = words.take(mode), words.take(lambda it: number(it, 1 << 32)), words.take(lambda it: number(it, 1 << 32))
    return words.done(Entry(kind, *attr, words.take(number), words.take(mapped), words.take(path)))


# Commands.

def stripe(word):
    """Strips, buckets and a chunk."""
    parts = word.split(b",", 2)
    if len(parts) != 3:
        return None
    found = number(parts[0]), number(parts[1]), size(parts[2])
    return None if None in found else found


OPTIONS = {
    b"mode": mode, b"uid": lambda it: number(it, 1 << 32), b"gid": lambda it: number(it, 1 << 32),
    b"seed": number, b"stripe": stripe}


def options(words, takes):
    """Options, each at most once."""
    given = {}
    while words.words:
        key, equals, value = words.words[0][1].partition(b"=")
        found = OPTIONS[key](value) if equals and key in takes and key not in given else None
        if found is None:
            words.misfit()
        given[key] = found
        del words.words[0]
    return given


def appended(words, word):
    """A mkdir, a creat or a cp."""
    where = words.take(path)
    length = 0 if word == b"mkdir" else words.take(size)
    more = {b"mkdir": (), b"creat": (b"seed", b"stripe"), b"cp": (b"stripe",)}[word]
    given = options(words, (b"mode", b"uid", b"gid") + more)
    attr = given.get(b"mode", 0o755 if word == b"mkdir" else 0o644), given.get(b"uid", 0), given.get(b"gid", 0)
    fill = ("untold",) if word == b"cp" else ("seed", given[b"seed"]) if b"seed" in given else ("zero",)
    return NOTHING._replace(word=word, path=where, size=length, attr=attr, stripe=given.get(b"stripe"), fill=fill)


def against(word):
    """What a verify compares with."""
    key, _, value = word.partition(b"=")
    found = number(value) if key in (b"seed", b"bytes") and b"=" in word else None
    return None if found is None else (("seed", found), None) if key == b"seed" else (("untold",), found)


def command(words):
    """A command, as its start tells it; the count of a verify is that of a source, or None."""
    word = words.take(chosen(b"logplay", b"mount", b"fsck", b"mkdir", b"creat", b"cp", b"verify", b"read", b"check"))
    if word in (b"mkdir", b"creat", b"cp"):
        return appended(words, word)
    found = NOTHING._replace(word=word)
    if word == b"check":
        found = found._replace(count=words.take(number))
    elif word == b"read":
        found = found._replace(path=words.take(path), offset=words.take(number), count=words.take(lambda it: number(it, 4097)))
    elif word == b"verify":
        found = found._replace(path=words.take(path), fill=("zero",), count=None)
        if words.words:
            fill, count = words.take(against)
            found = found._replace(fill=fill, count=count)
    return words.done(found)


# Refusals, faults and answers.

SUPER_FIELDS = chosen(b"crc", b"version", b"offset", b"unit", b"length", b"device", b"small", b"rest")
LOG_FIELDS = chosen(b"magic", b"crc", b"length", b"slots", b"uuid", b"rest", b"gate")
REASONS = {
    b"crc": 2, b"sequence": 2, b"kind": 1, b"attribute": 1, b"path": 0, b"map": 0, b"rest": 1, b"overlap": 1}


def numbers(words, count):
    """So many numbers, and no word behind them."""
    return words.done(tuple(words.take(number) for _ in range(count)))


def reason(words):
    """Why a slot holds no entry that joins."""
    word = words.take(chosen(*REASONS, b"exists", b"no", b"parent"))
    if word == b"exists":
        return words.done((word, words.take(chosen(b"file", b"directory"))))
    if word in REASONS:
        return (word, *numbers(words, REASONS[word]))
    words.fixed(b"parent" if word == b"no" else b"is a file")
    return words.done((word,))


def no_refusal(words):
    """Behind `refused no`."""
    if words.is_next(b"file"):
        return words.done(("no file", words.take(file_name)))
    if words.is_next(b"line"):
        return ("no line", *numbers(words, 2))
    words.fixed(b"host")
    return words.done(("no host",))


def too_refusal(words):
    """Behind `refused too`."""
    if words.is_next(b"many"):
        words.fixed(b"hosts")
        return words.done(("too many hosts",))
    words.fixed(b"small")
    return ("too small", *numbers(words, 2))


def bad_refusal(words):
    """Behind `refused bad`."""
    if words.is_next(b"geometry"):
        return ("bad geometry", *numbers(words, 2))
    words.fixed(b"listing")
    return ("bad listing", *numbers(words, 1))


def refusal(words):
    """A cause, with what stands behind it."""
    word = words.take(chosen(
        b"no", b"same", b"too", b"bad", b"image", b"busy", b"dirty", b"has", b"idle", b"mounted", b"not", b"copy", b"media"))
    split = {b"no": no_refusal, b"too": too_refusal, b"bad": bad_refusal}
    if word in split:
        return split[word](words)
    rest = {b"same": b"host", b"image": b"too small", b"has": b"superblock", b"not": b"mounted", b"copy": b"limit", b"media": b"fault"}
    words.fixed(rest.get(word, b""))
    cause = b" ".join(filter(None, (word, rest.get(word, b"")))).decode()
    if word in (b"same", b"busy", b"dirty"):
        return words.done((cause, words.take(name)))
    if word == b"has":
        return words.done((cause, words.take(uuid)))
    return (cause, *numbers(words, 1 if word in (b"image", b"copy", b"media") else 0))


def bad_answer(words):
    """Behind `bad`."""
    if words.is_next(b"stripe"):
        return words.done(("bad stripe",))
    if words.is_next(b"superblock"):
        return ("damage", "superblock", words.take(SUPER_FIELDS), *numbers(words, 2))
    if words.is_next(b"log"):
        return ("damage", "log", words.take(LOG_FIELDS), *numbers(words, 2))
    return ("damage", "entry", words.number_of(b"entry"), *reason(words))


def no_answer(words):
    """Behind `no`."""
    if words.is_next(b"parent"):
        return words.done(("no parent",))
    if words.is_next(b"superblock"):
        return ("damage", "none", *numbers(words, 1))
    words.fixed(b"space")
    return ("no space", *numbers(words, 1))


def checked(words):
    """Behind `checked`: entries; missing, extra and changed; and the first path, or None for `-` where all are 0."""
    m = words.take(number)
    counts = tuple(words.number_of(it) for it in (b"missing", b"extra", b"changed"))
    words.fixed(b"first")
    if not any(counts) and words.is_next(b"-"):
        return words.done(("checked", m, counts, None))
    return words.done(("checked", m, counts, words.take(path)))


def plain_answer(words, word):
    """Behind the other words: what stands there, and numbers."""
    rest = {
        b"path": b"too long", b"parent": b"is a file", b"log": b"full", b"length": b"differs", b"is": b"a directory", b"media": b"fault"}
    count = {b"parent": 0, b"length": 3}.get(word, 1)
    words.fixed(rest.get(word, b""))
    return (b" ".join(filter(None, (word, rest.get(word, b"")))).decode(), *numbers(words, count))


def answer(words):
    """The first line of an answer."""
    word = words.take(chosen(
        b"ok", b"not", b"path", b"bad", b"exists", b"no", b"parent", b"log", b"played", b"mounted", b"same", b"differs", b"length",
        b"bytes", b"is", b"checked", b"fsck", b"media"))
    split = {b"bad": bad_answer, b"no": no_answer, b"checked": checked}
    if word in split:
        return split[word](words)
    if word == b"exists":
        return words.done(("exists", words.take(chosen(b"file", b"directory"))))
    if word == b"fsck":
        return words.done(("fsck", words.take(chosen(b"sound", b"damaged")) == b"sound"))
    if word == b"bytes":
        return words.done(("bytes", words.take(number), words.take(some_bytes)))
    if word == b"differs":
        return words.done(("differs", words.take(number), words.take(number), words.take(one_byte), words.take(one_byte)))
    if word == b"not":
        if words.is_next(b"found"):
            return ("not found", *numbers(words, 1))
        words.fixed(b"master")
        return words.done(("not master", words.take(uuid), words.take(uuid)))
    return plain_answer(words, word)


# Reports.

def superblock_line(words):
    """`superblock sound`, or its fault."""
    if words.is_next(b"superblock"):
        words.fixed(b"sound")
        return words.done(("sound",))
    if words.is_next(b"no"):
        words.fixed(b"superblock")
        return ("none", *numbers(words, 1))
    words.fixed(b"bad superblock")
    return ("superblock", words.take(SUPER_FIELDS), *numbers(words, 2))


def log_line(words):
    """The log: sound, with entries and slots; unread; or its fault."""
    if words.is_next(b"bad"):
        words.fixed(b"log")
        return ("log", words.take(LOG_FIELDS), *numbers(words, 2))
    words.fixed(b"log")
    if words.is_next(b"unread"):
        return words.done(("unread",))
    words.fixed(b"sound")
    return words.done(("sound", words.take(number), words.number_of(b"of")))


def two_counts(first, second):
    """A line of two numbers behind words."""
    return lambda words: words.done((words.number_of(first), words.number_of(second)))


def overlap_line(words):
    """Two entries that share a unit, or none."""
    words.fixed(b"overlap")
    return words.done(None) if words.is_next(b"none") else numbers(words, 2)


def bad_line(words):
    """The first bad entry, or none."""
    words.fixed(b"bad entry")
    return words.done(None) if words.is_next(b"none") else (words.take(number), *reason(words))


def past_line(words):
    """How many slots past the gate hold an entry."""
    words.fixed(b"past gate")
    return words.done(words.take(number))


REPORT = (
    superblock_line, log_line, two_counts(b"files", b"directories"), two_counts(b"units used", b"free"), overlap_line, bad_line, past_line)


# Notes.

def made(words):
    """The parameters of a file system that was made."""
    found = [words.take(uuid)] + [words.number_of(it) for it in (b"unit", b"log", b"device")]
    number_of = words.take(lambda it: {1: 1, 2: 2}.get(number(it))) if words.is_next(b"format") else 1
    return words.done((*found, number_of))


def first_line(words):
    """What the first line of a note tells."""
    word = words.words[0][1] if words.words else b""
    if word in (b"mark", b"stop", b"halt", b"umount"):
        del words.words[0]
        return words.done((word.decode(), ()))
    reads = {
        b"host": lambda: words.done(words.take(uuid)), b"made": lambda: made(words), b"mkfs": lambda: numbers_behind(words, b"halted"),
        b"start": lambda: command(words), b"found": lambda: numbers(words, 1)[0],
        b"writes": lambda: (words.take(number), entry(words)), b"refused": lambda: refusal(words)}
    if word not in reads:
        return "answer", answer(words)
    del words.words[0]
    return word.decode(), reads[word]()


def numbers_behind(words, text):
    """A number behind a word, and nothing behind it."""
    words.fixed(text)
    return numbers(words, 1)[0]


class Lines:
    """The lines of a text that tell something."""

    def __init__(self, text):
        lines = text.split(b"\n")
        self.lines = lines[:-1] if lines[-1] == b"" else lines
        self.at = 0

    def next(self):
        """The words of the next one; None where there is none."""
        while self.at < len(self.lines):
            words = Words(self.at + 1, self.lines[self.at])
            self.at += 1
            if words.words and not words.words[0][1].startswith(b"#"):
                return words
        return None

    def expected(self):
        """The words of one that has to come."""
        words = self.next()
        if words is None:
            raise Bad(len(self.lines) + 1, 1)
        return words


def notes(text):
    """The notes, one by one; a listing's entries and a report's lines stand behind what the answer tells."""
    lines = Lines(text)
    while True:
        words = lines.next()
        if words is None:
            return
        host = words.take(name)
        what, told = first_line(words)
        if what == "answer" and told[0] == "played":
            told += (tuple(entry(lines.expected()) for _ in range(told[1])),)
        elif what == "answer" and told[0] == "fsck":
            told += (tuple(reads(lines.expected()) for reads in REPORT),)
        yield Note(words.number, host, what, told)


def line_count(text):
    """All lines of a text."""
    return len(Lines(text).lines)
