"""What the helpers beside famfs share: calls of the program, what it prints, and the bytes at the extents that it names.

A helper looks at an image only behind the program: what the program refuses is refused, with its text and its status.
"""
import argparse
import os
import re
import signal
import stat
import struct
import subprocess
import sys
import uuid
import zlib
from typing import Dict, Iterator, List, NamedTuple, Tuple, Union

REFUSED, USAGE, FAILED, SOURCE, OUTPUT, MEMORY, DAMAGED, BROKEN = 1, 2, 4, 5, 6, 7, 8, 70
LOG_OFFSET = 2 ** 21
# the most bytes that are read by one call
PIECE = 2 ** 23
Text = Union[str, bytes]


class Entry(NamedTuple):
    """An entry as its line of a listing has it. The path is its very bytes; an extent is its offset and its length."""

    is_directory: bool
    mode: int
    uid: int
    gid: int
    size: int
    chunk: int
    extents: List[Tuple[int, int]]
    path: bytes
    printed_path: bytes


class Superblock(NamedTuple):
    """What a superblock says; log, unit and device are bytes."""

    format: int
    log: int
    unit: int
    device: int
    file_system: uuid.UUID
    master: uuid.UUID


class Report(NamedTuple):
    """What fsck counts on a sound image; used and free are units."""

    entries: int
    slots: int
    files: int
    directories: int
    used: int
    free: int
    past_gate: int


class Ended(Exception):
    """The helper ends with this status, and puts this text on standard error."""

    def __init__(self, status: int, text: bytes):
        super().__init__(status, text)
        self.status = status
        self.text = text


# ---- names

def escape(raw: bytes) -> bytes:
    """Bytes as listings and scripts have them, in one word."""
    return re.sub(rb"[^\x21-\x5b\x5d-\x7e]", lambda it: b"\\x%02x" % it[0][0], raw)


def unescape(printed: bytes) -> bytes:
    """The bytes that a word of a listing stands for."""
    return re.sub(rb"\\x([0-9a-f]{2})", lambda it: bytes.fromhex(it[1].decode()), printed)


def readable(raw: bytes) -> str:
    """Bytes for a person: what can be shown of UTF-8 stands for itself, a backslash and all else as \\xNN."""
    return "".join("\\x5c" if it == "\\" else shown(it) for it in raw.decode("utf-8", "surrogateescape"))


def shown(letter: str) -> str:
    """A character that can be shown, or else its bytes as \\xNN."""
    return letter if letter.isprintable() else "".join(f"\\x{byte:02x}" for byte in to_bytes(letter))


def is_utf8(text: Text) -> bool:
    """Whether bytes are UTF-8, as the program takes its words."""
    try:
        to_bytes(text).decode()
        return True
    except UnicodeDecodeError:
        return False


def to_bytes(text: Text) -> bytes:
    """A text's bytes; those that were no UTF-8 are what they were."""
    return text if isinstance(text, bytes) else text.encode("utf-8", "surrogateescape")


# ---- output and ends

def write_all(target: int, block) -> None:
    """Writes the whole block to an open file."""
    rest = memoryview(block)
    while rest:
        rest = rest[os.write(target, rest):]


def put(block: bytes) -> None:
    """Writes the block to standard output. Where that fails the helper ends with 6, as the program does."""
    try:
        write_all(1, block)
    except OSError as fault:
        fail(OUTPUT, f"standard output: {fault.strerror}")


def say(text: Text) -> None:
    """Puts a line on standard error, where that can be done."""
    try:
        write_all(2, to_bytes(text) + b"\n")
    except OSError:
        pass


def name() -> str:
    """The helper's name."""
    return os.path.basename(sys.argv[0])


def told(text: Text) -> bytes:
    """The helper's name and a text, as one line that a terminal only shows."""
    line = f"{name()}: {to_bytes(text).decode('utf-8', 'surrogateescape')}"
    return to_bytes("".join(map(shown, line)))


def note(text: Text) -> None:
    """Puts the helper's name and a line on standard error."""
    say(told(text))


def fail(status: int, text: Text) -> None:
    """Ends the helper with this status, its name and this line."""
    raise Ended(status, told(text))


def fail_of(status: int, what: Text, fault: OSError) -> None:
    """Ends the helper with this status, and says what failed and why."""
    fail(status, to_bytes(what) + b": " + to_bytes(fault.strerror or "failed"))


def hold_streams() -> None:
    """Opens each closed standard stream as one that can't be written, so that no other file gets its number."""
    for number in (0, 1, 2):
        try:
            os.fstat(number)
        except OSError:
            os.open(os.devnull, os.O_RDONLY)


def end_on_signals() -> None:
    """Has signals that ask for an end unwind the helper, so that nothing is left half made. One that is ignored stays so."""
    for number in (signal.SIGTERM, signal.SIGHUP):
        if signal.getsignal(number) != signal.SIG_IGN:
            signal.signal(number, lambda caught, _: sys.exit(128 + caught))


def run(work) -> None:
    """Does a helper's work, and ends the process with the status that it answers or that a fault has."""
    hold_streams()
    end_on_signals()
    try:
        sys.exit(work())
    except Ended as end:
        if end.text:
            say(end.text)
        sys.exit(end.status)
    except KeyboardInterrupt:
        sys.exit(128 + signal.SIGINT)
    except MemoryError:
        note("out of memory")
        sys.exit(MEMORY)
    except OSError as fault:
        note(f"{fault.filename}: {fault.strerror}")
        sys.exit(REFUSED)


class ReaderOfWords(argparse.ArgumentParser):
    """A reader of words whose help is output like any other: where that fails the helper ends with 6."""

    def print_help(self, file=None):
        put(self.format_help().encode())


def reader_of_words(about: str, statuses: str) -> ReaderOfWords:
    """A reader of a helper's words, whose help says what the helper is about and what its statuses mean."""
    return ReaderOfWords(
        description=about, epilog=statuses, allow_abbrev=False, formatter_class=argparse.RawDescriptionHelpFormatter)


# ---- calls of the program

def program() -> str:
    """The launcher: the one that FAMFS_PROGRAM names, or famfs beside the helper."""
    beside = os.path.join(os.path.dirname(os.path.realpath(sys.argv[0])), "famfs")
    return os.environ.get("FAMFS_PROGRAM") or beside


def start(words: List[str], environment: Dict[str, str], **options) -> subprocess.Popen:
    """Starts the program with these words, with these variables beside the helper's, and with its output caught."""
    variables = {**os.environ, "FAMFS_PROGRESS": "0", **environment}
    try:
        return subprocess.Popen([program(), *words], stdout=subprocess.PIPE, env=variables, **options)
    except OSError as fault:
        fail_of(BROKEN, program(), fault)


def status_of(process: subprocess.Popen) -> int:
    """The status of a process that has ended or will, as a shell has it."""
    code = process.wait()
    return code if code >= 0 else 128 - code


def ask(*words: str) -> bytes:
    """What the program prints to these words. Where its status isn't 0 the helper ends with its text and status."""
    for word in words:
        if not is_utf8(word):
            fail(USAGE, f"the program takes no name that is no UTF-8: {word}")
    process = start(list(words), {}, stdin=subprocess.DEVNULL)
    printed = process.communicate()[0]
    status = status_of(process)
    if status != 0:
        raise Ended(status, printed.rstrip(b"\n"))
    return printed


def not_read(line: bytes) -> None:
    """Ends the helper, since the program has printed a line that the helper doesn't know."""
    fail(BROKEN, b"the program prints a line that isn't known here: " + line)


# ---- what the program says of an image

def numbers(line: bytes, pattern: bytes) -> List[int]:
    """The numbers of a line that has this pattern."""
    found = re.fullmatch(pattern, line)
    if not found:
        not_read(line)
    return [int(it) for it in found.groups()]


def report(image: str) -> Report:
    """What fsck counts; on a damaged image the helper ends with fsck's report."""
    lines = ask("fsck", "--", image).split(b"\n") + [b""] * 8
    entries, slots = numbers(lines[2], rb"log sound (\d+) of (\d+)")
    files, directories = numbers(lines[3], rb"files (\d+) directories (\d+)")
    used, free = numbers(lines[4], rb"units used (\d+) free (\d+)")
    past_gate, = numbers(lines[7], rb"past gate (\d+)")
    return Report(entries, slots, files, directories, used, free, past_gate)


def entry(line: bytes) -> Entry:
    """The entry of a line of a listing."""
    parts = line.split(b" ")
    if len(parts) != 7:
        not_read(line)
    kind, mode, uid, gid, size, where, path = parts
    is_directory = kind == b"d"
    chunk, _, rest = where.rpartition(b":")
    pairs = [it.split(b"+") for it in rest.split(b",")] if rest != b"-" else []
    return Entry(
        is_directory, int(mode, 8), int(uid), int(gid), 0 if is_directory else int(size), int(chunk or 0),
        [(int(offset), int(length)) for offset, length in pairs], unescape(path), path)


def listing(image: str) -> List[Entry]:
    """The entries of the image in byte order of their paths; a damaged image ends the helper with the program's text."""
    lines = ask("logplay", "--", image).split(b"\n")
    count, = numbers(lines[0], rb"played (\d+)")
    if len(lines) != count + 2:
        not_read(lines[-1])
    return [entry(it) for it in lines[1:-1]]


# ---- bytes of an image

def is_image(image: str) -> bool:
    """Whether a word names a file or a block device."""
    return os.path.isfile(image) or os.path.exists(image) and stat.S_ISBLK(os.stat(image).st_mode)


def open_image(image: str) -> int:
    """Opens an image that the program has read. It is a file or a block device, and opening it never waits."""
    try:
        number = os.open(image, os.O_RDONLY | os.O_NONBLOCK | os.O_NOCTTY)
        kind = os.fstat(number).st_mode
    except OSError as fault:
        fail_of(DAMAGED, image, fault)
    if not (stat.S_ISREG(kind) or stat.S_ISBLK(kind)):
        fail(DAMAGED, f"{image}: neither a file nor a block device")
    return number


def read_at(image: int, offset: int, count: int) -> bytes:
    """Bytes of an image; where it has fewer, or can't be read, the helper ends with 4."""
    parts = []
    try:
        while count > 0:
            part = os.pread(image, min(count, PIECE), offset)
            if not part:
                fail(FAILED, f"the image ends at byte {offset}")
            parts.append(part)
            offset += len(part)
            count -= len(part)
    except OSError as fault:
        fail_of(FAILED, f"the image at byte {offset}", fault)
    return parts[0] if len(parts) == 1 else b"".join(parts)


def superblock(image: int) -> Superblock:
    """What the superblock says, which the program has found sound just before."""
    block = read_at(image, 64, 128)
    version, offset, log, unit, device, file_system, master = struct.unpack_from("<5Q16s16s", block)
    checksum, = struct.unpack_from("<Q", block, 120)
    if checksum != zlib.crc32(block[:120]) or offset != LOG_OFFSET or version not in (1, 2) or unit == 0:
        fail(DAMAGED, "the superblock was written meanwhile")
    return Superblock(version, log, unit, device, uuid.UUID(bytes=file_system), uuid.UUID(bytes=master))


def spans(file: Entry) -> Iterator[Tuple[int, int]]:
    """Where a file's bytes stand, in their order: the offset on the image and the count of each run."""
    strips = len(file.extents)
    runs = file.extents
    if file.chunk:
        runs = ((file.extents[i % strips][0] + i // strips * file.chunk, file.chunk)
                for i in range(-(-file.size // file.chunk)))
    left = file.size
    for offset, length in runs:
        yield offset, min(length, left)
        left -= min(length, left)


def by_spans(image: int, file: Entry) -> Iterator[bytes]:
    """A file's bytes, run by run."""
    for offset, count in spans(file):
        for at in range(0, count, PIECE):
            yield read_at(image, offset + at, min(PIECE, count - at))


def by_rows(image: int, file: Entry) -> Iterator[memoryview]:
    """The bytes of a striped file with small chunks: many chunks of a strip are read by one call, and put in order."""
    row = len(file.extents) * file.chunk
    most = PIECE // row
    all_rows = -(-file.size // row)
    for first in range(0, all_rows, most):
        count = min(most, all_rows - first)
        block = bytearray(count * row)
        for strip, (offset, _) in enumerate(file.extents):
            deal(block, strip * file.chunk, row, read_at(image, offset + first * file.chunk, count * file.chunk))
        yield memoryview(block)[:file.size - first * row]


def deal(block: bytearray, place: int, row: int, part: bytes) -> None:
    """Puts the chunks of one strip at this place of each row of the block."""
    chunk = len(part) * row // len(block)
    for i in range(len(block) // row):
        block[i * row + place:i * row + place + chunk] = part[i * chunk:(i + 1) * chunk]


def contents(image: int, file: Entry) -> Iterator[bytes]:
    """A file's bytes in order, in pieces of up to PIECE bytes, by few reads."""
    is_small = 0 < file.chunk * len(file.extents) <= PIECE
    return by_rows(image, file) if is_small else by_spans(image, file)
