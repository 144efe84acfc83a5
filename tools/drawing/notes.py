"""Scripts as events, and what they put as notes."""
import re

EVENTS = {"host", "mkfs", "begin", "step", "finish", "run", "stop", "halt", "umount", "evict", "leak", "fetch", "writer", "reader"}
# the first words of what a host's note may say
SAYS = re.compile(
    r"(host [0-9a-f]{8}-|writer$|reader$|made |mkfs halted |start |mark$|found \d|writes \d|stop$|halt$|umount$|refused |media fault |out of memory$"
    r"|ok \d|played \d|mounted \d|same \d|differs \d|length differs |bytes \d|checked \d|not found \d|is a directory \d|fsck (sound|damaged)$"
    r"|no superblock |bad superblock |bad log |bad entry |not master |path too long |bad stripe$|exists |no parent$|parent is a file$|log full |no space "
    r"|posted \d|full \d|taken \d|bad box |bad record )")


class Event:
    """A line of a script: its number, from 1, and its words."""

    def __init__(self, number, words):
        self.number, self.words = number, words
        self.kind, self.host = words[0], words[1] if len(words) > 1 else ""

    def command(self):
        return self.words[2:]


class Note:
    """A host, what it says, and the lines of a listing or a report behind it."""

    def __init__(self, host, text):
        self.host, self.text, self.more = host, text, []
        self.words = text.split(" ")


def events_of(text):
    events = []
    for number, line in enumerate(text.split("\n"), 1):
        words = line.split()
        if words and not words[0].startswith("#"):
            if words[0] not in EVENTS or len(words) < 2:
                raise ValueError(f"line {number} of the script is no event")
            events.append(Event(number, words))
    return events


def notes_of(text, events):
    """The notes; a line that begins with no host of the script and says nothing that a host says belongs to the note before."""
    hosts = {event.host for event in events}
    notes = []
    for line in text.split("\n"):
        host, _, rest = line.partition(" ")
        if host in hosts and SAYS.match(rest):
            notes.append(Note(host, rest))
        elif line and notes:
            notes[-1].more.append(line)
    return notes
