"""One memory and a cache for each host, word by word: the table of docs/MODEL.md, "The machine".

A word is whatever tells it from others: a number, a piece of an entry, or None where the script doesn't tell it.
"""
WORDS = 8


class Copy:
    """A host's copy of a line: its words, whether they are to be sent, and whether that was asked for."""

    def __init__(self, words):
        self.words, self.dirty, self.asked = list(words), False, False


class Machine:
    def __init__(self):
        self.memory = {}
        self.caches = {}

    def line(self, number):
        return self.memory.get(number, [None] * WORDS)

    def send(self, number, copy):
        self.memory[number] = list(copy.words)

    def held(self, host, number):
        """The host's copy, which is brought where there is none."""
        cache = self.caches[host]
        if number not in cache:
            cache[number] = Copy(self.line(number))
        return cache[number]

    def load(self, host, number):
        return self.held(host, number).words

    def store(self, host, number, word, value):
        copy = self.held(host, number)
        copy.words[word] = value
        copy.dirty, copy.asked = True, False

    def ask(self, host, number):
        copy = self.caches[host].get(number)
        if copy and copy.dirty:
            copy.asked = True

    def fence(self, host):
        for number, copy in sorted(self.caches[host].items()):
            if copy.asked:
                self.send(number, copy)
                copy.dirty = copy.asked = False

    def drop(self, host, number):
        """An invalidate, and an evict: what is dirty is sent."""
        copy = self.caches[host].pop(number, None)
        if copy and copy.dirty:
            self.send(number, copy)

    def leak(self, host, number, mask):
        copy = self.caches[host].get(number)
        if copy and copy.dirty:
            words = self.line(number)
            self.memory[number] = [copy.words[w] if mask >> w & 1 else words[w] for w in range(WORDS)]

    def fetch(self, host, number, mask):
        copy = self.caches[host].get(number)
        if copy is None:
            self.held(host, number)
        elif not copy.dirty:
            words = self.line(number)
            copy.words = [words[w] if mask >> w & 1 else copy.words[w] for w in range(WORDS)]

    def lose(self, host):
        """The cache is lost; the numbers of the lines that memory lacks something of."""
        lost = [number for number, copy in sorted(self.caches[host].items()) if copy.dirty and copy.words != self.line(number)]
        self.caches[host] = {}
        return lost

    def state(self, host, number):
        """How a copy stands to memory: unsent, asked, stale, current, or None where there is none."""
        copy = self.caches[host].get(number)
        if copy is None:
            return None
        if copy.dirty:
            return "asked" if copy.asked else "unsent"
        return "current" if copy.words == self.line(number) else "stale"
