"""Strategy texts, read node by node: what tools/tree and tools/explain share.

Forms alone are looked at, as docs/FORMAT.md has them; no rule is. Whether a text is a strategy is said by `stretch check`.
A node is found by its number, which its line begins with, in a few steps: of a large file only what is asked for is read.
"""

from __future__ import annotations

import gzip
import lzma
import mmap
import os
import re
import sys
from dataclasses import dataclass, field

MOST_LINE = 16_384
MOST_NUMBER = 65_535
MOST_CHILD = 4_294_967_295
MOST_NODES = 4_000_000_000
SMALL = {str(number): number for number in range(2_000)}
FIRST = re.compile(rb"(\d{1,10}) ")
HEADS = {"stretch 1": 1, "stretch 2": 2, "listed 1": 1, "relaxed 1": 2}
PACKED = {b"\x1f\x8b": ("gzip data", gzip.decompress), b"\xfd7zXZ\x00": ("xz data", lzma.decompress)}


class NoForm(Exception):
    """Where a line leaves its form: the number of the word, what stands there, and what was wanted."""

    def __init__(self, word, found, wanted):
        super().__init__(f"word {word}: found {found}, wanted {wanted}")
        self.word, self.found, self.wanted = word, found, wanted


class NoStrategy(Exception):
    """Why a text can't be read, in one line."""


def shown(text, most=60):
    """A text in backquotes, what can't be seen written out, a long one cut."""
    cut = text if len(text) <= most else text[:most] + ".."
    return "`" + "".join(c if " " <= c < "\x7f" else f"\\x{ord(c):02x}" for c in cut) + "`"


class Words:
    """The words of a line, taken one by one."""

    def __init__(self, line):
        self.words = line.split(" ")
        self.at = 0

    def next(self):
        """The word that stands next, or None at the end."""
        return self.words[self.at] if self.at < len(self.words) else None

    def refuse(self, wanted):
        word = self.next()
        if word is None:
            found = "the end of the line"
        elif word == "":
            found = "a space too many" if len(self.words) > 1 else "an empty line"
        else:
            found = shown(word)
        raise NoForm(self.at + 1, found, wanted)

    def word(self, *wanted):
        """One of these words."""
        if self.next() not in wanted:
            self.refuse(" or ".join(f"`{word}`" for word in wanted))
        self.at += 1
        return self.words[self.at - 1]

    def number(self, most=MOST_NUMBER, least=0):
        word = self.next()
        small = SMALL.get(word)  # most are, and a look is cheap
        if small is not None and small >= least:
            self.at += 1
            return small
        if word is None or not re.fullmatch("0|[1-9][0-9]*", word, re.A) or len(word) > 10 or not least <= int(word) <= most:
            self.refuse(f"a number from {least} to {most}, without a leading zero")
        self.at += 1
        return int(word)

    def list(self):
        """`-`, or numbers up to the first word that is none."""
        if self.next() == "-":
            self.at += 1
            return []
        numbers = []
        while (word := self.next()) in SMALL or word and "0" <= word[0] <= "9":
            numbers.append(self.number())
        return numbers or self.refuse("`-` or a number")

    def pack(self):
        bins = [self.list()]
        while self.next() == "/":
            self.at += 1
            bins.append(self.list())
        return bins

    def end(self, wanted="the end of the line"):
        if self.next() is not None:
            self.refuse(wanted)


@dataclass
class Step:
    """What follows a placement or an entry: an item on a load, and the child; None where it is over."""

    item: int
    load: int
    child: int | None


@dataclass
class Node:
    number: int
    loads: list
    items: list
    what: str  # send, burst, finish, reply, big
    size: int = 0
    count: int = 0
    pack: list | None = None
    steps: list = field(default_factory=list)


def read_adversary(words, node, form):
    node.what = words.word("send", "burst") if form == 2 else words.word("send")
    if node.what == "burst":
        node.count, node.size = words.number(), words.number()
        words.word("pack")
        node.pack = words.pack()
        return
    node.size = words.number()
    if form == 1 or words.next() == "pack":
        words.word("pack")
        node.pack = words.pack()
    words.word("on")
    words.at -= 1
    while words.next() == "on":
        words.at += 1
        load = words.number()
        child = None if words.word("over", "to") == "over" else words.number(MOST_CHILD)
        node.steps.append(Step(node.size, load, child))


def read_algorithm(words, node, form):
    node.what = words.word(*(["finish", "reply", "big"] if form == 2 else ["finish", "reply"]))
    if node.what == "big":
        node.count = words.number()
    if node.what != "reply":
        return
    if words.next() == "-":
        words.at += 1
        return
    while words.next() is not None or not node.steps:
        item = words.number()
        words.word("on")
        load = words.number()
        words.word("to")
        node.steps.append(Step(item, load, words.number(MOST_CHILD)))


def read_node(line, side, form, number=None):
    """The node of a line, which has this number; else NoForm."""
    words = Words(line)
    if number is not None and words.next() != str(number):
        words.refuse(f"the number of the node, `{number}`")
    node = Node(words.number(MOST_CHILD), [], [], "")
    words.word("loads")
    node.loads = words.list()
    words.word("items")
    node.items = words.list()
    (read_adversary if side == "adversary" else read_algorithm)(words, node, form)
    words.end("the next placement, ` on L over` or ` on L to C`, or the end of the line" if node.what == "send"
              else "the end of the line")
    return node


def head_words(kind, line):
    """The value of a head line of this kind, or NoForm."""
    words = Words(line)
    if kind == "format":
        if line not in HEADS:
            words.refuse(" or ".join(f"`{head}`" for head in HEADS))
        return line
    words.word(kind)
    if kind == "game":
        value = tuple(words.number() for _ in range(3))
    elif kind == "sizes":
        value = words.list()
    elif kind == "side":
        value = words.word("adversary", "algorithm")
    else:
        value = words.number(MOST_NODES, 1)
    words.end()
    return value


def head_kinds(first):
    """The head lines of a text whose first line this is."""
    return ["format", "game", *(["sizes"] if first == "listed 1" else []), "side", "nodes"]


def unpacked(data):
    """The bytes of a text, of packed data those that are packed."""
    for start, (name, unpack) in PACKED.items():
        if data[:len(start)] == start:
            try:
                return unpack(data)
            except (OSError, EOFError, lzma.LZMAError) as fault:
                raise NoStrategy(f"{name} that can't be unpacked: {fault}") from None
    return data


def bytes_of(path):
    """The bytes of a file, looked at where they lie; `-` is standard input."""
    try:
        if path == "-":
            return sys.stdin.buffer.read()
        with open(path, "rb") as file:
            try:
                return mmap.mmap(file.fileno(), 0, access=mmap.ACCESS_READ)
            except (ValueError, OSError):  # an empty file, a pipe
                return file.read()
    except OSError as fault:
        raise NoStrategy(fault.strerror or str(fault)) from None


class Strategy:
    """A text by its head and, when they are asked for, its nodes."""

    def __init__(self, data):
        self.data = unpacked(data)
        self.sizes = None
        at, values = 0, {}
        kinds = ["format"]
        while kinds:
            kind = kinds.pop(0)
            place = len(values) + 1
            end = self.data.find(b"\n", at, at + MOST_LINE + 1)
            if end < 0:
                raise NoStrategy(f"not a strategy text: line {place}, of the {kind}, is missing, unfinished or too long")
            line = self.data[at:end].decode("latin-1")
            try:
                values[kind] = head_words(kind, line)
            except NoForm as fault:
                raise NoStrategy(f"not a strategy text: line {place}, {fault}") from None
            if kind == "format":
                kinds = head_kinds(line)[1:]
            at = end + 1
        self.head, self.game, self.side, self.count = (values[kind] for kind in ("format", "game", "side", "nodes"))
        self.sizes = values.get("sizes")
        self.form = HEADS[self.head]
        self.start = at

    def number_at(self, at):
        """The number that the line from here begins with; one that is none, as of `end`, is above all."""
        found = FIRST.match(self.data, at, at + 12)
        return int(found[1]) if found else MOST_CHILD + 1

    def line_of(self, number):
        """The line of the node of this number: lines rise by their numbers, so a few looks find it."""
        low, high = self.start, len(self.data)
        while low < high:
            middle = self.data.rfind(b"\n", low, (low + high) // 2) + 1 or low
            if self.number_at(middle) < number:
                after = self.data.find(b"\n", (low + high) // 2) + 1
                low = after or high
            else:
                high = middle
        end = self.data.find(b"\n", low)
        if end < 0 or self.number_at(low) != number:
            raise NoStrategy(f"no line of node {number}, where lines rise by their numbers; `stretch check` tells the first fault")
        return self.data[low:end].decode("latin-1")

    def node(self, number):
        try:
            return read_node(self.line_of(number), self.side, self.form, number)
        except NoForm as fault:
            raise NoStrategy(f"the line of node {number} has no form of a node: {fault}") from None

    def root(self):
        return self.count - 1

    def at_position(self, position):
        """The first node at a position, which is spelled as in a line."""
        spelled = " " + " ".join(position.split()) + " "
        found = self.data.find(spelled.encode("latin-1", "replace"), self.start)
        if found < 0:
            raise NoStrategy(f"no node has{spelled}".rstrip())
        return self.number_at(self.data.rfind(b"\n", 0, found) + 1)


def ended_quietly(main):
    """Runs a script: a pipe that its reader closed ends it, and so does a person."""
    try:
        status = main()
        sys.stdout.flush()
    except (BrokenPipeError, KeyboardInterrupt):
        os.dup2(os.open(os.devnull, os.O_WRONLY), sys.stdout.fileno())
        status = 1
    sys.exit(status)
