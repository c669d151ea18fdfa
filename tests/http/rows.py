"""The table of requests, requests.txt: README.md describes its form."""

from __future__ import annotations

import base64
import hashlib
import hmac
import itertools
import os
import re
from dataclasses import dataclass, field, replace

FOLDER = os.path.dirname(os.path.abspath(__file__))
KEY = bytes(range(32))
SERVERS = ("serve", "rust", "c")
MODES = ("unkeyed", "keyed")
# What follows a row's name: where it is played, and how.
FLAGS = {*MODES, "ends", "great", "stops"}
ESCAPE = re.compile(r"\\(x[0-9a-fA-F]{2}|[rnts0\\])")
ESCAPED = {"r": "\r", "n": "\n", "t": "\t", "s": " ", "0": "\0", "\\": "\\"}
REPEATED = re.compile(r"\{(.+?) \* (\d+)\}")
PLACE = re.compile(r"\{([a-z_]+)\}")


class BadTable(Exception):
    """A line of the table that can't be read."""


@dataclass
class Answer:
    """What has to come: a status, a body and fields, or the end of the connection."""

    status: int | None
    # None: any. With `reason` none, or in other programs than `failreg serve` a text.
    body: bytes | None = None
    begins: bytes | None = None
    is_reason: bool = False
    fields: dict = field(default_factory=dict)

    def __str__(self):
        if self.status is None:
            return "the end of the connection"
        if self.is_reason:
            body = "no body, or a reason"
        elif self.begins is not None:
            body = f"a body that begins with {self.begins!r}"
        else:
            body = "any body" if self.body is None else repr(self.body)
        fields = "".join(f", {name}: {value or 'absent'}" for name, value in self.fields.items())
        return f"{self.status}, {body}{fields}"


@dataclass
class Row:
    """A request and what has to come. Its texts still have the names of places."""

    name: str
    line: int
    flags: set
    # What is sent, in pieces: before each later one comes an interim response.
    pieces: list = field(default_factory=lambda: [""])
    before: list = field(default_factory=list)
    answers: dict = field(default_factory=dict)
    after: str = ""
    # How many seconds it takes, if it isn't quick.
    takes: int = 0
    # The address at which the server listens.
    listens: str = "127.0.0.1"

    def answer(self, server, mode):
        """What has to come of a server: what is said of it, or of all."""
        others = () if server == "serve" else ("others",)
        for whose in (f"{server} {mode}", server, *others, mode, "all"):
            if whose in self.answers:
                return self.answers[whose]
        raise BadTable(f"line {self.line}: {self.name}: no answer at {server}, {mode}")

    def is_slow(self):
        """Whether it waits for a time limit, or sends much."""
        return self.takes > 0 or "great" in self.flags

    def is_played(self, mode):
        """Whether it is played at a server with this mode."""
        modes = self.flags.intersection(MODES)
        return not modes or mode in modes


def bytes_of(text):
    """The bytes of a text with escapes, in which each character below 256 is a byte."""
    text = REPEATED.sub(lambda found: found[1] * int(found[2]), text)
    text = ESCAPE.sub(lambda found: chr(int(found[1][1:], 16)) if found[1][0] == "x" else ESCAPED[found[1]], text)
    try:
        return text.encode("latin-1")
    except UnicodeEncodeError:
        return b"".join(it.encode("latin-1" if ord(it) < 256 else "utf-8") for it in text)


def filled(text, places):
    """A text with what stands for the names of places."""
    for _ in range(2):
        text = PLACE.sub(lambda found: places.get(found[1], found[0]), text)
    return text


def places_of(row, defined, port, mode):
    """What the names of places stand for in a row that is played at this port."""
    keyed = f"Authorization: Bearer {KEY.hex()}\\r\\n" if mode == "keyed" else ""
    places = {**defined, "port": str(port), "key": KEY.hex(), "credentials": keyed, "access": f"Host: localhost\\r\\n{keyed}"}
    body = bytes_of(filled(row.pieces[-1].rpartition("\\r\\n\\r\\n")[2], places))
    digest = base64.b64encode(hashlib.sha256(body).digest()).decode()
    return {**places, "digest": f"sha-256=:{digest}:", "mac": hmac.new(KEY, body, "sha256").hexdigest(), "length": str(len(body))}


def quoted(text, line):
    """The bytes between quotes."""
    if len(text) < 2 or text[0] != '"' or text[-1] != '"':
        raise BadTable(f'line {line}: expected "TEXT", none, any, reason or begins "TEXT": {text}')
    return bytes_of(text[1:-1])


def answer_of(text, line):
    """The answer that a line tells."""
    if text == "ended":
        return Answer(None)
    status, _, body = text.partition(" ")
    if not status.isdigit():
        raise BadTable(f"line {line}: expected a status or `ended`: {text}")
    if body.startswith("begins "):
        return Answer(int(status), begins=quoted(body[7:], line))
    if body in ("any", "reason"):
        return Answer(int(status), is_reason=body == "reason")
    return Answer(int(status), b"" if body == "none" else quoted(body, line))


class Reader:
    """Reads the table a line at a time."""

    def __init__(self):
        self.rows = []
        self.defined = {}
        self.each = []
        self.last = None

    def take(self, number, line):
        """Takes a line of the table."""
        word, _, rest = line.partition(" ")
        row = self.rows[-1] if self.rows else None
        if line.startswith("["):
            name, _, flags = line[1:].partition("]")
            self.rows.append(Row(name, number, set(flags.split())))
            self.each.append([])
            if unknown := self.rows[-1].flags - FLAGS:
                raise BadTable(f"line {number}: unknown flags: {' '.join(sorted(unknown))}")
        elif word == "define":
            name, _, value = rest.partition(" = ")
            self.defined[name] = value
        elif row is None:
            raise BadTable(f"line {number}: expected [NAME]: {line}")
        elif word == "each":
            name, _, values = rest.partition(" = ")
            self.each[-1].append((name, values.split(" | ")))
        elif word == "before":
            row.before.append(rest)
        elif word == "then":
            row.after = rest
        elif word == "takes":
            row.takes = int(rest)
        elif word == "listens":
            row.listens = rest
        else:
            self.take_message(row, number, word, rest)

    def take_message(self, row, number, word, rest):
        """Takes a line of a request or of an answer."""
        if word == ">":
            # A place that is a line of its own has its end.
            row.pieces[-1] += rest if rest in ("{access}", "{credentials}") else rest + "\\r\\n"
        elif word == ">>":
            row.pieces[-1] += rest
        elif word == "<" and rest == "100":
            row.pieces.append("")
        elif word == "<" and ":" in rest and rest[0].isalpha():
            name, _, value = rest.partition(":")
            self.last.fields[name.lower()] = value.strip()
        elif word == "<":
            row.answers["all"] = self.last = answer_of(rest, number)
        elif word.startswith("<"):
            whose, _, told = (word[1:] + " " + rest).partition(": ")
            if not set(whose.split()) <= {*SERVERS, *MODES, "others"}:
                raise BadTable(f"line {number}: no server or mode: {whose}")
            row.answers[whose] = self.last = answer_of(told, number)
        else:
            raise BadTable(f"line {number}: can't be read: {word} {rest}")


def expanded(row, each):
    """A row for each of the values of its `each`."""
    for values in itertools.product(*(values for _, values in each)):
        its = dict(zip((name for name, _ in each), values))
        fill = lambda text: PLACE.sub(lambda found: its.get(found[1], found[0]), text)
        pieces, before = [fill(it) for it in row.pieces], [fill(it) for it in row.before]
        yield replace(row, name=fill(row.name), pieces=pieces, before=before, after=fill(row.after))


def read_rows(path=os.path.join(FOLDER, "requests.txt")):
    """The rows of the table, and what its names stand for."""
    reader = Reader()
    with open(path, encoding="utf-8") as file:
        for number, line in enumerate(file, 1):
            line = line.rstrip("\n")
            if line.strip() and not line.startswith("#"):
                reader.take(number, line)
    rows = [it for row, each in zip(reader.rows, reader.each) for it in expanded(row, each)]
    names = [row.name for row in rows]
    if twice := [name for name in names if names.count(name) > 1]:
        raise BadTable(f"line {rows[names.index(twice[0])].line}: two rows have the name {twice[0]}")
    return rows, reader.defined


def read_open(path=os.path.join(FOLDER, "open.txt")):
    """The rows that a server doesn't answer as wanted yet, as (server, mode, name)."""
    if not os.path.exists(path):
        return set()
    with open(path, encoding="utf-8") as file:
        lines = [line.rstrip("\n") for line in file if line.strip() and not line.startswith("#")]
    return {tuple(line.split(" ", 2)) for line in lines}
