"""What the files of cases/ are read by: blocks and words, and bytes as values of definitions (scripts/definitions.py).

Bytes are read by the tables of docs/FORMATS.md, by hand, and are written by the definitions: a reader that errs shows as
bytes that aren't written again.
"""

import os

from definitions import NONE, Data, Record, TOP, load

content_text, = load("Rattle.pws_msg.specs.Contents", "content_text")
event_text, = load("Rattle.pws_event.specs.Events", "event_text")


# ---- files, blocks and words ----------------------------------------------------------------------------------------
class Case:
    """A block of a file: its name, and its lines as words, each with its number."""

    def __init__(self, name, place):
        self.name, self.place, self.lines = name, place, []


def cases_of(name):
    """The cases of a file of cases/, in order. A line `again N` stands for the lines from the last input on, N times."""
    found, case = [], None
    with open(os.path.join(TOP, "cases", name), encoding="ascii") as file:
        for number, line in enumerate(file, 1):
            words = line.split()
            if not words or words[0].startswith("#"):
                continue
            if words[0] == "case":
                case = Case(words[1], number)
                found.append(case)
            elif words[0] == "again":
                first = max(i for i, (_, earlier) in enumerate(case.lines) if earlier[0] in ("said", "tick"))
                case.lines += case.lines[first:] * int(words[1])
            elif words[0] != "end":
                case.lines.append((number, words))
    return found


def replica_of(word):
    group, index = word.split(".")
    return Record({"group": int(group), "index": int(index)})


def bytes_of(word):
    """Pieces that are joined by `+`: hexadecimal digits, the same so many times, or `-` for none."""
    found = b""
    for piece in [] if word == "-" else word.split("+"):
        digits, _, times = piece.partition("*")
        found += bytes.fromhex(digits) * int(times or 1)
    return tuple(found)


def tags_of(word):
    """A count, `x` and a byte: so many tags of 32 such bytes."""
    count, byte = word.split("x")
    return ((int(byte, 16),) * 32,) * int(count)


# ---- bytes as values ------------------------------------------------------------------------------------------------
class Bytes:
    """Bytes that are read field by field."""

    def __init__(self, text):
        self.text, self.place = text, 0

    def take(self, count):
        if self.place + count > len(self.text):
            raise ValueError("bytes are missing")
        self.place += count
        return self.text[self.place - count : self.place]

    def number(self, width):
        return int.from_bytes(bytes(self.take(width)), "big")

    def u8(self):
        return self.number(1)

    def u32(self):
        return self.number(4)

    def sized(self):
        return self.take(self.u32())

    def digest(self):
        return self.take(32)

    def fields(self, **readers):
        """A record whose fields are read in order."""
        return Record({name: read() for name, read in readers.items()})

    def rows(self, **readers):
        """So many records as the byte before them says."""
        return tuple(self.fields(**readers) for _ in range(self.u8()))

    def event(self):
        kind = self.u8()
        if kind == 0:
            return Data("Null")
        if kind == 1:
            return Data("Request", self.fields(caller=self.u8, number=self.u32, low=self.u32, body=self.sized))
        if kind == 2:
            return Data("Reply", self.fields(called=self.u8, number=self.u32, body=self.sized))
        if kind == 3:
            return Data("Abort", self.fields(called=self.u8, number=self.u32))
        if kind == 4:
            return Data("Clock", self.fields(ask=self.u32, readings=lambda: self.rows(index=self.u8, ms=lambda: self.number(8))))
        if kind == 5:
            return Data("Random", self.fields(ask=self.u32, shares=lambda: self.rows(index=self.u8, bytes=self.digest)))
        raise ValueError("no event has the kind {}".format(kind))

    def reading(self):
        return Data("Time", self.number(8)) if self.u8() == 0 else Data("Share", self.digest())

    def view_change(self):
        def seen():
            return self.rows(digest=self.digest, view=self.u32)

        return self.fields(
            view=self.u32, low=self.u32,
            checkpoints=lambda: self.rows(place=self.u32, digest=self.digest),
            prepared=lambda: self.rows(place=self.u32, digest=self.digest, view=self.u32),
            pre_prepared=lambda: self.rows(place=self.u32, digests=seen))

    def choice(self):
        return self.fields(place=self.u32, digest=self.digest, chosen=lambda: tuple(self.digest() for _ in range(self.u8())))

    def content(self):
        note = {"caller": self.u8, "number": self.u32, "digest": self.digest}
        vote = {"view": self.u32, "place": self.u32, "digest": self.digest}
        change = {"view": self.u32, "index": self.u8, "digest": self.digest}
        kinds = {
            1: ("Request", {"number": self.u32, "low": self.u32, "body": self.sized}),
            2: ("Reply", note),
            3: ("Part", note),
            4: ("Expired", {"called": self.u8, "number": self.u32}),
            5: ("Reading", {"ask": self.u32, "value": self.reading}),
            6: ("PrePrepare", {"view": self.u32, "place": self.u32, "event": self.event}),
            7: ("Prepare", vote),
            8: ("Commit", vote),
            9: ("Checkpoint", {"place": self.u32, "digest": self.digest}),
            11: ("Ack", change),
            12: ("NewView", {"view": self.u32, "named": lambda: self.rows(index=self.u8, digest=self.digest), "choice": self.choice}),
            13: ("Relay", change),
            14: ("Fetch", {"place": self.u32}),
            15: ("Done", {"place": self.u32, "event": self.event}),
        }
        kind = self.u8()
        if kind == 10:
            return Data("ViewChange", self.view_change())
        if kind == 16:
            return Data("Need", self.digest())
        if kind == 17:
            return Data("Give", self.event())
        if kind not in kinds:
            raise ValueError("no content has the kind {}".format(kind))
        name, readers = kinds[kind]
        return Data(name, self.fields(**readers))


def event_of(word):
    text = bytes_of(word)
    event = Bytes(text).event()
    if event_text(event) != text:
        raise ValueError("no event is spelled {}".format(word))
    return event


def content_of(word):
    text = bytes_of(word)
    content = Bytes(text).content()
    if content_text(content) != text:
        raise ValueError("no content is spelled {}".format(word))
    return content


# ---- what stands beside a voter: the counters of what was called, asked and taken ------------------------------------
counters_after, would_effect, after_call, after_ask = load(
    "Rattle.pws_event.specs.Counters", "counters_after", "would_effect", "after_call", "after_ask")


def new_counters(group, layout):
    """The counters of a group that called, asked and took nothing."""
    return Record({
        "me": group, "layout": layout, "last": (0,) * 16, "low": (1,) * 16, "called": (0,) * 16, "waiting": (0,) * 256,
        "answered": 0, "ask": NONE, "clock": 0})


class Counted:
    """The steps `me`, `layout`, `call`, `ask` and `take`, which several files have."""

    def __init__(self):
        self.me = self.layout = self.asked = None

    def begin(self):
        """Called once both are known."""

    def step(self, words):
        """Takes one of these steps and gives its answer in words, or None where it has none or is another."""
        if words[0] == "me":
            self.me = replica_of(words[1])
        elif words[0] == "layout":
            self.layout = tuple(map(int, words[1:]))
            self.asked = new_counters(self.me["group"], self.layout)
            self.begin()
        elif words[0] == "call":
            self.asked = after_call(self.asked, int(words[1]), int(words[2]))
        elif words[0] == "ask":
            self.asked = after_ask(self.asked, Data(words[1].capitalize()))
        elif words[0] == "take":
            event = event_of(words[1])
            taken = would_effect(self.asked, event)
            self.asked = counters_after(self.asked, event)
            return "taken" if taken else "void"
        else:
            raise ValueError("there is no step {}".format(words[0]))
        return None


def hexadecimal(text):
    return bytes(text).hex() or "-"


def plain(words):
    """Words in one line, with bytes that are joined of pieces spelled out."""
    return " ".join(hexadecimal(bytes_of(word)) if "*" in word or "+" in word else word for word in words)


def written_tags(tags):
    same = {tag for tag in tags}
    if len(same) > 1 or any(len(set(tag)) != 1 for tag in tags):
        return "+".join(hexadecimal(tag) for tag in tags)
    return "{}x{:02x}".format(len(tags), tags[0][0] if tags else 0)
