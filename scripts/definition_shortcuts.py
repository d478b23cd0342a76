"""Shortcuts for definitions that take too long as they stand, for scripts/run-definitions; to be imported before any other
definition is loaded.

The definitions of a world look at all that was ever sent and digested at each move. Here the same is found over indexes.
PLAIN turns these off, and some schedules run so: scripts/run-definitions compares both ways. Others only remember what a
definition gave for the same arguments.
"""

from definitions import SHORTCUTS, load, sha256

RUNS = "Rattle.pws_runs.specs."
PLAIN = [False]


def remembered(definition):
    """The same, with what it gave before for equal arguments."""
    known = {}

    def quick(*args):
        if args not in known:
            if len(known) > 200_000:
                known.clear()
            known[args] = definition(*args)
        return known[args]

    return quick


def last_remembered(definition):
    """The same, with what it gave last for the very same arguments."""
    last = [None, None]

    def quick(*args):
        if last[0] is None or any(a is not b for a, b in zip(args, last[0])):
            last[:] = args, definition(*args)
        return last[1]

    return quick


class Texts:
    """The digested texts that were added last, as sets."""

    def __init__(self):
        self.texts, self.found, self.digests, self.size = (), set(), set(), 0

    def at(self, texts):
        if texts is not self.texts:
            self.__init__()
            for text in texts:
                self.add(text)
            self.texts = texts
        return self

    def add(self, text):
        if text not in self.found:
            self.found.add(text)
            self.digests.add(sha256(text))
        self.size += len(text)


class Sent:
    """The packets that were sent last: what was said by them, and their lengths together."""

    def __init__(self):
        self.sent, self.said, self.size = (), set(), 0

    def at(self, sent):
        if sent is not self.sent:
            count = len(self.sent)
            if len(sent) < count or (count and sent[count - 1] is not self.sent[-1]):
                self.__init__()
                count = 0
            for packet in sent[count:]:
                self.said.add((packet["sender"], packet["receiver"], content_text(packet["content"])))
                if packet["content"].tag == "Part":
                    self.said.update(
                        (v["sender"], None, content_text(v["content"])) for v in packet["vouchers"] if v["sender"] == packet["sender"])
                self.size += len(packet_text(packet))
            self.sent = sent
        return self


TEXTS, SENT = Texts(), Sent()


def with_texts(definition):
    def quick(texts, more):
        if PLAIN[0]:
            return definition(texts, more)
        TEXTS.at(texts)
        new = tuple(text for text in dict.fromkeys(more) if text not in TEXTS.found)
        if new:
            for text in new:
                TEXTS.add(text)
            TEXTS.texts = texts + new
        return TEXTS.texts

    return quick


def has_collision(definition):
    def quick(texts):
        return definition(texts) if PLAIN[0] else len(TEXTS.at(texts).digests) < len(TEXTS.found)

    return quick


def pool_size(definition):
    def quick(world):
        if PLAIN[0]:
            return definition(world)
        return SENT.at(world["sent"]).size + TEXTS.at(world["texts"]).size

    return quick


def speaks(definition):
    def quick(setting, world, group, sender, content):
        if PLAIN[0]:
            return definition(setting, world, group, sender, content)
        said, text = SENT.at(world["sent"]).said, content_text(content)
        return sender in setting["bad"] or (sender, group, text) in said or (sender, None, text) in said

    return quick


SHORTCUTS[RUNS + "Digested", "with_texts"] = with_texts
SHORTCUTS[RUNS + "Digested", "has_collision"] = has_collision
SHORTCUTS[RUNS + "Digested", "pool_size"] = pool_size
SHORTCUTS[RUNS + "Speaking", "speaks"] = speaks
SHORTCUTS[RUNS + "Moves", "world_after"] = last_remembered
for path, name in [
    ("Rattle.pws_event.specs.Determined", "counters_of"), (RUNS + "Calls", "effects_at"),
    ("Rattle.pws_msg.specs.Contents", "content_text"),
    ("Rattle.pws_msg.specs.Packets", "packet_text"), ("Rattle.pws_auth.specs.Hmac", "hmac"),
]:
    SHORTCUTS[path, name] = remembered

content_text, = load("Rattle.pws_msg.specs.Contents", "content_text")
packet_text, = load("Rattle.pws_msg.specs.Packets", "packet_text")
