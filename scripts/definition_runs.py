"""Replicas and worlds for scripts/run-definitions: tables of keys, packets as bytes, and schedules. docs/SCENARIOS.md tells
the form of a schedule.
"""

import os
import re

from definition_shortcuts import PLAIN, RUNS, packet_text
from definitions import NONE, TOP, Data, Map, Record, load
from definition_cases import bytes_of, hexadecimal, replica_of
from definition_services import service_of

key_of_seed, tags_for = load("Rattle.pws_auth.specs.Keys", "key_of_seed", "tags_for")
pair_of, = load("Rattle.pws_auth.specs.Pairs", "pair_of")
all_replicas, first_world = load(RUNS + "Worlds", "all_replicas", "first_world")
refusal_of, moved = load(RUNS + "Moves", "refusal_of", "moved")
report_of, = load(RUNS + "Reports", "report_of")
first_state, = load(RUNS + "ReplicaStates", "first_state")
step, = load(RUNS + "Steps", "step")
held, = load("Rattle.pws_protocol.specs.Held", "held")
event_text, = load("Rattle.pws_event.specs.Events", "event_text")


def keys_from(layout, seed):
    """The table of the keys of a seed, for all pairs of a layout."""
    replicas = all_replicas(layout)
    keys = {pair_of(a, b): key_of_seed(layout, seed, a, b).args[0] for a in replicas for b in replicas if a != b}
    return Record({"layout": layout, "keys": Map(keys)})


# ---- packets as bytes -----------------------------------------------------------------------------------------------
def sized(text):
    return len(text).to_bytes(4, "big") + text


def packet_bytes(sender, group, content, tags, body, vouchers):
    """The bytes of a packet, whether or not its content is lawful: a voucher is (sender, content, tags)."""
    def statement(by, said, with_tags, between=b""):
        return bytes([by["group"], by["index"]]) + between + sized(bytes(said)) + bytes([len(with_tags)]) + b"".join(map(bytes, with_tags))

    attached = b"\0" if body is None else b"\1" + sized(body)
    text = b"PWS\1" + statement(sender, content, tags, bytes([group])) + attached + bytes([len(vouchers)])
    return tuple(text + b"".join(statement(*v) for v in vouchers))


# ---- one replica ------------------------------------------------------------------------------------------------------
class ReplicaCase:
    """Inputs of a replica, each with the outputs that it is to bring and the line of the state after it."""

    INPUTS = ("bytes", "tick")

    def __init__(self):
        self.me = self.layout = self.seed = self.serve = self.state = None

    def run(self, case, answers):
        place = 0
        while place < len(case.lines):
            number, words = case.lines[place]
            answers.steps += 1
            place += 1
            if words[0] in self.INPUTS:
                first = place
                while place < len(case.lines) and case.lines[place][1][0] not in self.INPUTS:
                    place += 1
                answers.compare_lines(case, number, case.lines[first:place], self.step(words))
            elif words[0] == "script":
                count = int(words[1])
                lines = [" ".join(line) for _, line in case.lines[place : place + count]]
                place += count
                self.serve = service_of(self.me["group"], self.layout, lines)
                self.state = first_state(self.me, keys_from(self.layout, self.seed))
            elif words[0] == "me":
                self.me = replica_of(words[1])
            elif words[0] == "layout":
                self.layout = tuple(map(int, words[1:]))
            else:
                self.seed = bytes_of(words[1])

    def step(self, words):
        """The lines of what a replica puts out for an input, and of its state after it."""
        given = Data("Bytes", bytes_of(words[1])) if words[0] == "bytes" else Data("Tick", int(words[1]), bytes_of(words[2]))
        run = step(self.serve, self.state, given)
        self.state = run["state"]
        return list(map(self.line_of, run["outs"])) + [state_line(self.state["voter"])]

    def line_of(self, out):
        if out.tag == "Send":
            return "send {} {} {}".format(out.args[0], out.args[1].args[0] if out.args[1].args else "-", hexadecimal(packet_text(out.args[2])))
        if out.tag == "Executed":
            return "executed {} {} {}".format(out.args[0], hexadecimal(event_text(out.args[1])), "taken" if out.args[2] else "void")
        return "acted " + self.act_line(out.args[0]) if out.tag == "Acted" else "ignored " + self.why_line(out.args[0])

    @staticmethod
    def act_line(act):
        if act.tag == "Call":
            called, number, low, body, timeout = act.args
            return "call {} {} {} {} {}".format(called, number, low, timeout, hexadecimal(body))
        if act.tag == "Reply":
            return "reply {} {} {}".format(*act.args[:2], hexadecimal(act.args[2]))
        return {"AskClock": "clock {}", "AskRandom": "random {}", "Halted": "halted"}[act.tag].format(*act.args)

    @staticmethod
    def why_line(why):
        error = why.args[0] if why.args else why
        if error.tag == "Packet":
            return "packet {} {}".format(error.args[0]["kind"].tag.lower(), error.args[0]["at"])
        return error.tag.lower()


def state_line(voter):
    return "state view={} active={} low={} done={} floor={} held={}".format(
        voter["view"], "yes" if voter["active"] else "no", voter["low"], voter["done"], voter["floor"], held(voter))


# ---- schedules --------------------------------------------------------------------------------------------------------
class BadSchedule(Exception):
    pass


class Schedule:
    """A schedule that is good but for its end, which may be missing."""

    def __init__(self, text):
        self.lines = text.split("\n")
        if self.lines.pop() or self.lines[-1] != "end":
            raise BadSchedule(text.count("\n") + 1)
        seed = bytes.fromhex(self.lines[1].split()[1])
        self.layout, self.scripts, self.bad, at = (), {}, [], 2
        while self.lines[at] != "begin":
            words = self.lines[at].split()
            at += 1
            if words[0] == "group":
                self.layout += (int(words[2]),)
            elif words[0] == "bad":
                self.bad.append(replica_of(words[1]))
            elif words[0] == "script":
                self.scripts[int(words[1])] = self.lines[at : at + int(words[2])]
                at += int(words[2])
        self.first_move = at + 1
        services = [service_of(g, self.layout, self.scripts.get(g, ["stop"])) for g in range(len(self.layout))]
        self.keys = keys_from(self.layout, tuple(seed))
        self.setting = Record({"keys": self.keys, "bad": tuple(self.bad), "serve": lambda group: services[group]})

    def moves(self, world_of):
        """Each line with a move, one after the other; those of a storm depend on the world as it is then."""
        looked_at = 0
        for number in range(self.first_move, len(self.lines) - 1):
            line = self.lines[number]
            words = line.split(" ")
            if words[0] == "calm" or words[0] == "storm":
                word, offers = int(words[2], 16) if words[0] == "storm" else 0, 0
                last = looked_at + int(words[1])
                while looked_at < min(last, len(world_of()["sent"])):
                    packet = world_of()["sent"][looked_at]
                    looked_at += 1
                    for to in (r for r in all_replicas(self.layout) if r["group"] == packet["receiver"]):
                        if to != packet["sender"] and to not in self.bad:
                            if not word >> offers % 32 & 1:
                                yield number + 1, Data("Give", looked_at, to)
                            offers += 1
            elif words[0] == "tick":
                yield number + 1, Data("Tick", replica_of(words[1]), int(words[2]), tuple(bytes.fromhex(words[3])))
            elif words[0] == "give":
                yield number + 1, Data("Give", int(words[2]), replica_of(words[1]))
            elif words[0] == "raw":
                yield number + 1, Data("Bytes", replica_of(words[1]), tuple(bytes.fromhex(words[2])))
            else:
                yield number + 1, self.said(line)

    def said(self, line):
        """The packet of `say` or `whisper`."""
        head, *vouchers = re.split(r" (?=[+-] )", line)
        head, _, body = head.partition(" = ")
        kind, sender, to, content = head.split(" ")
        by, to, content = replica_of(sender), replica_of(to), tuple(bytes.fromhex(content))
        group, count = to["group"], 3 * self.layout[to["group"]] + 1
        zeros = ((0,) * 32,) * count
        tags = tags_for(self.keys, by, content, group)
        if kind == "whisper":
            tags = tuple(tag if i == to["index"] else zeros[i] for i, tag in enumerate(tags))
        attached = []
        for voucher in vouchers:
            sign, of, told = voucher.split(" ")
            of, told = replica_of(of), tuple(bytes.fromhex(told))
            attached.append((of, told, tags_for(self.keys, of, told, group) if sign == "+" else zeros))
        body = bytes.fromhex(body) if " = " in line else None
        return Data("Bytes", to, packet_bytes(by, group, content, tags, body, attached))

    def run(self):
        """The status and the text of the run, and how many steps it had."""
        world = first_world(self.setting)
        for number, move in self.moves(lambda: world):
            why = refusal_of(self.setting, world, move)
            if why != NONE:
                word, status = REFUSALS[why.args[0].tag]
                return status, "line {}: {}\n".format(number, word), world["steps"]
            world = moved(self.setting, world, move)
        return 0, bytes(report_of(self.setting, world)).decode(), world["steps"]


REFUSALS = {"NoPacket": ("no packet", 3), "Forged": ("forged", 4), "Collision": ("collision", 4), "PoolFull": ("limit", 5)}


def run_schedule(text, plain=False):
    """The status and the text of a run, and how many steps it had; plain without shortcuts."""
    PLAIN[0] = plain
    try:
        return Schedule(text).run()
    except BadSchedule as bad:
        return 3, "line {}: bad schedule\n".format(bad.args[0]), 0
    finally:
        PLAIN[0] = False


SCHEDULES = os.path.join(TOP, "cases", "schedules")


def text_of(name):
    with open(os.path.join(SCHEDULES, name), encoding="utf-8", newline="") as file:
        return file.read()


def schedule_names():
    return sorted(name[:-4] for name in os.listdir(SCHEDULES) if name.endswith(".pws"))


def expected(name):
    """The status and the text that a schedule is to give."""
    has_status = os.path.exists(os.path.join(SCHEDULES, name + ".status"))
    return int(text_of(name + ".status")) if has_status else 0, text_of(name + ".out")


def run_schedules(answers, wanted):
    """Each schedule, or those that are named; the short ones twice, with shortcuts and without."""
    names = [name for name in schedule_names() if not wanted or name in wanted]
    for name in names:
        text = text_of(name + ".pws")
        status, told, steps = run_schedule(text)
        runs = [(status, told)]
        if steps <= PLAIN_STEPS:
            runs.append(run_schedule(text, plain=True)[:2])
        answers.steps += steps
        status, told = expected(name)
        for run in runs:
            answers.compare_texts(name, (status,) + tuple(told.split("\n")), (run[0],) + tuple(run[1].split("\n")))
    return len(names)


PLAIN_STEPS = 60  # a schedule with more steps runs with shortcuts alone
