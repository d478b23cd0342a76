"""What a run of `rt ci` costs, by crate and by sort of work. gate.sh says how it is called.

Looks at the processes below the run five times a second. What a process takes after the last look at it is missing from
its crate's row. Where this script started the run, the row 'the rest' has what is missing: the time of all processes
together, as the system tells it at the end, without that of the rows."""

import os
import re
import subprocess
import sys
import time

PAUSE = 0.2
SORTS = ["proofs", "tests", "wrong bodies", "programs"]
TICKS = os.sysconf("SC_CLK_TCK")


def processes():
    """From the number of each process to its parent and the processor seconds that it took."""
    found = {}
    for name in os.listdir("/proc"):
        if name.isdigit():
            try:
                with open("/proc/{}/stat".format(name)) as file:
                    text = file.read()
            except OSError:
                continue
            fields = text[text.rindex(")") + 2:].split()
            found[int(name)] = int(fields[1]), (int(fields[11]) + int(fields[12])) / TICKS
    return found


def below(root, found):
    """The processes below the process `root`."""
    children = {}
    for process, (parent, _) in found.items():
        children.setdefault(parent, []).append(process)
    reached, left = [], [root]
    while left:
        more = children.get(left.pop(), [])
        reached += more
        left += more
    return reached


def work_of(process):
    """The crate and the sort of work of a process, or None where it does none: a shell, or the run itself."""
    try:
        with open("/proc/{}/cmdline".format(process), "rb") as file:
            words = file.read().decode("utf-8", "replace").split("\0")
        folder = os.readlink("/proc/{}/cwd".format(process))
    except OSError:
        return None
    tool = os.path.basename(words[0])
    if re.match(r"python|sh$|bash$|setpriv$|$", tool):
        return None
    program = re.search(r"/rt-run-[^/]*/bin/(\w+)", " ".join(words))
    place = re.search(r"/crates/(\w+)/", " ".join(words + [folder + "/"]))
    if "--crate-name" in words:
        crate = words[words.index("--crate-name") + 1]
    elif program or place:
        crate = (program or place).group(1)
    else:
        return None
    # what runs the tests of a crate is a program, which is named after it
    tests_of = crate[:-len("_tests")] if program and crate.endswith("_tests") else None
    if "/rt-edit-" in folder:
        sort = "wrong bodies"
    elif tests_of or "--test" in words or "/{}_tests".format(crate) in " ".join(words):
        crate, sort = tests_of or crate, "tests"
    elif tool == "rattle" and words[1] in ("build", "check"):
        sort = "proofs"
    else:
        sort = "programs"
    return crate, sort


class Costs:
    """The cost of a run so far: processor seconds by crate and sort of work, and the seconds in which each was busy."""

    def __init__(self):
        self.seconds, self.wall, self.before, self.works = {}, {}, {}, {}

    def look(self, root, passed):
        """Looks at the processes below `root`, `passed` seconds after the look before."""
        found, busy, now = processes(), set(), {}
        for process in below(root, found):
            seconds = now[process] = found[process][1]
            # one that has ended, but for its parent's look at it, no longer tells what it did
            work = self.works[process] = work_of(process) or self.works.get(process)
            if work:
                before = self.before.get(process, 0.0)
                # less than before is another process of the same number
                more = seconds - before if seconds >= before else seconds
                self.seconds[work] = self.seconds.get(work, 0.0) + more
                busy |= {work[0], work[1]}
        self.before = now
        for name in busy:
            self.wall[name] = self.wall.get(name, 0.0) + passed

    def row(self, crate):
        """The processor seconds of a crate, by sort of work."""
        return [self.seconds.get((crate, sort), 0.0) for sort in SORTS]


def print_table(costs, elapsed, whole):
    """Prints the costs in minutes. `whole` has the processor seconds of all, or None where that isn't known."""
    table = {crate: costs.row(crate) for crate, _ in costs.seconds}

    def line(name, seconds, wall):
        cells = ["{:.1f}".format(s / 60) if s is not None else "" for s in seconds + [wall]]
        print("| {} | {} |".format(name, " | ".join(cells)))

    print("| Crate | {} | sum | wall |".format(" | ".join(SORTS)))
    print("|---|{}".format("---:|" * (len(SORTS) + 2)))
    for crate in sorted(table, key=lambda name: -sum(table[name])):
        line("`{}`".format(crate), table[crate] + [sum(table[crate])], costs.wall.get(crate, 0.0))
    sums = [sum(row) for row in zip(*table.values())]
    seen = sum(sums)
    if whole is not None:
        line("the rest", [None] * len(SORTS) + [max(0.0, whole - seen)], None)
    line("all, processor minutes", sums + [seen if whole is None else whole], elapsed)
    line("minutes by the wall clock", [costs.wall.get(sort, 0.0) for sort in SORTS] + [None], elapsed)


def watched(root, ended):
    """Looks at the processes below `root` until `ended` answers, and gives the costs and how long it took."""
    costs, began = Costs(), time.time()
    last = began
    while not ended():
        time.sleep(PAUSE)
        now = time.time()
        costs.look(root, now - last)
        last = now
    return costs, time.time() - began


def main():
    if len(sys.argv) > 1:
        root = int(sys.argv[1])
        costs, elapsed = watched(root, lambda: not os.path.exists("/proc/{}".format(root)))
        print_table(costs, elapsed, None)
        return 0
    child = subprocess.Popen(["rt", "ci"], stdin=subprocess.DEVNULL)
    told = []

    def ended():
        process, status, usage = os.wait4(child.pid, os.WNOHANG)
        if process:
            told.append((status, usage))
        return bool(process)

    costs, elapsed = watched(child.pid, ended)
    status, usage = told[0]
    print(flush=True)
    print_table(costs, elapsed, usage.ru_utime + usage.ru_stime)
    return os.WEXITSTATUS(status) if os.WIFEXITED(status) else 1


if __name__ == "__main__":
    sys.exit(main())
