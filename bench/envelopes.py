"""Reads texts of elements of several kinds with a program, and prints ratios. usage: envelopes.py PROGRAM"""

import os
import sys
import tempfile
import time

from measure import run

try:
    from xml.parsers import expat
except ImportError:
    expat = None

SIZE = 32768
TIMES = 50
RUNS = 5


def filled(front, pieces, back):
    """Pieces between a front and a back, as many as fit, and white space that fills the rest."""
    taken = []
    left = SIZE - len(front) - len(back)
    for piece in pieces:
        if len(piece) > left:
            break
        taken.append(piece)
        left -= len(piece)
    return front + "".join(taken) + " " * left + back


def numbered(piece):
    return (piece.format(i) for i in range(SIZE))


def nested(levels):
    return "<b>" * levels + "x" + "</b>" * levels


def declared(count):
    """An element that declares so many prefixes, and has an attribute of each."""
    front = "<a" + "".join(' xmlns:p{0}="u{0}"'.format(i) for i in range(count))
    return filled(front, (' p{}:b=""'.format(i) for i in range(count)), "></a>")


def long_namespace(length):
    """An element with attributes of one namespace of so many bytes."""
    return filled('<a xmlns:p="' + "u" * length + '"', numbered(' p:a{}=""'), "></a>")


def elements_of(length):
    """An element with inner elements, all of one namespace of so many bytes."""
    return filled('<p:a xmlns:p="' + "u" * length + '">', iter(lambda: "<p:b/>", None), "</p:a>")


def texts():
    name = "n" * 1000
    return [
        ("plain text", filled("<a>", iter(lambda: "x", None), "</a>")),
        ("short elements", filled("<a>", iter(lambda: "<b/>", None), "</a>")),
        ("60 levels", filled("<a>", iter(lambda: nested(59), None), "</a>")),
        ("attributes of one element", filled("<a", numbered(' a{}=""'), "></a>")),
        ("entities", filled("<a>", iter(lambda: "&lt;", None), "</a>")),
        ("long names", filled("<a>", iter(lambda: "<{0}></{0}>".format(name), None), "</a>")),
        ("one long name", filled("<" + "n" * 16380, iter(()), "/>")),
        ("namespaces", declared(1200)),
        ("namespaces of inner elements", filled("<a>", numbered('<p:b xmlns:p="u{}"/>'), "</a>")),
        ("attributes in a namespace of 1,000 bytes", long_namespace(1000)),
        ("attributes in a namespace of 16,000 bytes", long_namespace(16000)),
        ("elements in a namespace of 16,000 bytes", elements_of(16000)),
    ]


def spent(program, path):
    """The least processor time in milliseconds of one reading."""
    times = []
    for _ in range(RUNS):
        with open(path, "rb") as source:
            spent_in, told = run([program, str(TIMES)], source)
        if told != "elements {0} of {0}\n".format(TIMES):
            sys.exit("the program wrote {!r}".format(told))
        times.append(spent_in)
    return min(times) / TIMES * 1000


def spent_by_expat(text):
    """The least time in milliseconds of one reading by expat, with namespaces and no handlers."""
    times = []
    for _ in range(RUNS):
        start = time.process_time()
        for _ in range(TIMES):
            expat.ParserCreate(None, " ").Parse(text, True)
        times.append(time.process_time() - start)
    return min(times) / TIMES * 1000


def main():
    program = sys.argv[1]
    plain = None
    with tempfile.TemporaryDirectory() as folder:
        path = os.path.join(folder, "text")
        for name, text in texts():
            bytes_of = text.encode()
            if len(bytes_of) != SIZE:
                sys.exit("{} has {} bytes".format(name, len(bytes_of)))
            with open(path, "wb") as out:
                out.write(bytes_of)
            least = spent(program, path)
            plain = plain or least
            told = "{}: {:.2f} ms, {:.1f} times plain text".format(name, least, least / plain)
            if expat is not None:
                told += ", {:.1f} times expat".format(least / spent_by_expat(bytes_of))
            print(told, flush=True)


main()
