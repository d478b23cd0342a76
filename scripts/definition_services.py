"""Scripts and envelopes by hand, for scripts/run-definitions: what the definitions of a service take as given. docs/FORMATS.md
has their rules. What a script does with them is the definitions' own matter.
"""

import re
from xml.parsers import expat

from definitions import NONE, Data, Function, Record, load, some

ENVELOPE = "http://www.w3.org/2003/05/soap-envelope"
ADDRESSING = "http://www.w3.org/2005/08/addressing"
XML = "http://www.w3.org/XML/1998/namespace"
DECLARATIONS = "http://www.w3.org/2000/xmlns/"
OWN = "urn:pws"
ANONYMOUS = ADDRESSING + "/anonymous"
FAULT_ACTION = ADDRESSING + "/soap/fault"
REPLY_TYPE = ADDRESSING + "/reply"
ROLES = (ENVELOPE + "/role/next", ENVELOPE + "/role/ultimateReceiver")
SPACE = " \t\n\r"
MOST_BYTES = 32_768


# ---- scripts ----------------------------------------------------------------------------------------------------------
def instruction_of(line):
    """A line of a script that is known to be good."""
    words = line.split(" ")

    def registers(*places):
        return [int(words[place][1:]) for place in places]

    if words[0] == "set":
        literal = line.split(" ", 2)[2]
        if not literal.startswith('"'):
            return Data("Set", *registers(1), Data("Number", int(literal)))
        text = re.sub(r"\\(.)", lambda match: "\n" if match.group(1) == "n" else match.group(1), literal[1:-1])
        return Data("Set", *registers(1), Data("Text", tuple(text.encode())))
    if words[0] == "jump":
        return Data("Jump", int(words[1]), *registers(2))
    if words[0] == "field":
        return Data("Field", *registers(1, 2), tuple(words[3].encode()))
    if words[0] == "call":
        return Data("Call", *registers(1), int(words[2]), *registers(3), int(words[4]))
    if words[0] == "awaitany":
        return Data("AwaitAny", *registers(1, 2), tuple(registers(*range(3, len(words)))))
    kinds = {
        "add": ("Add", 3), "sub": ("Sub", 3), "less": ("Less", 3), "same": ("Same", 3), "join": ("Join", 3),
        "receive": ("Receive", 2), "await": ("Await", 2), "next": ("Next", 2), "reply": ("Reply", 2), "clock": ("Clock", 1),
        "seed": ("Seed", 0), "draw": ("Draw", 2), "stop": ("Stop", 0)}
    kind, count = kinds[words[0]]
    return Data(kind, *registers(*range(1, count + 1)))


# ---- trees and their texts ------------------------------------------------------------------------------------------
class Element:
    """A name (a namespace and a local part), attributes by name, and children: elements, texts, and for a Value a name."""

    def __init__(self, name, attributes=(), children=()):
        self.name, self.attributes, self.children = name, dict(attributes), list(children)

    def elements(self):
        return [child for child in self.children if isinstance(child, Element)]

    def text(self):
        """The one text child, without the white space round it; None where there is none or anything else."""
        if len(self.children) == 1 and isinstance(self.children[0], str):
            return self.children[0].strip(SPACE) or None
        return None

    def all_text(self):
        parts = (c.all_text() if isinstance(c, Element) else c if isinstance(c, str) else c[1] for c in self.children)
        return "".join(parts)

    def tree(self):
        children = tuple(c.tree() if isinstance(c, Element) else c for c in self.children)
        return (self.name, tuple(sorted(self.attributes.items())), children)


class Refused(Exception):
    """A text that is no element, by the rules of envelopes."""


class Reader:
    """Reads a text into an Element. The grammar of XML is the kit's parser of Python; the rest is told here."""

    def __init__(self):
        self.root, self.open, self.bindings = None, [], [{"": "", "xml": XML}]

    def read(self, text):
        if len(text) >= MOST_BYTES:
            raise Refused
        parser = expat.ParserCreate("UTF-8")
        parser.buffer_text = True
        parser.StartElementHandler, parser.EndElementHandler = self.start, self.end
        parser.ordered_attributes = True
        parser.CharacterDataHandler = self.characters
        parser.StartDoctypeDeclHandler = parser.ProcessingInstructionHandler = self.refuse
        parser.XmlDeclHandler = self.declaration
        try:
            bytes(text).decode()
            parser.Parse(bytes(text), True)
        except (UnicodeDecodeError, expat.ExpatError):
            raise Refused from None
        return self.root

    @staticmethod
    def refuse(*_):
        raise Refused

    @staticmethod
    def declaration(version, encoding, _):
        if version != "1.0" or (encoding or "utf-8").lower() != "utf-8":
            raise Refused

    def bound(self, name, plain):
        prefix, colon, local = name.rpartition(":")
        if ":" in prefix or (colon and not (prefix and local)):
            raise Refused
        if not colon and not plain:
            return ("", local)
        if self.bindings[-1].get(prefix) is None:
            raise Refused
        return (self.bindings[-1][prefix], local)

    def start(self, name, attributes):
        if len(self.open) == 64:
            raise Refused
        pairs = list(zip(attributes[::2], attributes[1::2]))
        bindings = dict(self.bindings[-1])
        for key, value in pairs:
            if key == "xmlns" or key.startswith("xmlns:"):
                prefix = key[6:]
                if prefix == "xmlns" or (prefix == "xml") != (value == XML) or value == DECLARATIONS or (prefix and not value):
                    raise Refused
                bindings[prefix] = value
        self.bindings.append(bindings)
        named = [(self.bound(key, False), value) for key, value in pairs if key != "xmlns" and not key.startswith("xmlns:")]
        if len(dict(named)) != len(named):
            raise Refused
        element = Element(self.bound(name, True), named)
        if self.open:
            self.open[-1].children.append(element)
        else:
            self.root = element
        self.open.append(element)

    def characters(self, text):
        children = self.open[-1].children
        if children and isinstance(children[-1], str):
            children[-1] += text
        else:
            children.append(text)

    def end(self, _):
        element = self.open.pop()
        if element.name == (ENVELOPE, "Value"):
            name = element.text()
            if name is None or re.search("[" + SPACE + "]", name):
                raise Refused
            element.children = [self.bound(name, True)]
        self.bindings.pop()


def read_element(text):
    return Reader().read(text)


def escaped(text, marks):
    return "".join(marks.get(c, c) for c in text)


IN_TEXT = {"&": "&amp;", "<": "&lt;", ">": "&gt;", "\r": "&#13;"}
IN_VALUE = {"&": "&amp;", "<": "&lt;", '"': "&quot;", "\t": "&#9;", "\n": "&#10;", "\r": "&#13;"}


def canonical(root):
    """The canonical text of an element."""
    prefixes = {"": "", XML: "xml:"}

    def use(space):
        if space not in prefixes:
            prefixes[space] = "n{}:".format(len(prefixes) - 2)

    def collect(element):
        use(element.name[0])
        for name in sorted(element.attributes):
            use(name[0])
        for child in element.children:
            if isinstance(child, Element):
                collect(child)
            elif isinstance(child, tuple):
                use(child[0])

    def written(element, declared=""):
        name = prefixes[element.name[0]] + element.name[1]
        attributes = "".join(
            ' {}{}="{}"'.format(prefixes[space], local, escaped(value, IN_VALUE))
            for (space, local), value in sorted(element.attributes.items()))
        children = "".join(
            written(c) if isinstance(c, Element) else escaped(c, IN_TEXT) if isinstance(c, str) else prefixes[c[0]] + c[1]
            for c in element.children)
        return "<{0}{1}{2}>{3}</{0}>".format(name, declared, attributes, children)

    collect(root)
    declared = "".join(
        ' xmlns:{}="{}"'.format(prefix[:-1], escaped(space, IN_VALUE))
        for space, prefix in prefixes.items() if space not in ("", XML))
    return tuple(written(root, declared).encode())


# ---- envelopes and their headers --------------------------------------------------------------------------------------
HEADERS = ("To", "From", "ReplyTo", "FaultTo", "Action", "MessageID", "RelatesTo")


def is_for_this_node(block):
    role = block.attributes.get((ENVELOPE, "role"))
    return role is None or role.strip(SPACE) in ROLES


class Envelope:
    """Header blocks, and the children of the body."""

    def __init__(self, headers, body):
        self.headers, self.body = headers, body

    def root(self):
        header = [Element((ENVELOPE, "Header"), children=self.headers)] if self.headers else []
        return Element((ENVELOPE, "Envelope"), children=header + [Element((ENVELOPE, "Body"), children=self.body)])

    def text(self):
        return canonical(self.root())


def read_envelope(text):
    """An Envelope, or the word of the refusal."""
    try:
        root = read_element(text)
    except Refused:
        return "Mark"
    if root.name[1] != "Envelope":
        return "NotEnvelope"
    if root.name[0] != ENVELOPE:
        return "Version"
    parts = root.elements()
    if [part.name for part in parts] not in ([(ENVELOPE, "Body")], [(ENVELOPE, "Header"), (ENVELOPE, "Body")]):
        return "Order"
    headers = parts[0].elements() if len(parts) == 2 else []
    for outer in [root] + parts[:-1]:
        if any(isinstance(child, str) and child.strip(SPACE) for child in outer.children):
            return "Order"
    marks = [block.attributes.get((ENVELOPE, "mustUnderstand"), "0").strip(SPACE) for block in headers]
    if any(mark not in ("true", "false", "1", "0") for mark in marks):
        return "Order"
    for block, mark in zip(headers, marks):
        known = block.name[0] == ADDRESSING and block.name[1] in HEADERS
        if mark in ("true", "1") and is_for_this_node(block) and not known:
            return "MustUnderstand"
    return Envelope(headers, parts[-1].children)


def address_in(block):
    addresses = [child for child in block.elements() if child.name == (ADDRESSING, "Address")]
    return addresses[0].text() if len(addresses) == 1 else None


def read_addressing(envelope):
    """The pair of the MessageID and the address for replies, each or None, or the word of the refusal."""
    blocks = [b for b in envelope.headers if b.name[0] == ADDRESSING and is_for_this_node(b)]
    by_name = {name: [b for b in blocks if b.name[1] == name] for name in HEADERS}
    if any(len(by_name[name]) > 1 for name in HEADERS[:-1]):
        return "Cardinality"
    if not by_name["Action"]:
        return "Required"
    values = {}
    for name in HEADERS:
        for block in by_name[name]:
            values[name] = address_in(block) if name in ("From", "ReplyTo", "FaultTo") else block.text()
            if values[name] is None:
                return "Invalid"
    return (values.get("MessageID"), values.get("ReplyTo"))


def header(name, text):
    return Element((ADDRESSING, name), children=[text])


def fault(code, reason, subcode=None):
    value = Element((ENVELOPE, "Value"), children=[(ENVELOPE, code)])
    under = [Element((ENVELOPE, "Value"), children=[(ADDRESSING, subcode)])] if subcode else []
    codes = [value] + ([Element((ENVELOPE, "Subcode"), children=under)] if under else [])
    text = Element((ENVELOPE, "Text"), {(XML, "lang"): "en"}, [reason])
    parts = [Element((ENVELOPE, "Code"), children=codes), Element((ENVELOPE, "Reason"), children=[text])]
    return [Element((ENVELOPE, "Fault"), children=parts)]


REFUSALS = {
    "Version": ("VersionMismatch", "bad version"),
    "NotEnvelope": ("VersionMismatch", "bad version"),
    "MustUnderstand": ("MustUnderstand", "header not understood"),
    "Mark": ("Sender", "bad envelope"),
    "Order": ("Sender", "bad envelope"),
    "Required": ("Sender", "no action", "MessageAddressingHeaderRequired"),
    "Cardinality": ("Sender", "bad addressing", "InvalidAddressingHeader"),
    "Invalid": ("Sender", "bad addressing", "InvalidAddressingHeader"),
}


def answer(me, key, action, to, relates_to, body):
    message = "urn:pws:reply:{}:{}:{}".format(me, key["group"], key["number"])
    headers = [header("To", to), header("Action", action), header("MessageID", message)]
    headers += [header("RelatesTo", relates_to)] if relates_to is not None else []
    return Envelope(headers, body).text()


def said_text(name, text):
    return [Element((OWN, name), children=[Element((OWN, "text"), children=[text] if text else [])])]


def addressing_of(request):
    """The readable addressing of a request, as a pair, or the word of the refusal."""
    envelope = read_envelope(request)
    return envelope if isinstance(envelope, str) else read_addressing(envelope)


def fault_answer(me, key, request, *cause):
    """A fault with the headers of a reply; without readable addressing, or where it would be too long, anonymous."""
    found = addressing_of(request)
    if not isinstance(found, str):
        text = answer(me, key, FAULT_ACTION, found[1] or ANONYMOUS, found[0], fault(*cause))
        if len(text) <= MOST_BYTES:
            return text
    return answer(me, key, FAULT_ACTION, ANONYMOUS, None, fault(*cause))


def call_text(me, key, text):
    headers = [
        header("To", "urn:pws:group:{}".format(key["group"])), header("Action", "urn:pws:call"),
        header("MessageID", "urn:pws:call:{}:{}:{}".format(me, key["group"], key["number"])),
        Element((ADDRESSING, "ReplyTo"), children=[header("Address", "urn:pws:group:{}".format(me))])]
    made = Envelope(headers, said_text("call", bytes(text).decode())).text()
    return some(made) if len(made) <= MOST_BYTES else NONE


def refusal_of(me, key, request):
    found = addressing_of(request)
    return some(answer(me, key, FAULT_ACTION, ANONYMOUS, None, fault(*REFUSALS[found]))) if isinstance(found, str) else NONE


def reply_text(me, key, request, text):
    message_id, reply_to = addressing_of(request)
    body = said_text("reply", bytes(text).decode())
    made = answer(me, key, "urn:pws:reply", reply_to or ANONYMOUS, message_id, body)
    if len(made) <= MOST_BYTES:
        return made
    return answer(me, key, FAULT_ACTION, ANONYMOUS, None, fault("Receiver", "reply too long"))


def halted_text(me, key, request):
    return fault_answer(me, key, request, "Receiver", "service halted")


def field_text(message, name):
    body = [child for child in read_envelope(message).body if isinstance(child, Element)]
    named = [c for c in body[0].elements() if c.name[1] == bytes(name).decode()] if body else []
    return tuple(named[0].all_text().encode()) if named else ()


def same_message(a, b):
    return read_envelope(a).root().tree() == read_envelope(b).root().tree()


WORDS = Record({
    "call_text": Function(3, call_text), "refusal_of": Function(3, refusal_of), "reply_text": Function(4, reply_text),
    "halted_text": Function(3, halted_text), "is_readable": Function(1, lambda text: isinstance(read_envelope(text), Envelope)),
    "unreadable": Envelope([], fault("Receiver", "unreadable reply")).text(),
    "timed_out": Envelope([], fault("Receiver", "timed out")).text(),
    "same_message": Function(2, same_message), "field_text": Function(2, field_text)})


# ---- services ---------------------------------------------------------------------------------------------------------
step, fresh = load("Rattle.pws_driver.specs.Runs", "step", "fresh")


def service_of(group, layout, lines):
    """The acts of a script in a group as a function of the effects."""
    service = Record({"words": WORDS, "script": tuple(map(instruction_of, lines)), "me": group, "layout": layout})
    known = {}

    def acts(effects):
        if effects not in known:
            run = fresh(effects)
            after = step(service, run)
            while after != run:  # steps at the end of a run change nothing
                run, after = after, step(service, after)
            known[effects] = run["acts"]
        return known[effects]

    return Function(1, acts)
