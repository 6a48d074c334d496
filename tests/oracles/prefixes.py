#!/usr/bin/env python3
"""Works out what the readers say of every prefix of a text, from the grammars, apart from machcheck.

    tests/oracles/prefixes.py            compares with the lines `prefixes ..` of crates/mrc_cases and of tests/scripts.txt
    tests/oracles/prefixes.py lines      prints the cases and their answers, each pair with a line feed between

The readers here are small, and written from docs/FORMATS.md, docs/MIG.md and docs/FAULTS.md alone. Each reads a text
whole and gives the first fault, as machcheck prints it, or `ok`. They know as much of MIG as the texts below have.
"""

import re
import sys
from pathlib import Path

ROOT = Path(__file__).resolve().parents[2]
CASES = ROOT / "crates/mrc_cases"
SCRIPTS = ROOT / "tests/scripts.txt"


class Fault(Exception):
    """The first fault of a text."""


# MIG files

INCLUDE = "#include <mach/std_types.defs>"
RESERVED = """subsystem kernelserver kerneluser type routine simpleroutine skip import uimport simport serverprefix
userprefix rcsid in out inout requestport replyport ctype cusertype cservertype intran outtran destructor
array of struct c_string dealloc polymorphic procedure simpleprocedure function operation waittime msgoption
msgseqno ureplyport sreplyport islong isnotlong servercopy countinout""".split()
PORTS = "MOVE_RECEIVE MOVE_SEND MOVE_SEND_ONCE COPY_SEND MAKE_SEND MAKE_SEND_ONCE".split()
BASICS = "BOOLEAN INTEGER_16 INTEGER_32 CHAR BYTE INTEGER_8 PORT_NAME".split() + PORTS
SIZED = "STRING STRING_C".split()
POLYMORPHIC = "POLYMORPHIC PORT_RECEIVE PORT_SEND PORT_SEND_ONCE".split()
PORT_TYPES = """mach_port_t mach_port_copy_send_t mach_port_move_receive_t mach_port_move_send_t
mach_port_move_send_once_t mach_port_make_send_t mach_port_make_send_once_t""".split()
DATA_TYPES = "char short int unsigned integer_t natural_t kern_return_t boolean_t mach_port_name_t".split()
BLANK = re.compile(r"[ \t\r\n]+")
TOKEN = re.compile(r'[A-Za-z_][A-Za-z0-9_]*|[0-9]+|"[^"\n]*"|<[^>\n]*>|[;:,=()\[\]{}*/+|^.-]')


class Mig:
    """Reads a MIG file: its tokens first, each with its first byte and the one behind it, then its statements."""

    def __init__(self, text):
        self.text, self.tokens, self.at, self.types = text, [], 0, {}
        self.read_tokens()

    def read_tokens(self):
        place = 0
        while place < len(self.text):
            line = self.text[self.text.rfind("\n", 0, place) + 1 : place]
            blank = BLANK.match(self.text, place)
            if blank:
                place = blank.end()
            elif self.text.startswith("/*", place):
                end = self.text.find("*/", place + 2)
                if end < 0:
                    raise Fault(f"OpenComment {place}")
                place = end + 2
            elif self.text[place] == "#" and not line.strip(" \t\r"):
                end = (self.text + "\n").index("\n", place)
                self.tokens.append((self.text[place:end], place, end))
                place = end
            else:
                token = TOKEN.match(self.text, place)
                if not token:
                    raise Fault(f"BadCharacter {place}")
                if token[0].isdigit() and int(token[0]) > 2_147_483_647:
                    raise Fault(f"NumberTooLarge {place}")
                self.tokens.append((token[0], place, token.end()))
                place = token.end()

    def place(self):
        """Where the next token stands; where it is missing, the end of the last."""
        if self.at < len(self.tokens):
            return self.tokens[self.at][1]
        return self.tokens[-1][2] if self.tokens else 0

    def peek(self):
        return self.tokens[self.at][0] if self.at < len(self.tokens) else ""

    def has(self, *words):
        """Whether the next token is one of these words of the grammar, or one of these signs."""
        return self.peek() != "" and self.peek().lower() in words

    def unexpected(self):
        raise Fault(f"Unexpected {self.place()}")

    def take(self, *words):
        if not self.has(*words):
            self.unexpected()
        self.at += 1

    def name(self):
        """A name, with its place."""
        word, place = self.peek(), self.place()
        if not re.match("[A-Za-z_]", word) or word.lower() in RESERVED:
            self.unexpected()
        if len(word) > 64:
            raise Fault(f"TooMany {place}")
        self.at += 1
        return word, place

    def number(self):
        if not self.peek().isdigit():
            self.unexpected()
        self.at += 1
        return int(self.tokens[self.at - 1][0])

    def count(self):
        """The number in brackets; a bound, where a `*` stands before it."""
        self.take("[")
        if self.has("*"):
            self.at += 1
            self.take(":")
        place, count = self.place(), self.number()
        if not 1 <= count <= 8_192:
            raise Fault(f"TooMany {place}")
        self.take("]")

    def spec(self):
        """A type: whether it is a port's."""
        if self.has("c_string"):
            self.at += 1
            self.count()
            return False
        if self.has("array", "struct"):
            self.at += 1
            self.count()
            self.take("of")
            return self.spec()
        place = self.place()
        if self.has("polymorphic"):
            raise Fault(f"LeftOut {place} Polymorphic")
        return self.type_named(*self.name())

    def type_named(self, word, place):
        """A type by its name: whether it is a port's."""
        basic = word[len("MACH_MSG_TYPE_") :] if word.startswith("MACH_MSG_TYPE_") else ""
        if basic in SIZED:
            raise Fault(f"Unexpected {place}")
        if basic in POLYMORPHIC:
            raise Fault(f"LeftOut {place} Polymorphic")
        if basic == "REAL":
            raise Fault(f"LeftOut {place} Real")
        if basic in BASICS:
            return basic in PORTS
        if word not in self.types:
            raise Fault(f"UnknownType {place}")
        return self.types[word]

    def directive(self):
        """A line of the preprocessor: the include line, or what is skipped."""
        line, place, _ = self.tokens[self.at]
        if re.fullmatch(r"#[ \t]*include[ \t]*<mach/std_types\.defs>[ \t\r]*", line):
            self.types.update(dict.fromkeys(DATA_TYPES, False), **dict.fromkeys(PORT_TYPES, True))
        elif not re.match(r"#[ \t]*([0-9]+|line)([ \t]|$)", line):
            raise Fault(f"LeftOut {place} Preprocessor")
        self.at += 1

    def directives(self):
        while self.peek().startswith("#"):
            self.directive()

    def argument(self, names):
        """An argument: its word, and whether it is a port's."""
        goes = ""
        if self.has("in", "out", "inout", "requestport", "replyport"):
            goes, self.at = self.peek().lower(), self.at + 1
        name, place = self.name()
        if name in names:
            raise Fault(f"TwiceNamed {place}")
        names.append(name)
        self.take(":")
        return goes, self.type_named(*self.name())

    def routine(self, known):
        name, place = self.name()
        if name in known:
            raise Fault(f"TwiceNamed {place}")
        known.append(name)
        self.take("(")
        names, arguments = [], []
        if not self.has(")"):
            arguments.append(self.argument(names))
            while self.has(";"):
                self.at += 1
                arguments.append(self.argument(names))
        if not self.has(")"):
            self.unexpected()
        if not arguments or arguments[0][0] not in ("", "in") or not arguments[0][1]:
            raise Fault(f"NoRequestPort {self.place()}")
        self.at += 1

    def statement(self, known):
        if self.has("type"):
            self.at += 1
            name, place = self.name()
            if name in self.types:
                raise Fault(f"TwiceNamed {place}")
            self.take("=")
            self.types[name] = self.spec()
        elif self.has("routine", "simpleroutine"):
            self.at += 1
            self.routine(known)
        else:
            self.take("skip")
        self.take(";")

    def read(self):
        self.directives()
        self.take("subsystem")
        while self.has("kernelserver", "kerneluser"):
            self.at += 1
        name, _ = self.name()
        self.number()
        self.take(";")
        known = []
        self.directives()
        while self.at < len(self.tokens):
            self.statement(known)
            self.directives()
        return name


def mig(text):
    """Whether a MIG file is read."""
    Mig(text).read()


# Wirings and policies

NAME = re.compile(r"[A-Za-z_][A-Za-z0-9_]{0,63}")


def words_of(text, kind):
    """The words of each line that has some, by its number, and the version; behind the heading."""
    lines = text.split("\n")
    if lines[-1] == "":
        lines.pop()
    if len(lines) > 65_535:
        raise Fault("BadLine 65536")
    lines = [re.split(r"[ \t\r]+", line.split("#")[0].replace(",", " , ")) for line in lines]
    lines = [(number, [word for word in words if word]) for number, words in enumerate(lines, 1)]
    lines = [(number, words) for number, words in lines if words]
    if not lines:
        raise Fault("BadLine 1")
    number, heading = lines[0]
    if len(heading) != 2 or heading[0] != kind or not re.fullmatch("[0-9]+", heading[1]):
        raise Fault(f"BadLine {number}")
    if int(heading[1]) not in {"wiring": (1, 2, 3), "policy": (1, 2)}[kind]:
        raise Fault("Version")
    return int(heading[1]), lines[1:]


def is_name(word):
    return NAME.fullmatch(word) is not None


def is_kind(word):
    return re.fullmatch("[0-9]+", word) is not None and int(word) <= 15


def items_of(words):
    """The items of a list, or None where it is none."""
    if words == ["none"]:
        return []
    items, rest = [], list(words)
    while True:
        if rest[:1] == ["destroyed"]:
            item, rest = ("destroyed",), rest[1:]
        elif len(rest) > 1 and rest[0] in ("request", "reply") and is_name(rest[1]):
            item, rest = (rest[0], rest[1]), rest[2:]
        else:
            return None
        items.append(item)
        if not rest:
            return items
        if rest[0] != ",":
            return None
        rest = rest[1:]


def class_of(words, version):
    """A class as its word, its name and its kind, or None where it is none."""
    if len(words) == 2 and words[0] in ("port", "task", "births") and is_name(words[1]):
        return words[0], words[1], 0
    is_of_kind = version > 1 and len(words) == 3 and words[0] == "births" and is_name(words[1]) and is_kind(words[2])
    return ("births", words[1], int(words[2])) if is_of_kind else None


def wiring_line(words, version):
    """What a line says: its word and its parts, or None where it says nothing."""
    word, count = words[0], len(words)
    if word == "task" and count == 2 and is_name(words[1]):
        return "task", words[1]
    if word == "port" and count > 5 and words[2] == "receiver" and words[4] == "accepts":
        items = items_of(words[5:])
        is_good = is_name(words[1]) and is_name(words[3]) and items is not None
        return ("port", words[1], words[3], items) if is_good else None
    if word == "births":
        has_kind = version > 1
        if count < 4 + has_kind or words[2 + has_kind] != "accepts" or not is_name(words[1]):
            return None
        items = items_of(words[3 + has_kind :])
        if items is None or has_kind and not is_kind(words[2]):
            return None
        return "births", words[1], int(words[2]) if has_kind else 0, items
    if word == "hold" and count == 5 and is_name(words[1]) and is_name(words[4]):
        said = words[2], words[3]
        is_good = said in (("send", "port"), ("once", "port"), ("send", "task"))
        return ("hold", words[1], said, words[4]) if is_good else None
    if word == "admit" and count > 2:
        parts = words[1].split(".")
        to = None if words[2:] == ["none"] else class_of(words[2:], version)
        is_good = len(parts) == 2 and all(map(is_name, parts)) and (to or words[2:] == ["none"])
        return ("admit", parts[0], parts[1], to) if is_good else None
    if version == 3 and words == ["replies", "fit"]:
        return ("replies fit",)
    if version == 3 and word == "trust" and count > 3 and is_name(words[1]):
        return trust_line(words[1], words[2], words[3:])
    return None


def trust_line(task, verb, words):
    """What a line about a trusted task says, or None if it says nothing."""
    if verb not in ("takes", "gives", "sends", "replies"):
        return None
    if words == ["none"]:
        return "trust", task, None
    if verb != "replies":
        if words[0] not in ("send", "receive", "once"):
            return None
        words = words[1:]
    to = class_of(words, 3)
    return ("trust", task, to) if to else None


def wiring_text(text):
    """What the lines of a wiring say, by their numbers."""
    version, lines = words_of(text, "wiring")
    said = []
    for number, words in lines:
        line = wiring_line(words, version)
        if line is None:
            raise Fault(f"BadLine {number}")
        said.append((number, line))
    return said


class Names:
    """The names of a wiring, line by line, over subsystems with the types of their slots."""

    def __init__(self, subsystems):
        self.subsystems, self.tasks, self.ports, self.kinds = subsystems, [], [], set()
        self.fits = False

    def need(self, number, *known):
        if not all(known):
            raise Fault(f"UnknownName {number}")

    def once(self, number, is_there):
        if is_there:
            raise Fault(f"TwiceNamed {number}")

    def has_items(self, items):
        return all(len(item) == 1 or item[1] in self.subsystems for item in items)

    def has_class(self, to):
        word, name, kind = to
        return name in (self.ports if word == "port" else self.tasks) and (kind == 0 or (name, kind) in self.kinds)

    def line(self, number, line):
        word = line[0]
        if word == "task":
            self.once(number, line[1] in self.tasks)
            self.tasks.append(line[1])
        elif word == "port":
            self.need(number, line[2] in self.tasks, self.has_items(line[3]))
            self.once(number, line[1] in self.ports)
            self.ports.append(line[1])
        elif word == "births":
            self.need(number, line[1] in self.tasks, self.has_items(line[3]))
            self.once(number, line[1:3] in self.kinds)
            self.kinds.add(line[1:3])
        elif word == "hold":
            self.need(number, line[1] in self.tasks, line[3] in (self.ports if line[2][1] == "port" else self.tasks))
        elif word == "trust":
            self.need(number, line[1] in self.tasks, line[2] is None or self.has_class(line[2]))
        elif word == "replies fit":
            self.once(number, self.fits)
            self.fits = True
        else:
            self.need(number, line[2] in self.subsystems.get(line[1], ()), line[3] is None or self.has_class(line[3]))


def names_of(text, subsystems):
    """The names of a wiring."""
    said, names = wiring_text(text), Names(subsystems)
    for number, line in said:
        names.line(number, line)
    return names


def policy_text(text):
    """What the lines of a policy forbid, by their numbers."""
    version, lines = words_of(text, "policy")
    said = []
    for number, words in lines:
        to = class_of(words[3:], version)
        is_good = words[0] == "forbid" and to and is_name(words[1]) and words[2] in ("send", "receive", "once")
        if not is_good:
            raise Fault(f"BadLine {number}")
        said.append((number, words[1], to))
    return said


# Messages


def word_at(data, at):
    return int.from_bytes(data[at : at + 4], "little")


def argument_at(data, at):
    """Where the argument that begins here ends, and whether it has port rights."""
    if at + 4 > len(data):
        raise Fault(f"Truncated {at}")
    first = word_at(data, at)
    name, size, number, start = first & 0xFF, first >> 8 & 0xFF, first >> 16 & 0xFFF, at + 4
    if first >> 30:
        raise Fault(f"BadDesc {at}")
    if first & 1 << 29:
        if at + 12 > len(data):
            raise Fault(f"Truncated {at}")
        second = word_at(data, at + 4)
        name, size, number, start = second & 0xFFFF, second >> 16, word_at(data, at + 8), at + 12
    if size == 0 or size % 8 or name > 21 or name >= 16 and size != 32:
        raise Fault(f"BadDesc {at}")
    if not first & 1 << 28:
        raise Fault(f"OutOfLine {at}")
    length = number * size // 8
    if start + (length + 3) // 4 * 4 > len(data):
        raise Fault(f"Truncated {at}")
    return start + (length + 3) // 4 * 4, name >= 16


def message(data):
    """Whether a message is read."""
    if len(data) < 24:
        raise Fault("TooShort")
    if len(data) > 8_192:
        raise Fault("TooLong")
    bits = word_at(data, 0)
    remote, local = bits & 0xFF, bits >> 8 & 0xFF
    if not 17 <= remote <= 21 or not (17 <= local <= 21 or local == 0 == word_at(data, 12)):
        raise Fault("BadHeaderDisp")
    at, has_ports = 24, False
    while at < len(data):
        at, is_port = argument_at(data, at)
        has_ports |= is_port
    if has_ports != bool(bits & 1 << 31):
        raise Fault("ComplexDiffers")


# Scripts

NUMBER, RIGHT, DISPOSITION, DELTA = "number", "right", "disposition", "delta"
CALLS = {
    "allocate": [(NUMBER, RIGHT), (NUMBER, RIGHT, NUMBER)], "get_refs": [(NUMBER, NUMBER, RIGHT)],
    "insert_right": [(NUMBER, NUMBER, NUMBER, DISPOSITION)], "extract_right": [(NUMBER, NUMBER, DISPOSITION)],
    "set_qlimit": [(NUMBER, NUMBER, NUMBER)], "type": [(NUMBER, NUMBER)], "names": [(NUMBER,)],
    "rename": [(NUMBER, NUMBER, NUMBER)], "deallocate": [(NUMBER, NUMBER)], "destroy": [(NUMBER, NUMBER)],
    "mod_refs": [(NUMBER, NUMBER, RIGHT, DELTA)], "move_member": [(NUMBER, NUMBER, NUMBER)],
    "request_notification": [(NUMBER, NUMBER, NUMBER, NUMBER, NUMBER, DISPOSITION)], "task_create": [(NUMBER,)],
    "task_terminate": [(NUMBER,)], "receive": [(NUMBER, NUMBER)],
}


def is_parameter(word, kind):
    if kind == RIGHT:
        return word in ("send", "receive", "once", "set", "dead")
    if kind == DELTA:
        return re.fullmatch("-?[0-9]+", word) is not None and -(2**31) <= int(word) < 2**31
    is_number = re.fullmatch("[0-9]+", word) is not None and int(word) < 2**32
    return is_number and (kind == NUMBER or 16 <= int(word) <= 21)


def is_call(words, tasks):
    """Whether the words of a line are a call of a replay."""
    if len(words) < 2:
        return False
    is_child = re.fullmatch("@[0-9]+", words[0]) is not None and len(tasks) <= int(words[0][1:]) < 2**32
    if words[0] not in tasks and not is_child:
        return False
    if words[1] == "send":
        digits = "".join(words[2:])
        if not re.fullmatch("([0-9A-Fa-f]{2})*", digits):
            return False
        try:
            message(bytes.fromhex(digits))
        except Fault:
            return False
        return True
    return any(
        len(kinds) == len(words) - 2 and all(map(is_parameter, words[2:], kinds)) for kinds in CALLS.get(words[1], [])
    )


def script(text, tasks):
    """Whether a script of these tasks is read."""
    for number, line in enumerate(text.split("\n"), 1):
        words = [word for word in re.split(r"[ \t\r]+", line.split("#")[0]) if word]
        if words and not is_call(words, tasks):
            raise Fault(f"BadLine {number}")


# Certificates


def certificate(data):
    """Whether a certificate is read."""
    if data[:4] != b"MRCC":
        raise Fault("Magic")
    fields = lambda *places: [int.from_bytes(data[at : at + size], "big") for at, size in places]
    if len(data) >= 6 and fields((4, 2))[0] not in (1, 2):
        raise Fault("Version")
    version = fields((4, 2))[0]
    start = 16 if version == 2 else 14
    if version == 2 and len(data) >= 12:
        tasks, births = fields((6, 2), (10, 2))
        if births <= tasks:
            raise Fault("Version")
    if len(data) < 6 or len(data) < start:
        raise Fault("Truncated")
    tasks, classes, count = fields((6, 2), (8, 2), (start - 4, 4))
    before = b""
    for at in range(start, start + 6 * count, 6):
        fact = data[at : at + 6]
        if len(fact) < 6:
            raise Fault("Truncated")
        kind, first, second, last = fact[0], int.from_bytes(fact[1:3], "big"), int.from_bytes(fact[3:5], "big"), fact[5]
        is_fact = kind in (1, 2, 3) and first < (tasks if kind == 1 else classes) and second < classes
        if not is_fact or last > (0 if kind == 3 else 2):
            raise Fault(f"BadFact {at}")
        if fact <= before:
            raise Fault(f"NotAscending {at}")
        before = fact
    if len(data) > start + 6 * count:
        raise Fault("Trailing")


# The texts

FSYS = f"""subsystem fsys 3000;
{INCLUDE}
type file_t = MACH_MSG_TYPE_COPY_SEND;
type path_t = c_string[64];
routine open(root : mach_port_t; in path : path_t; out file : file_t);
"""
TWO = f"""subsystem two 1000;
{INCLUDE}
routine first(server : mach_port_t; in n : int; out m : int);
skip;
routine third(server : mach_port_t);
"""
PING = f"""subsystem ping 500;
{INCLUDE}
simpleroutine ping(server : mach_port_t);
"""
XFER = f"""subsystem xfer 2000;
{INCLUDE}
type box_t = MACH_MSG_TYPE_MOVE_RECEIVE;
simpleroutine hand(server : mach_port_t; in box : box_t);
"""
LOOK = f"""subsystem look 2100;
{INCLUDE}
simpleroutine show(server : mach_port_t; in p : mach_port_t);
"""
# Each subsystem with the types of its slots.
SLOTS = {"fsys": ["file_t"], "two": [], "ping": [], "xfer": ["box_t"], "look": ["mach_port_t"]}

LOADER = "wiring 1\ntask l\ntask f\nhold l send task f\n"
FILES = """wiring 1
task app
task fs
port root receiver fs accepts request fsys
births app accepts reply fsys
hold app send port root
admit fsys.file_t births fs
"""
PINGED = "wiring 1\ntask a\nbirths a accepts request ping\n"
HANDED = "wiring 1\ntask a\nbirths a accepts request xfer\n"
INBOX = """wiring 1
task a
task b
port inbox receiver b accepts request xfer
port safe receiver a accepts destroyed
hold a send port inbox
admit xfer.box_t births a
"""
KINDS = """wiring 2 # kinds of births
task app
task fs
port root receiver fs accepts request fsys, destroyed
births app 0 accepts reply fsys
births fs 1 accepts none

hold app once port root
hold fs send task app
admit fsys.file_t births fs 1
admit fsys.file_t port root
"""
TRUSTED = """wiring 3
task app
task fs
births fs 1 accepts reply fsys
hold app send task fs
replies fit
trust app takes send births fs 1 # files
trust app gives none
trust fs sends once births app
trust fs replies births fs 1
trust fs replies none
"""
FORBIDDEN = "policy 1\nforbid app send task fs\n\nforbid fs receive port root # never\nforbid app once births app"
FORBIDDEN_KINDS = "policy 2\nforbid app send births fs\nforbid app receive births fs 1\n"

HAND = "13000080 20000000 03000000 00000000 00000000 d0070000 10200110 04000000"
LONG = """13150000 34000000 03000000 05000000 00000000 b80b0000 00000030 0c000800 05000000 2f657463 00ffffff 02200110
07000000"""
NOTICE = f"""a allocate 1 receive
a request_notification 1 4 69 0 2 21 # of a destroyed port
a send {HAND}
b destroy 1 2
a receive 2 32
@2 type 1 3

a mod_refs 1 2 send -1
b allocate 1 receive 0
"""
ALONE = "4d524343 0001 0001 0002 00000004 010000000000 010000000100 010000000101 010000000102"
FILE_SERVER = """4d524343 0001 0002 0005 00000012
010000000000 010000000100 010000000300 010000000301 010000000302 010000000400 010001000000 010001000001 010001000002
010001000200 010001000302 010001000400 010001000401 010001000402 020000000002 020000000302 020000000402 020003000400"""
OF_KINDS = "4d524343 0002 0001 0003 0002 00000002 010000000100 010000000200"


def folded(text):
    """A text on one line, as cases have it."""
    return text.replace("\\", "\\\\").replace("\n", "\\n").replace("{", "\\{")


def cases():
    """Each case: what stands before the part, the part, what stands behind it, and the reader of a prefix."""
    for text in (FSYS, TWO, PING, XFER, LOOK):
        yield "forms", "", text, "", mig
    all_defs = "&".join((FSYS, TWO, PING, XFER, LOOK))
    for text in (LOADER, FILES, PINGED, HANDED, INBOX, KINDS, TRUSTED):
        yield "wiring", "", text, "", wiring_text
        yield "resolved", f"classes|{all_defs}|", text, "", lambda text: names_of(text, SLOTS)
    for wiring, text in ((FILES, FORBIDDEN), (KINDS, FORBIDDEN_KINDS)):
        yield "policy", "", text, "", policy_text
        yield "resolved", f"claim|{FSYS}|{wiring}|", text, "", lambda text, wiring=wiring: claim(text, wiring)
    yield "script", f"{INBOX}|", NOTICE, f"|{XFER}", lambda text: script(text, ["a", "b"])
    for text in (ALONE, FILE_SERVER, OF_KINDS):
        yield "certificate", "", text, "", certificate
    for text in (HAND, LONG):
        yield "message", "", text, "", message


def claim(text, wiring):
    """Whether the names of a policy are those of a wiring."""
    said, names = policy_text(text), names_of(wiring, SLOTS)
    for number, task, to in said:
        if task not in names.tasks or not names.has_class(to):
            raise Fault(f"UnknownName {number} true")


def answer(reader, prefix):
    try:
        reader(prefix)
    except Fault as fault:
        return str(fault)
    return "ok"


def runs(reader, part):
    """The answers for each number of bytes, of which those that are equal and follow each other stand once."""
    answers = [answer(reader, part[:count]) for count in range(len(part) + 1)]
    starts = [at for at in range(len(answers)) if at == 0 or answers[at] != answers[at - 1]]
    ends = [at - 1 for at in starts[1:]] + [len(answers) - 1]
    return "; ".join(
        f"{start} {answers[start]}" if start == end else f"{start}-{end} {answers[start]}"
        for start, end in zip(starts, ends)
    )


def pairs():
    """The line of each case, and that of its answer."""
    for kind, before, part, behind, reader in cases():
        if kind in ("certificate", "message"):
            digits = "".join(part.split())
            yield f"prefixes {kind}:{digits}", runs(reader, bytes.fromhex(digits))
        elif kind == "script":
            yield f"prefixes {folded(before)}{folded(part)}{folded(behind)}", runs(reader, part)
        else:
            yield f"prefixes {kind}:{folded(before)}~{folded(part)}~{folded(behind)}", runs(reader, part)


def main():
    found = list(pairs())
    if sys.argv[1:] == ["lines"]:
        for case, said in found:
            print(case, said, sep="\n")
        return 0
    lines = zip((CASES / "stdin").read_text().split("\n"), (CASES / "stdout").read_text().split("\n"))
    stand = {case: said for case, said in lines if case.startswith("prefixes ")}
    scripts = SCRIPTS.read_text().split("\n")
    stand |= {case: said[2:] for case, said in zip(scripts, scripts[1:]) if case.startswith("prefixes ")}
    wrong = [case for case, said in found if stand.get(case) != said]
    for case in wrong:
        has = stand.get(case, "no such case")
        print(f"failed: {case[:100]}..\n  worked out: {dict(found)[case]}\n  it has:     {has}")
    print(f"{len(found) - len(wrong)} passed, {len(wrong)} failed")
    return 1 if wrong else 0


sys.exit(main())
