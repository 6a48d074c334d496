"""Systems once more, apart from machcheck: what MIG files, a wiring and a policy mean, in plain Python.

Written from docs/FORMATS.md, docs/MIG.md and the definitions of mrc_model, mrc_wiring and mrc_interface, not from the
program. It reads texts that have no fault, and sees none where there is one. Here are the least set of facts, the
verdict of a policy, the steps of a chain and what they name, a search for the shortest chain, and the changes that mend
a NO.
"""

import functools
import heapq
import itertools
import re
import struct
from dataclasses import dataclass, field, replace

import policy3
from expand import Stood, version_of

SEND, RECEIVE, ONCE = 0, 1, 2
RIGHTS = ["send", "receive", "once"]
HOLD, CARRY, BACKUP = 1, 2, 3

# What lines about trusted tasks limit: what a task takes from others, gives to them, sends in slots, and names as the
# ports of its replies.
VERBS = ["takes", "gives", "sends", "replies"]

# A fact is a tuple of numbers, which sort as its bytes in a certificate do: (HOLD, task, class, right), (CARRY,
# destination, class, right), (BACKUP, class, destination, 0).

# The right that a disposition needs, and the one that it gives.
NEEDS = {16: RECEIVE, 17: SEND, 18: ONCE, 19: SEND, 20: RECEIVE, 21: RECEIVE}
GIVES = {16: RECEIVE, 17: SEND, 18: ONCE, 19: SEND, 20: SEND, 21: ONCE}

# How a fact is printed, and what stands for the source of a step where none is asked for.
FACT = r"(hold \S+ \S+ \S+|carry \S+ \S+ \S+|backup \S+ \S+)"
NO_SOURCE = object()

BASICS = {
    "BOOLEAN": 0, "INTEGER_16": 1, "INTEGER_32": 2, "CHAR": 8, "BYTE": 9, "INTEGER_8": 9, "STRING": 12,
    "STRING_C": 12, "PORT_NAME": 15, "MOVE_RECEIVE": 16, "MOVE_SEND": 17, "MOVE_SEND_ONCE": 18, "COPY_SEND": 19,
    "MAKE_SEND": 20, "MAKE_SEND_ONCE": 21,
}
STANDARD = {
    "char": 8, "short": 1, "int": 2, "unsigned": 2, "integer_t": 2, "natural_t": 2, "kern_return_t": 2,
    "boolean_t": 0, "mach_port_name_t": 15, "mach_port_t": 19, "mach_port_copy_send_t": 19,
    "mach_port_move_receive_t": 16, "mach_port_move_send_t": 17, "mach_port_move_send_once_t": 18,
    "mach_port_make_send_t": 20, "mach_port_make_send_once_t": 21,
}
# What edition 2 knows besides, as far as the examples have it. Where the sender picks a disposition, the facts are those of
# one: whoever holds a receive right may hold the others too. `polymorphic` is read of arguments that are in no body.
PICKED = {"PORT_RECEIVE": 16, "PORT_SEND": 19, "PORT_SEND_ONCE": 18}
POLYMORPHIC = -1
SECOND_BASICS = {**BASICS, **PICKED, "UNSTRUCTURED": 0, "BIT": 0, "REAL": 10, "INTEGER_64": 11, "POLYMORPHIC": POLYMORPHIC}
SECOND = {
    **STANDARD,
    **dict.fromkeys(["int32_t", "uint32_t", "rpc_long_natural_t", "rpc_long_integer_t", "mach_msg_type_number_t"], 2),
    **dict.fromkeys(["int64_t", "uint64_t"], 11),
    "mach_port_receive_t": 16, "mach_port_send_t": 19, "mach_port_send_once_t": 18, "mach_port_poly_t": POLYMORPHIC,
    "pointer_t": 9, "mach_port_array_t": 19,
}
# The disposition with which the stubs of a kernel's server send a reply: that which is received.
RECEIVED = {16: 16, 17: 17, 18: 18, 19: 17, 20: 17, 21: 18}


# MIG files


@dataclass(frozen=True)
class Slot:
    """An argument of a form that carries port rights, with the name of its type."""

    argument: str
    disposition: int
    type: str


@dataclass(frozen=True)
class Form:
    """The message of a routine: `kind` is routine, simple or replied for a request, else reply."""

    routine: str
    id: int
    kind: str
    slots: tuple


@dataclass
class Interface:
    """What a MIG file says. The forms stand by ascending ids."""

    name: str
    requests: list = field(default_factory=list)
    replies: list = field(default_factory=list)

    def has_routine(self):
        return any(form.kind == "routine" for form in self.requests)

    def brings_reply(self):
        """Whether a request may bring a reply right: that of a routine, or of a simpleroutine with a reply port."""
        return any(form.kind in ("routine", "replied") for form in self.requests)

    def types(self):
        """The names of the types of its slots."""
        return sorted({slot.type for form in self.requests + self.replies for slot in form.slots})


# Arguments that are in no body, the first three of them ports for replies.
NO_BODY = ["replyport", "ureplyport", "sreplyport", "waittime", "msgoption", "msgseqno"]


class Mig:
    """Reads a MIG file token by token, of edition 2 if its first line says so. Of a type only the number is kept."""

    def __init__(self, text):
        self.is_second = text.startswith("#pragma machcheck 2\n")
        self.is_kernels = False
        self.basics = SECOND_BASICS if self.is_second else BASICS
        text = re.sub(r"/\*.*?\*/", " ", text, flags=re.S)
        if re.search(r"(?m)^\s*#include\s*<mach/std_types\.defs>", text):
            self.types = dict(SECOND if self.is_second else STANDARD)
        else:
            self.types = {}
        text = re.sub(r"(?m)^\s*#.*$", "", text)
        self.tokens, self.at = re.findall(r'[A-Za-z_]\w*|\d+|"[^"\n]*"|<[^>\n]*>|[^\s\w]', text), 0

    def next(self, *wanted):
        token = self.tokens[self.at]
        assert not wanted or token.lower() in wanted, f"{token} in the place of {wanted}"
        self.at += 1
        return token

    def has(self, *words):
        return self.at < len(self.tokens) and self.tokens[self.at].lower() in words

    def skip_to(self, *signs):
        """Skips what stands before one of these signs, outside parentheses and braces."""
        depth = 0
        while depth or not self.has(*signs):
            depth += {"(": 1, "{": 1, ")": -1, "}": -1}.get(self.next(), 0)

    def spec(self):
        """The number of a type: a struct with fields is sent as numbers."""
        if self.has("^"):
            self.next()
            return self.spec()
        if self.has("array", "struct"):
            self.next()
            if self.has("{"):
                self.skip_to(";", ")")
                return 2
            self.next("[")
            self.skip_to("]")
            self.next()
            self.next("of")
            return self.spec()
        if self.has("c_string"):
            self.next()
            self.skip_to("]")
            self.next()
            return 12
        if self.has("("):
            self.next()
            number = self.basic(self.next())
            self.skip_to(")")
            self.next()
            return number
        number = self.basic(self.next())
        if self.has("|"):
            self.next()
            self.basic(self.next())
        return number

    def basic(self, name):
        """The number of a type by its name."""
        if name == "polymorphic":
            return POLYMORPHIC
        return self.basics[name[len("MACH_MSG_TYPE_") :]] if name.startswith("MACH_MSG_TYPE_") else self.types[name]

    def argument(self):
        """Where an argument goes, or None where no word says it, its name, its type and that one's number."""
        goes = self.next().lower() if self.has("in", "out", "inout", "requestport", *NO_BODY) else None
        name = self.next()
        self.next(":")
        of = self.next()
        if self.has("="):
            self.next()
            number = self.spec()
        else:
            number = self.types[of]
        self.skip_to(";", ")")
        return goes, name, of, number

    def arguments(self):
        """The arguments that go in a body."""
        found = []
        self.next("(")
        while not self.has(")"):
            found.append(self.argument())
            if self.has(";"):
                self.next()
        self.next(")")
        self.has_reply_port = any(goes in NO_BODY[:3] for goes, *_ in found)
        if not any(goes == "requestport" for goes, *_ in found):
            found = found[1:]
        return [(goes or "in", *rest) for goes, *rest in found if goes not in ("requestport", *NO_BODY)]

    def forms(self, kind, id):
        """The forms of a routine: its request, and its reply where it has one."""
        name, arguments = self.next(), self.arguments()
        assert all(number != POLYMORPHIC for *_, number in arguments), "polymorphic in a body is not read"
        slots = [(goes, Slot(name, number, of)) for goes, name, of, number in arguments if number in NEEDS]
        going = {way: tuple(slot for goes, slot in slots if goes in (way, "inout")) for way in ("in", "out")}
        if self.is_second and self.is_kernels:
            going["out"] = tuple(replace(slot, disposition=RECEIVED[slot.disposition]) for slot in going["out"])
        replies = [Form(name, id + 100, "reply", going["out"])] if kind == "routine" else []
        simple = "replied" if self.is_second and self.has_reply_port else "simple"
        return [Form(name, id, "routine" if replies else simple, going["in"])], replies

    def interface(self):
        self.next("subsystem")
        while self.has("kernelserver", "kerneluser"):
            self.is_kernels |= self.next().lower() == "kernelserver"
        made, id = Interface(self.next()), int(self.next())
        self.next(";")
        while self.at < len(self.tokens):
            word = self.next().lower()
            if word == "type":
                name = self.next()
                self.next("=")
                self.types[name] = self.spec()
            elif word in ("routine", "simpleroutine"):
                requests, replies = self.forms(word, id)
                made.requests += requests
                made.replies += replies
            id += int(self.next()) if word == "skip" and not self.has(";") else word in ("routine", "simpleroutine", "skip")
            self.skip_to(";")
            self.next()
        return made


# Texts of lines


def lines_of(text):
    """The words of each line that has some, by its number, but for the heading."""
    lines = [line.split("#")[0].replace(",", " , ").split() for line in text.split("\n")]
    return [(number, words) for number, words in enumerate(lines, 1) if words][1:]


@dataclass(frozen=True)
class Class:
    """A class: of a port, of a task's kernel port, or of a task's births of a kind."""

    sort: str
    name: str
    kind: int = 0

    def text(self):
        """As texts have it."""
        return f"{self.sort} {self.name} {self.kind}" if self.kind else f"{self.sort} {self.name}"

    def word(self):
        """As it is printed."""
        return self.text().replace(" ", ":")


def class_of(words):
    return Class(words[0], words[1], int(words[2]) if len(words) > 2 else 0)


def items_of(words):
    """The items of a label: the word of each, and its interface where it has one."""
    parts = [list(part) for is_comma, part in itertools.groupby(words, lambda word: word == ",") if not is_comma]
    return [] if words == ["none"] else [(part[0], part[1] if len(part) > 1 else None) for part in parts]


class System:
    """A wiring over MIG files: what its lines mean, by numbers of tasks and classes. The lines of one of version 4 are those
    that it stands for, each with the number of the line that stands for it."""

    def __init__(self, defs, wiring):
        self.interfaces = {made.name: made for made in (Mig(text).interface() for text in defs)}
        self.text, self.lines, self.members = wiring, lines_of(wiring), {}
        if version_of(wiring)[0] == 4:
            stood = Stood(wiring)
            self.lines, self.members = stood.lines, stood.members
        self.tasks, ports, said = [], [], {}
        for _, (word, name, *rest) in self.lines:
            if word == "task":
                self.tasks.append(name)
            elif word == "port":
                ports.append(Class("port", name))
                said[ports[-1]] = items_of(rest[3:])
            elif word == "births":
                at = rest.index("accepts")
                said[Class("births", name, int(rest[0]) if at else 0)] = items_of(rest[at + 1 :])
        births = {Class("births", task) for task in self.tasks} | {c for c in said if c.sort == "births"}
        self.births = sorted(births, key=lambda c: (self.tasks.index(c.name), c.kind))
        self.classes = ports + [Class("task", task) for task in self.tasks] + self.births
        self.ports, self.number = len(ports), {c: number for number, c in enumerate(self.classes)}
        self.labels = [said.get(c, []) for c in self.classes]
        self.read_holdings()
        self.read_admits()
        self.read_slots()
        self.read_trust()

    def named(self, words):
        """The classes that CLASS of a policy names: those of births, and then the wired ports that are such births."""
        c = class_of(words)
        ports = self.members.get((c.name, c.kind), []) if c.sort == "births" else []
        return [self.number[c], *(self.number[Class("port", port)] for port in ports)]

    @functools.cached_property
    def standing(self):
        """What the lines of the wiring have named."""
        return Stood(self.text).standing

    def numbered(self, fact):
        """The hold of a task, a right, and the words of a class."""
        task, right, c = fact
        return HOLD, self.tasks.index(task), self.number[class_of(c)], RIGHTS.index(right)

    def named_holds(self, facts):
        """The holds of a set of facts, as tasks, rights, and words of classes."""
        words = [tuple(c.text().split(" ")) for c in self.classes]
        return {(self.tasks[t], RIGHTS[r], words[c]) for kind, t, c, r in facts if kind == HOLD}

    def kernel(self, task):
        """The class of a task's kernel port."""
        return self.ports + task

    def births_of(self, task):
        """The classes of a task's births."""
        return [self.number[c] for c in self.births if c.name == self.tasks[task]]

    def read_holdings(self):
        """What lines give, with the numbers of the lines that do."""
        self.given, self.holds = {}, []
        for line, words in self.lines:
            if words[0] == "task":
                task = self.tasks.index(words[1])
                fact = HOLD, task, self.kernel(task), SEND
            elif words[0] == "port":
                fact = HOLD, self.tasks.index(words[3]), self.number[Class("port", words[1])], RECEIVE
            elif words[0] == "hold":
                fact = HOLD, self.tasks.index(words[1]), self.number[class_of(words[3:])], RIGHTS.index(words[2])
                self.holds.append(line)
            else:
                continue
            self.given.setdefault(fact, []).append(line)

    def read_admits(self):
        """The admit lines of each type: the classes that a line names, by its number."""
        self.admitted = {}
        for line, words in self.lines:
            if words[0] == "admit":
                lines = self.admitted.setdefault(tuple(words[1].split(".")), {})
                classes = lines.setdefault(line, [])
                if words[2] != "none":
                    classes.append(self.number[class_of(words[2:])])

    def forms(self, c):
        """The forms that a class accepts, each with the name of its interface, in the order of its label."""
        for word, name in self.labels[c]:
            if word != "destroyed":
                found = self.interfaces[name]
                yield from ((name, form) for form in (found.requests if word == "request" else found.replies))

    def read_slots(self):
        """The slots of each class, as dispositions and types, and what else it accepts."""
        every = range(len(self.classes))
        self.slots = [
            sorted({(slot.disposition, (name, slot.type)) for name, form in self.forms(c) for slot in form.slots})
            for c in every
        ]
        self.takes_notices = [("destroyed", None) in self.labels[c] for c in every]

    def read_trust(self):
        """The rights on classes that lines of each verb leave a task, and the first line about each task."""
        self.limits, self.trusted = {verb: {} for verb in VERBS}, {}
        self.replies_fit = any(words == ["replies", "fit"] for _, words in self.lines)
        for line, words in self.lines:
            if words[0] == "trust":
                task, verb, rest = self.tasks.index(words[1]), words[2], words[3:]
                self.trusted.setdefault(task, line)
                left = self.limits[verb].setdefault(task, set())
                if rest != ["none"]:
                    right, *named = ["once", *rest] if verb == "replies" else rest
                    left.add((self.number[class_of(named)], RIGHTS.index(right)))

    def may(self, verb, task, c, right):
        """Whether the lines of a verb let a task do so with a right on a class: no line of the verb names the task, or
        one of those names the right on the class."""
        return task not in self.limits[verb] or (c, right) in self.limits[verb][task]

    def answered(self, d, c):
        """The interfaces whose requests to class d carry a right to reply at a port of class c: one of them may
        and, if replies have to fit, c accepts their replies."""
        for word, name in self.labels[d]:
            if word == "request" and self.interfaces[name].brings_reply():
                if not self.replies_fit or ("reply", name) in self.labels[c]:
                    yield name

    def types(self):
        """The types of slots, each with its interface."""
        return [(name, of) for name, found in self.interfaces.items() for of in found.types()]

    def admits(self, of, c):
        """Whether a type admits a class."""
        return of not in self.admitted or any(c in classes for classes in self.admitted[of].values())

    # The ten rules

    def instances(self, facts):
        """Each instance of a rule whose premises are among the facts: the rule, the premises and the conclusion."""
        rights, carried, backups = {}, {}, {}
        for kind, a, b, right in facts:
            if kind == HOLD:
                rights.setdefault(a, set()).add((b, right))
            elif kind == CARRY:
                carried.setdefault(a, set()).add((b, right))
            else:
                backups.setdefault(a, set()).add(b)
        yield from ((1, (), fact) for fact in self.given)
        yield from ((2, (), (HOLD, t, c, RECEIVE)) for t in range(len(self.tasks)) for c in self.births_of(t))
        for t, held in rights.items():
            for d, right in held:
                if right == RECEIVE:
                    yield from self.by_receive(t, d, held, carried, backups)
                else:
                    yield from self.by_sending(t, d, right, held)
                u = d - self.ports
                if right == SEND and 0 <= u < len(self.tasks):
                    yield from self.by_kernel(t, u, held, rights.get(u, set()))
        for c in backups:
            yield from ((9, ((BACKUP, c, d, 0),), (CARRY, d, c, RECEIVE)) for d in backups[c])

    def by_receive(self, t, c, held, carried, backups):
        """Those of a task that may hold a receive right on a class."""
        own = HOLD, t, c, RECEIVE
        yield 3, (own,), (HOLD, t, c, SEND)
        yield 3, (own,), (HOLD, t, c, ONCE)
        yield from ((6, (own, (CARRY, c, d, r)), (HOLD, t, d, r)) for d, r in carried.get(c, ()))
        for d, r in held:
            if r == ONCE and self.takes_notices[d]:
                yield 8, (own, (HOLD, t, d, ONCE)), (BACKUP, c, d, 0)
        yield from ((10, (own, (BACKUP, c, d, 0)), (HOLD, t, d, ONCE)) for d in backups.get(c, ()))

    def by_sending(self, t, d, right, held):
        """Those of a task that may send to a class by a right."""
        own = HOLD, t, d, right
        for c, r in held:
            for disposition, of in self.slots[d]:
                given = GIVES[disposition]
                if NEEDS[disposition] == r and self.admits(of, c) and self.may("sends", t, c, given):
                    yield 4, (own, (HOLD, t, c, r)), (CARRY, d, c, given)
            if r == ONCE and self.may("replies", t, c, ONCE) and any(self.answered(d, c)):
                yield 5, (own, (HOLD, t, c, ONCE)), (CARRY, d, c, ONCE)

    def by_kernel(self, t, u, held, other):
        """Those of a task that may hold the kernel port of u: it takes from u and gives to u what it may."""
        own = HOLD, t, self.kernel(u), SEND
        taken = [(c, r) for c, r in other if self.may("takes", t, c, r)]
        given = [(c, r) for c, r in held if self.may("gives", t, c, r)]
        yield from ((7, (own, (HOLD, u, c, r)), (HOLD, t, c, r)) for c, r in taken)
        yield from ((7, (own, (HOLD, t, c, r)), (HOLD, u, c, r)) for c, r in given)

    def least(self):
        """The least set of facts: instances are added until nothing is new."""
        facts, before = set(), -1
        while before != len(facts):
            before = len(facts)
            facts |= {fact for _, _, fact in self.instances(facts)}
        return facts

    # Texts of facts

    def fact_text(self, fact):
        """A fact as it is printed."""
        kind, a, b, right = fact
        if kind == HOLD:
            return f"hold {self.tasks[a]} {self.classes[b].word()} {RIGHTS[right]}"
        behind = f" {RIGHTS[right]}" if kind == CARRY else ""
        return f"{'carry' if kind == CARRY else 'backup'} {self.classes[a].word()} {self.classes[b].word()}{behind}"

    def class_named(self, word):
        """The number of a class as it is printed."""
        return [c.word() for c in self.classes].index(word)

    def fact_of(self, text):
        """The fact of a printed text."""
        word, first, second, *right = text.split(" ")
        if word == "hold":
            return HOLD, self.tasks.index(first), self.class_named(second), RIGHTS.index(right[0])
        right = RIGHTS.index(right[0]) if word == "carry" else 0
        return CARRY if word == "carry" else BACKUP, self.class_named(first), self.class_named(second), right

    # Chains

    def names_source(self, rule, premises, fact, source):
        """Whether what stands behind `by` is where a step comes from; `source` is None where nothing does."""
        if rule == 1:
            return source in [f"line {line}" for line in self.given[fact]]
        if rule == 4:
            return source == next(self.slots_for(premises, fact))
        if rule == 5:
            return source == next(self.answered(fact[1], fact[2]))
        if rule == 7:
            return source == f"task:{self.tasks[premises[0][2] - self.ports]}"
        return source is None

    def slots_for(self, premises, fact):
        """The slots by which a step of rule 4 may go, in the order of the label, its forms and their arguments."""
        _, d, c, right = fact
        for name, form in self.forms(d):
            for slot in form.slots:
                does = NEEDS[slot.disposition] == premises[-1][3] and GIVES[slot.disposition] == right
                if does and self.admits((name, slot.type), c):
                    yield f"{name}.{form.routine}.{slot.argument} ({name}.{slot.type})"

    def is_step(self, rule, premises, fact, source):
        """Whether the rule concludes the fact from these premises, of which two that are one are told once; and whether
        it comes from this source, where one is asked for (`source` is no NO_SOURCE)."""
        for k, whole, concluded in self.instances(premises):
            if (k, concluded) == (rule, fact) and tuple(dict.fromkeys(whole)) == premises:
                return source is NO_SOURCE or self.names_source(rule, whole, fact, source)
        return False

    def wrong_step(self, told, has_sources=False):
        """The first line of a chain that is no step from steps before it, or None."""
        known = []
        for number, line in enumerate(told):
            parts = re.fullmatch(rf"(\d+) K(\d+) {FACT}(?: from (\d+)(?: (\d+))?)?(?: by (.+))?", line)
            if not parts or int(parts[1]) != number:
                return line
            fact = self.fact_of(parts[3])
            places = [int(place) for place in parts.groups()[3:5] if place]
            if len(set(places)) != len(places) or any(place >= number for place in places):
                return line
            source = parts[6] if has_sources else NO_SOURCE
            if not self.is_step(int(parts[2]), tuple(known[place] for place in places), fact, source):
                return line
            known.append(fact)
        return None

    def wrong_tree(self, told, goal):
        """The first line of a tree that is not in its place, or None. Lines are numbered from 1, each premise stands
        two blanks deeper below what it serves, and a fact that was told is told again by the number of its line."""
        whole, premises, path = {}, {}, []
        for number, line in enumerate(told, 1):
            parts = re.fullmatch(rf"((?:  )*)(\d+) (?:K(\d+) {FACT}(?: by (.+))?|{FACT} \(see (\d+)\))", line)
            if not parts or int(parts[2]) != number:
                return line
            depth, fact = len(parts[1]) // 2, self.fact_of(parts[4] or parts[6])
            if depth > len(path) or (depth == 0) != (number == 1) or (fact in whole) != bool(parts[7]):
                return line
            if parts[7] and int(parts[7]) != whole[fact]:
                return line
            del path[depth:]
            if path:
                premises[path[-1]][1].append(fact)
            if not parts[7]:
                whole[fact], premises[fact] = number, (line, [], int(parts[3]), parts[5])
                path.append(fact)
        return self.wrong_premises(premises, goal)

    def wrong_premises(self, premises, goal):
        """The line of a fact that does not follow from its premises, each of which follows before it; or None."""
        known, before = set(), -1
        while before != len(known):
            before = len(known)
            known |= {fact for fact, (_, below, *_) in premises.items() if known.issuperset(below)}
        for fact, (line, below, rule, source) in premises.items():
            if fact not in known or not self.is_step(rule, tuple(below), fact, source):
                return line
        return None if next(iter(premises), None) == goal else "it is the tree of another fact"


# Certificates


def facts_of(certificate):
    """The facts of a certificate of either version."""
    start = 16 if certificate[4:6] == b"\0\2" else 14
    return list(struct.iter_unpack(">BHHB", certificate[start:]))


def certificate_of(system, facts):
    """The bytes of the certificate of a system with these facts."""
    tasks, births = len(system.tasks), len(system.births)
    version = struct.pack(">4sHHH", b"MRCC", 1 if births == tasks else 2, tasks, len(system.classes))
    head = version if births == tasks else version + struct.pack(">H", births)
    return head + struct.pack(">I", len(facts)) + b"".join(struct.pack(">BHHB", *fact) for fact in sorted(facts))


# Policies


def asked_of(system, policy):
    """What a policy asks, with facts by numbers."""
    if policy3.version_of(policy) not in (1, 2):
        asked = policy3.asked(policy, system.standing)
        lines = [line._replace(facts=[*map(system.numbered, line.facts)]) for line in asked.lines]
        return policy3.Asked(lines, {system.numbered(fact): because for fact, because in asked.waived.items()})
    lines = []
    for number, (_, task, right, *words) in lines_of(policy):
        facts = [(HOLD, system.tasks.index(task), c, RIGHTS.index(right)) for c in system.named(words)]
        lines.append(policy3.Line("forbid", number, None, facts))
    return policy3.Asked(lines, {})


def broken(asked, facts, is_waived=False):
    """The lines that are broken in a set of facts, with what each forbids, and with what is waived unless it `is_waived`."""
    kinds = ["forbidden"] if is_waived else ["forbidden", "waived"]
    return [(answer.line, answer.fact) for answer in asked.answers(facts) if answer.kind in kinds]


def exposed(system, facts):
    """What may void a promise: the first line about a trusted task and the hold of its kernel port by another task
    that may take or give without limit. Of several the one with the least line, of its tasks the first, and then the
    least fact; or None."""
    limits = system.limits
    free = [u for u in range(len(system.tasks)) if u not in limits["takes"] or u not in limits["gives"]]
    found = [(line, (HOLD, u, system.kernel(t), SEND)) for t, line in system.trusted.items() for u in free if u != t]
    return next((pair for pair in found if pair[1] in facts), None)


# The shortest chain


class Shortest:
    """Searches for the fewest steps of a chain, among all instances over the least set.

    It goes from the last step back: what is still to be concluded is a set of facts, and a step takes one of them out
    and puts its premises in. The sets are visited by A*: by the steps so far and a bound from below of those that are
    left (`least_more`). So the first set that only first facts are left of has the fewest steps, exactly. Where more
    than `most` sets were visited there is no answer (None).
    """

    def __init__(self, system, facts, most=50_000):
        self.most, self.ways = most, {}
        for _, premises, fact in system.instances(facts):
            if fact not in premises:
                self.ways.setdefault(fact, set()).add(frozenset(premises))
        for fact, ways in self.ways.items():
            self.ways[fact] = [way for way in ways if not any(other < way for other in ways)]
        self.find_rounds()
        self.find_needed()

    def find_rounds(self):
        """The round in which each fact comes about: a fact of round n has a premise of round n - 1."""
        self.rounds = {}
        for turn in itertools.count(1):
            known = self.rounds.keys()
            new = [fact for fact, ways in self.ways.items() if fact not in known and any(way <= known for way in ways)]
            if not new:
                break
            self.rounds.update(dict.fromkeys(new, turn))

    def find_needed(self):
        """The facts that stand in every chain of a fact, as the bits of a number: the fact, and what every way to it
        needs by one premise or the other. They are what is left when nothing more can be taken out."""
        bits = {fact: 1 << place for place, fact in enumerate(self.rounds)}
        self.needed = dict.fromkeys(self.rounds, (1 << len(bits)) - 1)
        is_new = True
        while is_new:
            is_new = False
            for fact in self.rounds:
                common = -1
                for way in self.ways[fact]:
                    common &= self.all_needed(way)
                common |= bits[fact]
                is_new |= common != self.needed[fact]
                self.needed[fact] = common
        self.of_round = {}
        for fact, turn in self.rounds.items():
            self.of_round[turn] = self.of_round.get(turn, 0) | bits[fact]

    def all_needed(self, facts):
        """The facts that stand in every chain of these."""
        found = 0
        for fact in facts:
            found |= self.needed[fact]
        return found

    def least_more(self, goals):
        """A bound from below of the steps that conclude the goals: what they need, and one for each round below the
        highest of theirs of which they need nothing, since a chain of premises passes through every round."""
        needed = self.all_needed(goals)
        highest = max(self.rounds[goal] for goal in goals)
        return needed.bit_count() + sum(not needed & self.of_round[turn] for turn in range(1, highest))

    def steps(self, fact):
        """How many steps the shortest chain of a fact has."""
        start = frozenset([fact])
        seen, queue, numbers = {start: 0}, [(self.least_more(start), 0, 0, start)], itertools.count(1)
        for _ in range(self.most):
            _, done, _, goals = heapq.heappop(queue)
            open_goals = [goal for goal in goals if self.rounds[goal] > 1]
            if not open_goals:
                return len(goals) - done
            # Of equal bounds the set behind the most steps comes first, so their number stands there below 0.
            steps = 1 - done
            for goal, way in ((goal, way) for goal in open_goals for way in self.ways[goal]):
                left = (goals - {goal}) | way
                if steps < seen.get(left, steps + 1):
                    seen[left] = steps
                    heapq.heappush(queue, (steps + self.least_more(left), -steps, next(numbers), left))
        return None


# Mends


def mended(wiring, removed=(), added=(), changed=()):
    """The text of a wiring in which the lines of these numbers are empty, others have new texts, and with these lines
    behind it."""
    lines, texts = wiring.split("\n"), dict(changed)
    if lines[-1] == "":
        lines.pop()
    kept = ["" if number in removed else texts.get(number, line) for number, line in enumerate(lines, 1)]
    return "\n".join([*kept, *added]) + "\n"


def accepting(words):
    """A line that names what a class accepts: its words before the items, and the items, each once."""
    if words[0] == "port":
        return " ".join(words[:5]), list(dict.fromkeys(items_of(words[5:])))
    kind = [] if words[2] == "accepts" else [str(int(words[2]))]
    return " ".join([*words[:2], *kind, "accepts"]), list(dict.fromkeys(items_of(words[3 + len(kind) :])))


def items_text(items):
    """Items as a wiring has them."""
    return ", ".join(" ".join(filter(None, item)) for item in items) or "none"


def narrowed(system):
    """Each line that names what a class accepts without one of the items: its number and its text."""
    for line, words in system.lines:
        if words[0] in ("port", "births"):
            start, items = accepting(words)
            for dropped in items:
                yield line, f"{start} {items_text(item for item in items if item != dropped)}"


def carried_by_types(system, facts):
    """The classes that each type of a slot carries in a set of facts: a task may send the message, and holds what the
    slot needs of the class, which the type admits."""
    found = {}
    for t in range(len(system.tasks)):
        held = {(c, r) for kind, u, c, r in facts if kind == HOLD and u == t}
        for d in {c for c, r in held if r != RECEIVE}:
            for disposition, of in system.slots[d]:
                classes = {c for c, r in held if r == NEEDS[disposition] and system.admits(of, c)}
                found.setdefault(of, set()).update(classes)
    return found


def restricted(system, of, classes):
    """The lines that let a type carry these classes alone."""
    name = ".".join(of)
    return [f"admit {name} {system.classes[c].text()}" for c in sorted(classes)] or [f"admit {name} none"]


def changes(system, facts):
    """Each change of one thing: the lines that are left out, those that are added, and those that accept less."""
    for line in system.holds:
        yield (line,), (), ()
    for lines in system.admitted.values():
        yield from (((line,), (), ()) for line in lines)
    for changed in narrowed(system):
        yield (), (), (changed,)
    for of, classes in carried_by_types(system, facts).items():
        if of not in system.admitted:
            yield from (((), tuple(restricted(system, of, classes - {c})), ()) for c in sorted(classes))


class Judge:
    """Judges a wiring with changes, and tells how many facts of the first least set are lost. Facts that a policy waives
    are as forbidden, unless `is_waived`."""

    def __init__(self, defs, wiring, policy, is_waived=False):
        self.defs, self.wiring, self.is_waived = defs, wiring, is_waived
        self.system = System(defs, wiring)
        self.facts = self.system.least()
        self.asked = asked_of(self.system, policy)
        self.broken = broken(self.asked, self.facts, is_waived)
        self.exposed = exposed(self.system, self.facts)

    def lacks(self, facts):
        """Whether a fact that the policy expects is not there."""
        return not facts.issuperset(self.asked.expected())

    def with_changes(self, removed, added, changed):
        """The system with these changes, and its facts. Changes leave the classes as they are, so facts keep their numbers."""
        other = System(self.defs, mended(self.wiring, removed, added, changed))
        return other, other.least()

    def lost(self, removed, added, changed=()):
        """How many facts are lost by these changes, or None where the answer is still NO."""
        other, facts = self.with_changes(removed, added, changed)
        if exposed(other, facts) or broken(self.asked, facts, self.is_waived) or self.lacks(facts):
            return None
        return len(self.facts - facts)

    def still_broken(self, removed, added, changed=()):
        """How many of the lines that were broken at first are so with these changes."""
        _, facts = self.with_changes(removed, added, changed)
        numbers = {line for line, _ in self.broken}
        return sum(line in numbers for line, _ in broken(self.asked, facts, self.is_waived))

    def mends_of_one(self):
        """Every change of one thing after which the answer is YES, with what it loses. `admit S.T none` is one of them
        where no list of all classes but one is enough."""
        found = {change: self.lost(*change) for change in dict.fromkeys(changes(self.system, self.facts))}
        found = {change: lost for change, lost in found.items() if lost is not None}
        enough = {added[0].split()[1] for _, added, _ in found if added}
        for of in carried_by_types(self.system, self.facts):
            if of not in self.system.admitted and ".".join(of) not in enough:
                change = (), tuple(restricted(self.system, of, ())), ()
                lost = self.lost(*change)
                if lost is not None:
                    found[change] = lost
        return found
