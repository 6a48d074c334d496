#!/usr/bin/env python3
"""Policies of version 3 once more, apart from machcheck: what a text forbids, expects and waives, or its first fault.

    tests/oracles/policy3.py [--waive] WIRING POLICY DEFS..   prints what `machcheck verify --brief` does, without the lines
                                                              on standard error that a policy of any version may have
    tests/oracles/policy3.py --random WIRING N [SEED] DEFS..  prints N random texts, each behind `right` or its fault
    tests/oracles/policy3.py --worked                         compares with examples that were worked by hand

Written from what the language is, not from the program. The lists of a line are those of a wiring (expand.py). Below are
also the makers of random texts, which tests/oracles/verify, attack and formats use.
"""

import copy
import itertools
import random
import re
import sys
from typing import NamedTuple

import expand
from expand import MOST_LINES, MOST_STOOD, RESERVED, RIGHTS, Fault, NoLine, Reader, Standing, Stood, once

MOST_STRING = 128


# Words


def words_of(line):
    """The words of a line: a string is one by itself, and keeps its quotes."""
    found, left = [], line
    while left:
        before, quote, behind = left.partition('"')
        found += expand.words_of(before)
        if "#" in before or not quote:
            break
        string, end, left = behind.partition('"')
        found.append(quote + string + end)
    return found


def is_control(sign):
    return ord(sign) < 0x20 or 0x7F <= ord(sign) <= 0x9F


class PolicyReader(Reader):
    """Reads the words of a line of a policy from the left."""

    def has_string(self):
        return (self.peek() or "").startswith('"')

    def string(self):
        word = self.next()
        text = word[1:-1]
        if word[0] != '"' or word[-1] != '"' or not 1 <= len(text.encode()) <= MOST_STRING or any(map(is_control, text)):
            raise NoLine
        return text

    def is_behind_class(self):
        return super().is_behind_class() or self.has_string()

    def line_name(self):
        """The NAME of a line, where it has one."""
        return self.string() if self.has_string() else None

    def product(self, is_expected=False):
        """TASKS RIGHTS CLASSES. `any` is for what is forbidden or waived."""
        tasks = self.tasks()
        if self.has("any") and not is_expected:
            self.next()
            rights = RIGHTS
        else:
            rights = self.list(lambda: self.next(*RIGHTS))
        classes = self.list(self.one_class)
        if is_expected and any(said[-1] == "any" for said in classes if said[0] == "births"):
            raise NoLine
        return tasks, rights, classes


def read_line(words):
    """What a line says: its first word and its parts."""
    line = PolicyReader(words)
    key = line.next()
    if key not in READ:
        raise NoLine
    found = READ[key](line)
    line.end()
    return found


def read_forbid(line):
    return "forbid", line.line_name(), line.product()


def read_expect(line):
    return "expect", line.line_name(), line.product(is_expected=True)


def read_waive(line):
    name, product = line.string(), None if line.has_string() else line.product()
    return "waive", name, product, line.string()


READ = {
    "group": expand.read_group, "set": expand.read_set, "forbid": read_forbid, "expect": read_expect, "waive": read_waive,
}


# Texts


def numbered(text):
    """The number of each line and its text, up to the last that there may be."""
    for number, line in enumerate(text.removesuffix("\n").split("\n"), 1):
        if number > MOST_LINES:
            raise Fault(f"BadLine {number}")
        yield number, line


def headed(lines):
    """The version that the first line with words names."""
    for number, line in lines:
        if words := expand.words_of(line):
            if len(words) != 2 or words[0] != "policy" or not re.fullmatch("[0-9]+", words[1]):
                raise Fault(f"BadLine {number}")
            return int(words[1])
    raise Fault("BadLine 1")


def version_of(text):
    """The version of a policy without a fault in its heading."""
    return headed(numbered(text))


def read_text(data):
    """What the lines of a policy of version 3 say, by their numbers."""
    try:
        text = data.decode() if isinstance(data, bytes) else data
    except UnicodeDecodeError:
        raise Fault("NotUtf8") from None
    lines, said = numbered(text), []
    if headed(lines) != 3:
        raise Fault("Version")
    for number, line in lines:
        if words := words_of(line):
            try:
                said.append((number, read_line(words)))
            except NoLine:
                raise Fault(f"BadLine {number}") from None
    return said


# What lines ask


class Line(NamedTuple):
    """A line that forbids, expects or waives: its first word, its number, its NAME or None, its facts, and why it waives."""

    key: str
    number: int
    name: str
    facts: list
    because: str = None


class Answer(NamedTuple):
    """What is told of a fact of a line: that it is `forbidden`, `waived`, or `expected` and is not there; or, of a line of
    the wiring, that a task is `trusted`."""

    kind: str
    line: int
    name: str
    fact: tuple
    because: str = None

    def text(self, fact_text):
        """The line that `verify` prints."""
        start = f"WAIVED line {self.line}" if self.kind == "waived" else f"NO {self.kind} line {self.line}"
        name, because = (f' "{text}"' if text is not None else "" for text in (self.name, self.because))
        return f"{start}{name} {fact_text(self.fact)}{because}"


class Asked:
    """What a policy asks: its lines in order, and why each fact is waived that is so. A waived fact is so in each line
    that forbids it."""

    def __init__(self, lines, waived):
        self.lines, self.waived = lines, waived

    def answers(self, held):
        """What is told of a set of facts: of each line in order, of each of its facts."""
        for line in self.lines:
            for fact in line.facts:
                if line.key == "expect" and fact not in held:
                    yield Answer("expected", line.number, line.name, fact)
                elif line.key == "forbid" and fact in held:
                    kind = "waived" if fact in self.waived else "forbidden"
                    yield Answer(kind, line.number, line.name, fact, self.waived.get(fact))

    def expected(self):
        return [fact for line in self.lines if line.key == "expect" for fact in line.facts]

    def notices(self, held):
        """What `verify` reports of a policy of this version, behind its name; and which of it need not be there: of a line
        that waives facts which are there, each of which an earlier line waives."""
        told = [": expects nothing"] * all(line.key != "expect" for line in self.lines)
        free, before = [], set()
        for line in self.lines:
            if line.key == "waive":
                notice = f":{line.number}: waives nothing"
                if not any(fact in held for fact in line.facts if fact not in before):
                    told.append(notice)
                    free += [notice] * any(fact in held for fact in line.facts)
                before.update(line.facts)
        return told, free


class Demands(Standing):
    """What the lines of a policy ask over a wiring with this standing. Each line is added in turn; what is wrong with it is
    raised. A fact is a task, a right, and the words of a class."""

    def __init__(self, wiring):
        super().__init__()
        self.tasks, self.ports = list(wiring.tasks), list(wiring.ports)
        self.groups, self.sets, self.bare_sets = dict(wiring.groups), dict(wiring.sets), dict(wiring.bare_sets)
        self.births, self.members = dict(wiring.births), dict(wiring.members)
        self.asked, self.count = Asked([], {}), 0

    def facts_of(self, product, is_bare=False):
        """The facts of TASKS RIGHTS CLASSES, where what is more to the right varies first."""
        tasks, rights, classes = product
        return [
            (task, right, c)
            for task in self.tasks_of(tasks)
            for found in [self.classes_of(classes, task, is_bare)]
            for right in once(rights)
            for c in found
        ]

    def ask(self, key, name, facts, new, because=None):
        self.count += len(new)
        if self.count > MOST_STOOD:
            self.fault("TooMany")
        self.asked.lines.append(Line(key, self.number, name, facts, because))
        return []

    def stand_forbid(self, name, product):
        facts = self.facts_of(product)
        return self.ask("forbid", name, facts, facts)

    def stand_expect(self, name, product):
        """Births are the births alone, unless a port that is such is named."""
        facts = self.facts_of(product, is_bare=True)
        return self.ask("expect", name, facts, facts)

    def stand_waive(self, name, product, because):
        named = [line for line in self.asked.lines if line.key == "forbid" and line.name == name]
        if not named:
            self.fault("UnknownName")
        facts = once(fact for line in named for fact in line.facts)
        if product is not None:
            within = set(self.facts_of(product))
            facts = [fact for fact in facts if fact in within]
        if not facts:
            self.fault("Empty")
        new = [fact for fact in facts if fact not in self.asked.waived]
        self.ask("waive", name, facts, new, because)
        self.asked.waived.update(dict.fromkeys(new, because))
        return []


def asked(data, standing):
    """What a policy of version 3 asks over a wiring with this standing."""
    return Demands(standing).stand_for(read_text(data)).asked


def text_of(asked):
    """The lines that a policy stands for."""
    quoted = lambda text: [] if text is None else [f'"{text}"']
    lines, before = ["policy 3"], set()
    for line in asked.lines:
        for task, right, c in line.facts:
            if line.key != "waive" or (task, right, c) not in before:
                lines.append(" ".join([line.key, *quoted(line.name), task, right, *c, *quoted(line.because)]))
        before.update(line.facts if line.key == "waive" else [])
    return "".join(f"{line}\n" for line in lines)


# Random texts

# Some lines have the same name, and some names read as something else.
STRINGS = [
    "x", "x", "x", "apart, #1", "apart, #1", "a  b", " lead ", "ticket #7, known", "forbid", "all", ",", "#", "é\U0001f600",
    "n" * 128, "é" * 64, "a\\b", "{1}", "%s", "'", "line 2", "hold a task:b send", "YES", "policy 3",
]
NO_STRINGS = ['""', '"', '"open', '"' + "n" * 129 + '"', '"' + "é" * 65 + '"', '"a\tb"', '"\x7f"', '"\x85"', '"\x9f\xa0"']
# The first two are of version 3.
HEADINGS = [
    "policy 03", '  policy  3 # "x', "policy 4", "policy 0", "policy 3 3", 'policy "3"', 'policy 3 "x"', "wiring 3", "policy",
    "policy x",
]
KEYS = ["forbid", "expect", "waive", "group", "set"]


class Maker(expand.Maker):
    """Makes random policies of version 3 over a wiring with this standing, of which these facts are held: first lines that
    are right, and then such that may not be. At most so many facts are a NO."""

    strange = [*expand.WORDS, *KEYS, *NO_STRINGS, '"x"', '"apart, #1"']

    def __init__(self, chance, standing, held, most=3):
        self.random, self.interfaces, self.held, self.most = chance, {}, held, most
        self.lines, self.stood = [], Demands(standing)
        kinds = {(task, 0) for task in standing.tasks} | standing.births.keys()
        classes = [("port", port) for port in standing.ports] + [("task", task) for task in standing.tasks]
        classes += [("births", task, str(kind)) if kind else ("births", task) for task, kind in sorted(kinds)]
        every = [fact for fact in itertools.product(standing.tasks, RIGHTS, classes) if self.is_named(fact)]
        self.there = [fact for fact in every if fact in held]
        self.free = [fact for fact in every if fact not in held]

    @staticmethod
    def is_named(fact):
        """Whether a line can name the fact: in older wirings tasks may have reserved names."""
        task, _, c = fact
        return task not in RESERVED and (c[0] == "port" or c[1] not in RESERVED)

    def string(self):
        return f'"{self.random.choice(STRINGS)}"'

    def used_string(self):
        """Mostly the NAME of a line that forbids."""
        used = [line.name for line in self.stood.asked.lines if line.key == "forbid" and line.name is not None]
        return f'"{self.random.choice(used)}"' if used and not self.often(0.05) else self.string()

    def whos(self, most=3):
        tasks = [task for task in self.stood.tasks if task not in RESERVED]
        return self.some(tasks + list(self.stood.groups) * 2 or ["a"], most)

    def one_of(self, facts):
        """The words of one of these facts."""
        task, right, c = self.random.choice(facts)
        return [task, right, *c]

    def one_class(self, has_holder):
        """A CLASS: sometimes births of which ports are some."""
        if self.stood.members and self.often(0.2):
            task, kind = self.random.choice([*self.stood.members])
            return ["births", task, *[self.number(kind)] * bool(kind)]
        return super().one_class(has_holder)

    def product(self, facts, is_expected=False):
        """A fact, or lists of tasks, rights and classes."""
        if facts and self.often(0.55):
            return self.one_of(facts)
        rights = ["any"] if self.often(0.3) and not is_expected else self.listed(self.some(["send", *RIGHTS]))
        return [*self.tasks(), *rights, *self.classes(True)]

    # Lines

    def forbid(self):
        name = [self.string()] * self.often(0.6)
        return ["forbid", *name, *self.product(self.there if self.often(0.4) else self.free)]

    def expect(self):
        name = [self.string()] * self.often(0.4)
        return ["expect", *name, *self.product(self.free if self.often(0.25) else self.there, is_expected=True)]

    def waive(self):
        name = self.used_string()
        if self.often(0.4):
            return ["waive", name, self.string()]
        facts = [f for line in self.stood.asked.lines if f'"{line.name}"' == name for f in line.facts if self.is_named(f)]
        return ["waive", name, *self.product(facts), self.string()]

    def makes(self):
        return [self.group, self.set, self.forbid, self.expect, self.waive]

    def of_nobody(self, tasks):
        key, right = self.random.choice(["forbid", "expect", "group"]), self.random.choice(RIGHTS)
        return ["group", "h", *tasks] if key == "group" else [key, *tasks, right, "task", "other"]

    # Texts

    def costs(self):
        """How many facts are a NO so far."""
        return sum(answer.kind != "waived" for answer in self.stood.asked.answers(self.held))

    def is_added(self, words):
        before = self.stood
        self.stood = copy.deepcopy(before)
        try:
            self.stood.add(len(self.lines) + 2, read_line(words))
        except (Fault, NoLine):
            self.stood = before
            return False
        if self.costs() > self.most:
            # What is held is waived.
            waiver = ["waive", words[1], self.string()] if words[0] == "forbid" and words[1][0] == '"' else None
            if waiver is None or self.often(0.5):
                self.stood = before
                return False
            self.stood.add(len(self.lines) + 3, read_line(waiver))
            self.lines += [words, waiver]
            return True
        self.lines.append(words)
        return True

    def right(self):
        pick = self.random.choice
        makes = [self.group] * pick([0, 0, 1, 2]) + [self.set] * pick([0, 0, 1, 2]) + [self.forbid] * pick([0, 1, 2, 3])
        makes += [self.expect] * pick([0, 1, 1, 2]) + [self.waive] * pick([0, 1, 1, 2])
        self.random.shuffle(makes)
        for make in [self.forbid, *makes]:
            for _ in range(4):
                if self.is_added(make()):
                    break
        return self.lines

    def line(self, words):
        """A line as a text may have it. What is in a string stays."""
        line = ""
        for word in words:
            before = "" if not line or line[-1] in "\"," and self.often(0.3) else " "
            if word == ",":
                before = " " * self.often(0.2)
            elif word[0] == '"' and self.often(0.1):
                before = ""
            line += before + word
        return line

    def text(self, lines):
        """A text of these lines, with some comments and empty lines between; the last line may lack its end."""
        pick = self.random.choice
        heading = pick(HEADINGS) if self.often(0.03) else "policy 3"
        text = pick(["", "", "", '# of a "test\n\n']) + heading + "\n"
        for words in lines:
            text += pick(["", "", "", "", "\n", '# "no"\n', "  "]) + self.line(words)
            text += pick(["", "", "", ' # so, "x', "#", " "]) + "\n"
        return text if self.often(0.9) else text[:-1]


def right_text(chance, standing, held, most):
    """A random policy of version 3 that has no fault."""
    while True:
        maker = Maker(chance, standing, held, most)
        text = maker.text(maker.right())
        try:
            asked(text, standing)
            return text
        except Fault:
            pass


def random_text(chance, standing, held):
    """A random policy: a right one, or, more often, one that was spoiled."""
    maker = Maker(chance, standing, held, chance.choice([0, 1, 3, 6]))
    lines = maker.right()
    return maker.text(maker.spoiled() if lines and chance.random() < 0.6 else lines)


# What `verify` prints


def printed(answers, is_waived, fact_text):
    """The lines of `verify --brief` for these answers, and its status."""
    is_yes = all(answer.kind == "waived" and is_waived for answer in answers)
    return [answer.text(fact_text) for answer in answers] + ["YES"] * is_yes, int(not is_yes)


def verified(defs, wiring, policy, is_waived):
    """What `verify --brief` prints of these texts, by the files W and P, and S0, S1 and so on; and its status. Lines on
    standard error that a policy of an older version may have, too, are left out."""
    from dead import notices
    from systems import System, asked_of, exposed

    system = System(defs, wiring)
    try:
        said = asked_of(system, policy)
    except Fault as fault:
        return "", f"machcheck: P: {fault}\n", 2
    facts = system.least()
    first = exposed(system, facts)
    answers = [Answer("trusted", first[0], None, first[1])] if first else []
    answers += said.answers(facts)
    lines, status = printed(answers, is_waived, system.fact_text)
    told = said.notices(facts)[0] if version_of(policy) == 3 else []
    told = [f"P{notice}" for notice in told]
    told += notices(system, facts, "W", {name: f"S{number}" for number, name in enumerate(system.interfaces)})
    return "".join(f"{line}\n" for line in lines), "".join(f"machcheck: {line}\n" for line in told), status


S = """subsystem s 7000;
#include <mach/std_types.defs>
type session_t = MACH_MSG_TYPE_MAKE_SEND;
routine open(p : mach_port_t; out q : session_t);
routine use(q : mach_port_t; n : int);
"""
APART = """policy 3
forbid "apart, #1" a any births server 2
forbid "apart, #2" b any births server 1
forbid "no control" server, a, b send task other
expect a send births server 1
expect "b works" b send births server 2
"""
# Each client has an interface of its own, and then both have one.
OWN = """wiring 4
task server, a, b
port gate receiver server accepts request s, t
births server 1 accepts request s
births server 2 accepts request t
births a 0 accepts reply s
births b 0 accepts reply t
hold a, b send port gate
replies fit
admit s.session_t births server 1
admit t.session_t births server 2
"""
SHARED = """wiring 4
task server, a, b
port gate receiver server accepts request s
births server 1 accepts request s
births server 2 accepts request s
hold a, b send port gate
replies fit
births a, b 0 accepts reply s
admit s.session_t births server any
"""
THREE = """wiring 4
task a, b, c
group u b, c
port p receiver a accepts none
births a 1 accepts none
births u 1 accepts none
"""
HELD = THREE + "hold u send port p\n"
BIRTHS = THREE + "port q of births a 1\n"
# 64 tasks with births of each kind.
MANY = "wiring 4\n" + "".join(f"task a{number}\n" for number in range(64))
MANY += "".join(f"births all {kind} accepts none\n" for kind in range(16))
# Each was worked by hand: MIG files, a wiring, a policy, whether `--waive` is given, and what is printed: standard output,
# standard error behind `machcheck: `, and the status.
WORKED = [
    ([S, S.replace("s 7000", "t 8000")], OWN, APART, False, "YES", "", 0),
    ([S], SHARED, APART, False, 'NO forbidden line 2 "apart, #1" hold a births:server:2 send\n'
     'NO forbidden line 3 "apart, #2" hold b births:server:1 send', "", 1),
    ([], "wiring 4\ntask a, b, c\nhold a send task b\ntrust c, b takes none\n",
     'policy 3\nexpect c send task a, task c\nforbid "f" a any task other\n', False,
     'NO trusted line 4 hold a task:b send\nNO expected line 2 hold c task:a send\n'
     'NO forbidden line 3 "f" hold a task:b send', "", 1),
    ([], THREE + "hold b send port p\n", 'policy 3\nexpect "reads" u send port p\nexpect b receive port p\n', False,
     'NO expected line 2 "reads" hold c port:p send\nNO expected line 3 hold b port:p receive', "", 1),
    ([], BIRTHS + "hold b send port q\n", "policy 2\nforbid b send births a 1\n", False,
     "NO forbidden line 2 hold b port:q send", "W:4: no other task may ever send to port p", 1),
    ([], BIRTHS + "port r of births a 1\nhold b send port p\nhold c send port q, port r\n",
     "policy 3\nset s births a 1, port q, port p\nexpect b send s\n", False,
     "NO expected line 3 hold b births:a:1 send\nNO expected line 3 hold b port:q send", "", 1),
    ([], HELD, 'policy 3\nforbid "x" u send port p\nwaive "x" b send port p, task a "ticket #7, known"\n'
     "expect u send port p\n", True, 'WAIVED line 2 "x" hold b port:p send "ticket #7, known"\n'
     'NO forbidden line 2 "x" hold c port:p send', "", 1),
    ([], HELD, 'policy 3\nforbid "x" u send port p\nwaive "x" "known"\n', False,
     'WAIVED line 2 "x" hold b port:p send "known"\nWAIVED line 2 "x" hold c port:p send "known"', "P: expects nothing", 1),
    ([], HELD, 'policy 3\nforbid "x" b send port p\nwaive "x" "known"\n', True,
     'WAIVED line 2 "x" hold b port:p send "known"\nYES', "P: expects nothing", 0),
    ([], HELD, 'policy 3\nforbid "x" a send task b\nwaive "x" "known"\nexpect b send port p\n', False, "YES",
     "P:3: waives nothing", 0),
    # Words, and what is refused.
    ([], THREE, 'policy 3 # "a\n\nexpect b send"x"\n', False, "", "P: BadLine 3", 2),
    ([], THREE, "policy 3\nexpect a any port p\n", False, "", "P: BadLine 2", 2),
    ([], THREE, "policy 3\nexpect a send births c any\n", False, "", "P: BadLine 2", 2),
    ([], THREE, 'policy 3\nforbid "a" "b" a send port p\n', False, "", "P: BadLine 2", 2),
    ([], THREE, 'policy 3\nforbid "" a send port p\n', False, "", "P: BadLine 2", 2),
    ([], THREE, 'policy 3\nset s task other\n', False, "", "P: BadLine 2", 2),
    ([], THREE, f'policy 3\nforbid "{"é" * 64}x" a send port p\n', False, "", "P: BadLine 2", 2),
    ([], THREE, 'policy 3\nforbid "x\x85" a send port p\n', False, "", "P: BadLine 2", 2),
    ([], THREE, 'policy 3\nforbid "x" b send port p\nwaive "x" c send port p "known"\n', False, "", "P: Empty 3", 2),
    ([], THREE, 'policy 3\nforbid "x" b send port p\nwaive "y" nobody send port p "known"\n', False, "",
     "P: UnknownName 3", 2),
    ([], THREE, 'policy 3\nwaive "x" "known"\nforbid "x" b send port p\n', False, "", "P: UnknownName 2", 2),
    ([], THREE, "policy 3\nforbid all but u, a send nothing\n", False, "", "P: Empty 2", 2),
    ([], THREE, "policy 3\ngroup u a\n", False, "", "P: TwiceNamed 2", 2),
    ([], THREE, "policy 3\ngroup a nobody\n", False, "", "P: UnknownName 2", 2),
    ([], THREE + "set s task a\n", "policy 3\nset s task b\n", False, "", "P: TwiceNamed 2", 2),
    ([], THREE, "policy 3\nset s births u 2\n", False, "", "P: UnknownName 2", 2),
    ([], THREE, "policy 4\nforbid\n", False, "", "P: Version", 2),
    ([], THREE, "policy 3" + "\n" * MOST_LINES + "group u a\n", False, "", f"P: BadLine {MOST_LINES + 1}", 2),
    ([], THREE, "policy 3" + "\n" * (MOST_LINES - 1) + "group u a\n", False, "", f"P: TwiceNamed {MOST_LINES}", 2),
    # 208,896 facts five times, and 4,096: so many and not more.
    ([], MANY, "policy 3\nset s task all, births all any\n" + "forbid all any s\n" * 5 + "expect all send task all\n"
     "group g g\n", False, "", "P: UnknownName 9", 2),
    ([], MANY, "policy 3\nset s task all, births all any\n" + "forbid all any s\n" * 5 + "expect all send task all\n"
     "expect a0 send task a0\n", False, "", "P: TooMany 9", 2),
    # A set of the wiring has births alone where they are expected, and a waiver is of lines above it.
    ([], THREE + "port q of births a 1\nset s births a 1\nhold b send port p, port q\n",
     'policy 3\nexpect b send s\nforbid "x"b send s\nwaive "x" "#"# "\nforbid "x" b send port p\n', False,
     'NO expected line 2 hold b births:a:1 send\nWAIVED line 3 "x" hold b port:q send "#"\n'
     'NO forbidden line 5 "x" hold b port:p send', "", 1),
    # The first reason stays, in each line that forbids the fact.
    ([], HELD, 'policy 3\nforbid "x" b send port p\nwaive "x" "1"\nforbid "y" u send port p\nwaive "y" "2"\n'
     "forbid b once, send, send port p, port p\nexpect a receive port p\n", True,
     'WAIVED line 2 "x" hold b port:p send "1"\nWAIVED line 4 "y" hold b port:p send "1"\n'
     'WAIVED line 4 "y" hold c port:p send "2"\nWAIVED line 6 hold b port:p send "1"\nYES', "", 0),
]
PRODUCT = """policy 3
group h a, b
forbid "p" h send, receive task other, births c any
"""
STANDS = ["send task b", "send task c", "send births c", "send births c 1", "receive task b", "receive task c",
          "receive births c", "receive births c 1"]


def worked():
    """How many of the examples are not as they were worked."""
    wrong = 0
    for defs, wiring, policy, is_waived, *right in WORKED:
        lines, told, status = right
        want = lines + "\n" * bool(lines), "".join(f"machcheck: {line}\n" for line in told.splitlines()), status
        found = verified(defs, wiring, policy, is_waived)
        if found != want:
            wrong += 1
            print(f"differs: {policy}over\n{wiring}is\n{found}\nin the place of\n{want}")
    stands = [f'forbid "p" a {line}' for line in STANDS]
    stands += [f'forbid "p" b {line.replace("task b", "task a")}' for line in STANDS]
    if text_of(asked(PRODUCT, Stood(THREE).standing)).splitlines() != ["policy 3", *stands]:
        wrong += 1
        print(f"differs: what {PRODUCT} stands for")
    print(f"{len(WORKED) + 1 - wrong} passed, {wrong} failed")
    return wrong


def main():
    sys.dont_write_bytecode = True
    from systems import System

    if sys.argv[1] == "--worked":
        return int(worked() != 0)
    if sys.argv[1] == "--random":
        numbers = [word for word in sys.argv[3:] if word.isdigit()]
        wiring, *defs = (open(name).read() for name in sys.argv[2:] if name not in numbers)
        count, seed = (int(word) for word in (numbers + ["1"])[:2])
        system = System(defs, wiring)
        held = system.named_holds(system.least())
        for turn in range(count):
            text = random_text(random.Random(seed * 1_000_003 + turn), system.standing, held)
            try:
                fault = asked(text, system.standing) and "right"
            except Fault as found:
                fault = found
            print(f"# {fault}\n{text}")
        return 0
    is_waived = sys.argv[1] == "--waive"
    wiring, policy, *defs = (open(name).read() for name in sys.argv[1 + is_waived :])
    out, err, status = verified(defs, wiring, policy, is_waived)
    sys.stdout.write(out)
    sys.stderr.write(err)
    return status


if __name__ == "__main__":
    sys.exit(main())
