#!/usr/bin/env python3
"""Wirings of version 4 once more, apart from machcheck: the lines that a text stands for, or its first fault.

    tests/oracles/expand.py WIRING DEFS..        prints what `machcheck expand --wiring WIRING DEFS..` does
    tests/oracles/expand.py --random N [SEED]    prints N random texts, each behind a line with `right` or its fault
    tests/oracles/expand.py --rows               compares with the rows of tests/rows that expand a wiring

Written from what the language is, not from the program. Below are also the makers of random texts, which
tests/oracles/verify and tests/oracles/replays use.
"""

import copy
import random
import re
import sys

RIGHTS = ["send", "receive", "once"]
VERBS = ["takes", "gives", "sends", "replies"]
# No task, no group and no set has one of these names.
RESERVED = {"all", "any", "births", "but", "none", "other", "port", "task"}
ITEM_WORDS = {"request", "reply", "destroyed"}
MOST_KIND, MOST_TASKS, MOST_PORTS, MOST_NAMES = 15, 64, 256, 4096
MOST_LINES, MOST_STOOD = 65_535, 1_048_576
MOST_FILES = {1: 16, 2: 16, 3: 256, 4: 256}


class Fault(Exception):
    """The first fault of a text, as it is printed."""


class NoLine(Exception):
    """Words that are no line of the grammar."""


# Words


def words_of(line):
    """The words of a line, where a comma is one by itself."""
    return [word for word in re.split(r"[ \t\r]+", line.split("#")[0].replace(",", " , ")) if word]


def text_of(words):
    """A line with one blank between words and none before a comma."""
    return " ".join(words).replace(" ,", ",")


def is_name(word):
    return re.fullmatch(r"[A-Za-z_][A-Za-z0-9_]{0,63}", word) is not None


def joined(parts):
    """Lists of words, with a comma between each two."""
    found = []
    for part in parts:
        found += [",", *part] if found else part
    return found


class Reader:
    """Reads the words of a line from the left."""

    def __init__(self, words):
        self.words, self.at = words, 0

    def peek(self):
        return self.words[self.at] if self.at < len(self.words) else None

    def next(self, *wanted):
        word = self.peek()
        if word is None or (wanted and word not in wanted):
            raise NoLine
        self.at += 1
        return word

    def has(self, *words):
        return self.peek() in words

    def end(self):
        if self.peek() is not None:
            raise NoLine

    def name(self):
        word = self.next()
        if not is_name(word):
            raise NoLine
        return word

    def free_name(self):
        """The name of a task, a group or a set."""
        name = self.name()
        if name in RESERVED:
            raise NoLine
        return name

    def kind(self):
        word = self.next()
        if not re.fullmatch(r"[0-9]+", word) or int(word) > MOST_KIND:
            raise NoLine
        return int(word)

    def list(self, part):
        """Parts with commas between them. A list ends where no comma comes."""
        found = [part()]
        while self.has(","):
            self.next()
            found.append(part())
        return found

    def tasks(self):
        """TASKS: `all`, all but some, or some."""
        if not self.has("all"):
            return "some", self.list(self.free_name)
        self.next()
        if not self.has("but"):
            return "all", []
        self.next()
        return "but", self.list(self.free_name)

    def whom(self):
        if self.has("other"):
            return self.next(), []
        if not self.has("all"):
            return "some", [self.free_name()]
        self.next()
        if not self.has("but"):
            return "all", []
        self.next()
        return "but", [self.free_name()]

    def one_class(self):
        """CLASS: its word, and whose it is; of births also the kind, or `any`."""
        if self.has("port"):
            return self.next(), self.name()
        if self.has("task"):
            return self.next(), self.whom()
        if not self.has("births"):
            return "set", self.free_name()
        self.next()
        whom, kind = self.whom(), 0
        if self.has("any"):
            kind = self.next()
        elif not self.is_behind_class():
            kind = self.kind()
        return "births", whom, kind

    def is_behind_class(self):
        """Whether a CLASS ends here, and names no kind."""
        return self.peek() in (None, ",")

    def fixed_class(self):
        """CLASS in a line that has no holder."""
        found = self.one_class()
        if found[0] in ("task", "births") and found[1][0] == "other":
            raise NoLine
        return found

    def place(self):
        if self.has("port"):
            return self.next(), self.name()
        return self.next("task"), self.whom()

    def port(self):
        return self.next("port"), self.name()

    def slot(self):
        parts = self.next().split(".")
        if len(parts) != 2 or not all(map(is_name, parts)):
            raise NoLine
        return tuple(parts)

    def items(self):
        """ITEMS, as words of each: behind `request I` comes `, J` for `, request J`."""
        if self.has("none") and self.at + 1 == len(self.words):
            self.next()
            return []
        found, before = [], None
        while True:
            word = self.next()
            if word in ("request", "reply"):
                before = word
                found.append([word, self.name()])
            elif word == "destroyed":
                before = None
                found.append([word])
            elif before and is_name(word):
                found.append([before, word])
            else:
                raise NoLine
            if self.peek() is None:
                return found
            self.next(",")


def read_line(words):
    """What a line of version 4 says: its first word, or what tells such lines apart, and its parts."""
    line = Reader(words)
    key = line.next()
    if key not in READ:
        raise NoLine
    found = READ[key](line)
    line.end()
    return found


def read_task(line):
    return "task", line.list(line.free_name)


def read_group(line):
    return "group", line.free_name(), line.tasks()


def read_set(line):
    return "set", line.free_name(), line.list(line.fixed_class)


def read_port(line):
    port = line.name()
    if line.next("receiver", "of") == "of":
        line.next("births")
        return "port of", port, line.free_name(), line.kind()
    task = line.free_name()
    line.next("accepts")
    return "port", port, task, line.items()


def read_births(line):
    tasks, kind = line.tasks(), line.kind()
    if line.next("accepts", "replies") == "accepts":
        return "births", tasks, kind, line.items()
    names = line.list(line.name)
    if kind + len(names) - 1 > MOST_KIND:
        raise NoLine
    return "births replies", tasks, kind, names


def read_hold(line):
    tasks, right = line.tasks(), line.next("send", "once")
    return "hold", tasks, right, line.list(line.place if right == "send" else line.port)


def read_admit(line):
    slots = line.list(line.slot)
    if line.has("none"):
        line.next()
        return "admit", slots, None
    return "admit", slots, line.list(line.fixed_class)


def read_trust(line):
    tasks, verbs = line.tasks(), line.list(lambda: line.next(*VERBS))
    if line.has("none"):
        line.next()
        return "trust", tasks, verbs, [], None
    if verbs == ["replies"]:
        return "trust", tasks, verbs, [[]], line.list(line.one_class)
    if "replies" in verbs:
        raise NoLine
    if line.has("any"):
        line.next()
        rights = RIGHTS
    else:
        rights = line.list(lambda: line.next(*RIGHTS))
    return "trust", tasks, verbs, [[right] for right in rights], line.list(line.one_class)


def read_replies(line):
    return (line.next("fit"),)


READ = {
    "task": read_task, "group": read_group, "set": read_set, "port": read_port, "births": read_births,
    "hold": read_hold, "admit": read_admit, "trust": read_trust, "replies": read_replies,
}


# What lines stand for


def once(found):
    """A list of what is twice in it the first stays."""
    return list(dict.fromkeys(found))


class Standing:
    """What the lines of a text stand for so far, and what they have named and closed. Each line is added in turn, with the
    words of version 3 that it stands for; what is wrong with it is raised."""

    def __init__(self, names=None):
        self.tasks, self.groups, self.sets, self.ports = [], {}, {}, []
        # Each set without the ports that are births, unless it names them.
        self.bare_sets = {}
        self.births, self.members = {}, {}
        self.are_tasks_closed, self.closed_kinds, self.closed_births = False, set(), set()
        self.lines, self.names = [], names

    def add(self, number, said):
        self.number = number
        # What the line closes is closed below it.
        self.closes = []
        stood = getattr(self, "stand_" + said[0].replace(" ", "_"))(*said[1:])
        for words in stood:
            self.add_part(words)
        for close in self.closes:
            close()

    def fault(self, name):
        raise Fault(f"{name} {self.number}")

    # The lists of a line

    def close_tasks(self):
        self.are_tasks_closed = True

    def who(self, name):
        if name in self.tasks:
            return [name]
        if name not in self.groups:
            self.fault("UnknownName")
        return self.groups[name]

    def tasks_of(self, tasks, holder=None):
        """TASKS or WHOM."""
        word, names = tasks
        named = once(task for name in names for task in self.who(name))
        if word == "some":
            found = named
        else:
            self.closes.append(self.close_tasks)
            found = [task for task in self.tasks if task not in named and (word != "other" or task != holder)]
        if not found:
            self.fault("Empty")
        return found

    def port_of(self, name):
        if name not in self.ports:
            self.fault("UnknownName")
        return "port", name

    def kinds_of(self, task):
        return sorted({0} | {kind for of, kind in self.births if of == task})

    def births_of(self, task, kind, is_bare=False):
        """The classes that are births of a kind, or of any. The ports that are such are among them, unless `is_bare`."""
        if kind == "any":
            self.closes.append(lambda: self.closed_kinds.add(task))
            return [c for k in self.kinds_of(task) for c in self.births_of(task, k, is_bare)]
        if kind not in self.kinds_of(task):
            self.fault("UnknownName")
        self.closes.append(lambda: self.closed_births.add((task, kind)))
        own = ("births", task, str(kind)) if kind else ("births", task)
        return [own, *(("port", port) for port in self.members.get((task, kind), []) if not is_bare)]

    def class_of(self, said, holder, is_bare):
        word, whose, *kind = said
        if word == "port":
            return [self.port_of(whose)]
        if word == "set":
            if whose not in self.sets:
                self.fault("UnknownName")
            return (self.bare_sets if is_bare else self.sets)[whose]
        tasks = self.tasks_of(whose, holder)
        if word == "task":
            return [("task", t) for t in tasks]
        return [c for t in tasks for c in self.births_of(t, *kind, is_bare)]

    def classes_of(self, classes, holder=None, is_bare=False):
        """CLASSES, and the places of a `hold` line. With `is_bare` a port that is births is there only if it is named."""
        return once(c for said in classes for c in self.class_of(said, holder, is_bare))

    # Lines

    def stand_task(self, names):
        return [["task", name] for name in names]

    def stand_group(self, name, tasks):
        found = self.tasks_of(tasks)
        if name in self.tasks or name in self.groups:
            self.fault("TwiceNamed")
        self.groups[name] = found
        return []

    def stand_set(self, name, classes):
        found, bare = self.classes_of(classes), self.classes_of(classes, is_bare=True)
        if name in self.sets:
            self.fault("TwiceNamed")
        self.sets[name], self.bare_sets[name] = found, bare
        return []

    def stand_port(self, port, task, items):
        return [["port", port, "receiver", task, "accepts", *(joined(items) or ["none"])]]

    def stand_port_of(self, port, task, kind):
        if task not in self.tasks or kind not in self.kinds_of(task):
            self.fault("UnknownName")
        if (task, kind) in self.closed_births:
            self.fault("Late")
        stood = self.stand_port(port, task, self.births.get((task, kind), []))
        self.closes.append(lambda: self.members.setdefault((task, kind), []).append(port))
        return stood

    def stand_births(self, tasks, kind, items):
        accepts = ["accepts", *(joined(items) or ["none"])]
        return [["births", task, str(kind), *accepts] for task in self.tasks_of(tasks)]

    def stand_births_replies(self, tasks, kind, names):
        counted = list(enumerate(names, kind))
        return [["births", t, str(k), "accepts", "reply", name] for t in self.tasks_of(tasks) for k, name in counted]

    def stand_hold(self, tasks, right, places):
        holders = self.tasks_of(tasks)
        return [["hold", t, right, *place] for t in holders for place in self.classes_of(places, t)]

    def stand_admit(self, slots, classes):
        found = [("none",)] if classes is None else self.classes_of(classes)
        return [["admit", ".".join(slot), *c] for slot in once(slots) for c in found]

    def stand_trust(self, tasks, verbs, rights, classes):
        verbs, rights = once(verbs), [list(right) for right in once(map(tuple, rights))]
        if classes is None:
            return [["trust", t, verb, "none"] for t in self.tasks_of(tasks) for verb in verbs]
        return [
            ["trust", t, verb, *right, *c]
            for t in self.tasks_of(tasks)
            for found in [self.classes_of(classes, t)]
            for verb in verbs
            for right in rights
            for c in found
        ]

    def stand_fit(self):
        return [["replies", "fit"]]

    # One line of those that a line stands for

    def add_part(self, words):
        key, name = words[:2]
        if key == "task" and self.are_tasks_closed:
            self.fault("Late")
        if key == "births" and (name in self.closed_kinds or (name, Names.kind_of(words)) in self.members):
            self.fault("Late")
        if self.names:
            self.names.judge(self.number, words, name in self.groups, len(self.lines) >= MOST_STOOD)
        self.lines.append((self.number, words))
        if key == "task":
            self.tasks.append(name)
        elif key == "port":
            self.ports.append(name)
        elif key == "births":
            self.births[name, Names.kind_of(words)] = Names.items_of(words)

    def stand_for(self, lines):
        """All lines of a text, as numbers and what they say."""
        for number, said in lines:
            self.add(number, said)
        return self


# The names of lines of version 3, and of older ones


class Names:
    """What the names of a wiring mean over interfaces; of each line the first fault is raised. An interface has requests
    and replies, forms with ids, and the types of its slots."""

    def __init__(self, interfaces):
        self.interfaces = interfaces
        self.tasks, self.ports, self.births = [], [], set()
        self.known, self.onces, self.has_fit = {}, {}, False

    def judge(self, number, words, is_group=False, is_past=False):
        """UnknownName, TwiceNamed, TooMany, TooManyNames and IdClash, in this order."""
        for is_wrong, name in [
            (self.is_unknown(words), f"UnknownName {number}"),
            (self.is_twice(words) or (is_group and words[0] == "task"), f"TwiceNamed {number}"),
            (self.is_too_many(words) or is_past, f"TooMany {number}"),
        ]:
            if is_wrong:
                raise Fault(name)
        self.count_names(words)
        if words[0] in ("port", "births") and self.clashes(words):
            raise Fault(f"IdClash {number}")
        self.add(words)

    @staticmethod
    def kind_of(words):
        """The kind of a `births` line, which version 1 lacks."""
        return 0 if words[2] == "accepts" else int(words[2])

    @staticmethod
    def items_of(words):
        """The items of a line that has them. A task may have the name `accepts`."""
        at = words.index("accepts", 4 if words[0] == "port" else 2)
        return Reader(words[at + 1 :]).items()

    def is_unknown(self, words):
        key = words[0]
        tasks, classes = [], []
        if key == "port":
            tasks = [words[3]]
        elif key in ("births", "hold", "trust"):
            tasks = [words[1]]
        if key == "hold":
            classes = [words[3:]]
        elif key == "admit":
            name, _, of = words[1].partition(".")
            if name not in self.interfaces or of not in self.interfaces[name].types():
                return True
            classes = [words[2:]]
        elif key == "trust":
            classes = [words[3:] if words[2] == "replies" or words[3:] == ["none"] else words[4:]]
        items = self.items_of(words) if key in ("port", "births") else []
        return (
            any(task not in self.tasks for task in tasks)
            or any(self.is_unknown_class(c) for c in classes if c != ["none"])
            or any(len(item) > 1 and item[1] not in self.interfaces for item in items)
        )

    def is_unknown_class(self, words):
        word, name, *kind = words
        if word == "port":
            return name not in self.ports
        kind = int(kind[0]) if kind else 0
        return name not in self.tasks or (kind != 0 and (name, kind) not in self.births)

    def is_twice(self, words):
        key = words[0]
        if key == "births":
            return (words[1], self.kind_of(words)) in self.births
        return words[1] in {"task": self.tasks, "port": self.ports}.get(key, []) or (key == "replies" and self.has_fit)

    def is_too_many(self, words):
        key = words[0]
        return (key == "task" and len(self.tasks) == MOST_TASKS) or (key == "port" and len(self.ports) == MOST_PORTS)

    def count_names(self, words):
        """A task has a name for each port, and one for each send-once right."""
        key, task = words[0], words[1]
        if key == "task":
            self.known[task], self.onces[task] = {("task", task)}, 0
            return
        if key == "port":
            task = words[3]
            self.known[task].add(("port", words[1]))
        elif key == "hold" and words[2] == "send":
            self.known[task].add(tuple(words[3:]))
        elif key == "hold":
            self.onces[task] += 1
        else:
            return
        if len(self.known[task]) + self.onces[task] > MOST_NAMES:
            raise Fault(f"TooManyNames {task}")

    def clashes(self, words):
        """Whether two items have a form of one id."""
        ids = []
        for word, *name in self.items_of(words):
            if name:
                found = self.interfaces[name[0]]
                ids += [form.id for form in (found.requests if word == "request" else found.replies)]
        return len(set(ids)) < len(ids)

    def add(self, words):
        if words[0] == "task":
            self.tasks.append(words[1])
        elif words[0] == "port":
            self.ports.append(words[1])
        elif words[0] == "births":
            self.births.add((words[1], self.kind_of(words)))
        elif words[0] == "replies":
            self.has_fit = True


# Texts


def numbered(text):
    """The words of each line that has some, by its number."""
    lines = [words_of(line) for line in text.split("\n")]
    return [(number, words) for number, words in enumerate(lines, 1) if words]


def version_of(text):
    """The version that a heading names, and the lines below it."""
    lines = numbered(text)
    if not lines:
        raise Fault("BadLine 1")
    number, words = lines[0]
    if len(words) != 2 or words[0] != "wiring" or not re.fullmatch("[0-9]+", words[1]):
        raise Fault(f"BadLine {number}")
    if int(words[1]) not in MOST_FILES:
        raise Fault("Version")
    return int(words[1]), lines[1:]


def read_text(data):
    """The version of a wiring, and its lines: of version 4 what they say, of older ones their words."""
    try:
        text = data.decode() if isinstance(data, bytes) else data
    except UnicodeDecodeError:
        raise Fault("NotUtf8") from None
    if text.removesuffix("\n").count("\n") >= MOST_LINES:
        raise Fault(f"BadLine {MOST_LINES + 1}")
    version, lines = version_of(text)
    said = []
    for number, words in lines:
        try:
            said.append((number, read_line(words) if version == 4 else plain(words, version)))
        except NoLine:
            raise Fault(f"BadLine {number}") from None
    return version, said


def is_older_line(words, version):
    """Whether words are a line of a version before 4."""
    name, kind = "[A-Za-z_][A-Za-z0-9_]{0,63}", "0*(?:[0-9]|1[0-5])"
    item = f"(?:request {name}|reply {name}|destroyed)"
    items, of_kind = f"(?:none|{item}(?: , {item})*)", f"(?: {kind})?" if version > 1 else ""
    one_class = f"(?:port {name}|task {name}|births {name}{of_kind})"
    lines = [
        f"task {name}", f"port {name} receiver {name} accepts {items}",
        f"births {name}{f' {kind}' if version > 1 else ''} accepts {items}",
        f"hold {name} send (?:port|task) {name}", f"hold {name} once port {name}",
        rf"admit {name}\.{name} (?:none|{one_class})",
    ]
    if version == 3:
        of_right = f"(?:send|receive|once) {one_class}"
        lines += [f"trust {name} (?:takes|gives|sends) (?:none|{of_right})", "replies fit"]
        lines += [f"trust {name} replies (?:none|{one_class})"]
    return any(re.fullmatch(line, " ".join(words)) for line in lines)


def plain(words, version):
    """The words of an older line without leading zeros of kinds, and without kind 0 of a CLASS."""
    if not is_older_line(words, version):
        raise NoLine
    key = words[0]
    if key == "births" and version > 1:
        return [*words[:2], str(int(words[2])), *words[3:]]
    if key in ("admit", "trust") and len(words) > 3 and words[-3] == "births" and re.fullmatch("[0-9]+", words[-1]):
        return words[:-1] + ([str(int(words[-1]))] if int(words[-1]) else [])
    return words


class Stood:
    """The lines of version 3, or of an older one, that a wiring stands for, with the numbers of its own lines; and the ports
    that are births, by the task and the kind. Without interfaces the names of these lines are not judged."""

    def __init__(self, data, interfaces=None, files=()):
        """`interfaces` are those of the files, by name; `files` has the names of their subsystems."""
        self.version, said = read_text(data)
        names = None if interfaces is None else Names(interfaces)
        if names and len(set(files)) < len(files):
            raise Fault("TwiceNamed 0")
        if names and len(files) > MOST_FILES[self.version]:
            raise Fault("TooMany 0")
        self.standing = Standing(names)
        if self.version == 4:
            self.standing.stand_for(said)
        else:
            for self.standing.number, words in said:
                self.standing.add_part(words)
        self.lines, self.members = self.standing.lines, self.standing.members

    def text(self):
        """What `expand` prints."""
        return "".join(f"{line}\n" for line in [f"wiring {self.version}", *(text_of(w) for _, w in self.lines)])

    def older(self):
        """A wiring of version 3 that says the same, line by line: none of its names is a word of lists."""
        return self.text().replace("wiring 4\n", "wiring 3\n", 1)


def answer(data, wiring, interfaces, files):
    """What `expand` prints on standard output, and on standard error, and its status."""
    try:
        return Stood(data, interfaces, files).text(), "", 0
    except Fault as fault:
        return "", f"machcheck: {wiring}: {fault}\n", 2


# Random texts

TASK_NAMES = ["send", "once", "takes", "replies", "accepts", "hold", "of", "request", "fit", "group", "_", "x" * 64, "A"]
PORT_NAMES = ["all", "other", "none", "births", "port", "of", "receiver", "send", "_", "A", "y" * 64]
SET_NAMES = ["send", "receive", "accepts", "set", "t0", "_"]
# What stands in the place of a word when a text is spoiled.
WORDS = [
    *sorted(RESERVED), *sorted(ITEM_WORDS), *RIGHTS, *VERBS, ",", "accepts", "receiver", "of", "fit", "0", "1", "015", "16",
    "t0", "t1", "p0", "g0", "s0", "nobody", "a.b", "9", "é",
]


class Maker:
    """Makes random wirings of version 4 over interfaces: first lines that are right, and then such that may not be."""

    strange = WORDS

    def __init__(self, chance, interfaces):
        self.random, self.interfaces = chance, interfaces
        self.lines, self.stood = [], Standing(Names(interfaces))

    def often(self, chance):
        return self.random.random() < chance

    def some(self, found, most=3):
        """A few of these, one of them twice now and then."""
        found = self.random.sample(found, min(len(found), self.random.choice([1, 1, 1, 2, 2, most])))
        return found + [self.random.choice(found)] * self.often(0.08)

    def new_name(self, usual, others, used):
        name = self.random.choice(others) if self.often(0.1) else usual
        return usual if name in used else name

    def listed(self, names):
        return joined([name] for name in names)

    # Lists

    def whos(self, most=3):
        return self.some(self.stood.tasks + list(self.stood.groups) * 2, most)

    def tasks(self, wide=0.2):
        if self.often(wide):
            return ["all"] if self.often(0.4) else ["all", "but", *self.listed(self.whos(2))]
        return self.listed(self.whos())

    def whom(self, has_holder):
        kind = self.random.choices(["who", "all", "but", "other"], [7, 0.7, 0.7, 1.2 * has_holder])[0]
        who = self.random.choice(self.whos())
        return {"who": [who], "all": ["all"], "but": ["all", "but", who], "other": ["other"]}[kind]

    def one_class(self, has_holder):
        kinds = ["task", "births", "port", "set"]
        weights = [1, 6, 4 * bool(self.stood.ports), 3 * bool(self.stood.sets)]
        kind = self.random.choices(kinds, weights)[0]
        if kind == "task":
            return ["task", *self.whom(has_holder)]
        if kind == "port":
            return ["port", self.random.choice(self.stood.ports)]
        if kind == "set":
            return [self.random.choice(list(self.stood.sets))]
        said = [k for _, k in self.stood.births]
        kind = self.random.choice([[], [], ["any"], [self.number(self.random.choice(said or [0]))]])
        return ["births", *self.whom(has_holder), *kind]

    def classes(self, has_holder, most=3):
        return joined(self.one_class(has_holder) for _ in range(self.random.choice([1, 1, 2, most])))

    def number(self, kind):
        return self.random.choice(["", "", "", "0"]) + str(kind)

    def items(self):
        """What a class accepts, where `request I, J` stands for two."""
        names = [*self.interfaces] * 3
        found = []
        for _ in range(self.random.choice([0, 1, 1, 1, 2, 3])):
            if not names or self.often(0.12):
                found.append(["destroyed"])
            else:
                word = self.random.choice(["request", "reply"])
                chosen = self.some(names, 2)
                plain = [name for name in chosen[1:] if name not in ITEM_WORDS]
                found += [[word, chosen[0]], *([name] for name in plain)]
        return joined(found) or ["none"]

    # Lines

    def task(self):
        names = []
        for _ in range(self.random.choice([1, 1, 2, 3])):
            number = len(self.stood.tasks) + len(names)
            names.append(self.new_name(f"t{number}", TASK_NAMES, [*self.stood.tasks, *self.stood.groups, *names]))
        return ["task", *self.listed(names)]

    def group(self):
        name = self.new_name(f"g{len(self.stood.groups)}", TASK_NAMES, [*self.stood.tasks, *self.stood.groups])
        return ["group", name, *self.tasks(0.1)]

    def set(self):
        name = self.new_name(f"s{len(self.stood.sets)}", SET_NAMES, self.stood.sets)
        return ["set", name, *self.classes(False)]

    def new_port(self):
        return self.new_name(f"p{len(self.stood.ports)}", PORT_NAMES, self.stood.ports)

    def port(self):
        return ["port", self.new_port(), "receiver", self.random.choice(self.stood.tasks), "accepts", *self.items()]

    def port_of(self):
        task, kind = self.random.choice([*self.stood.births, (self.random.choice(self.stood.tasks), 0)])
        return ["port", self.new_port(), "of", "births", task, self.number(kind)]

    def births(self):
        return ["births", *self.tasks(), self.number(self.random.choice([0, 0, 0, 1, 2, 15])), "accepts", *self.items()]

    def births_replies(self):
        names = self.some([*self.interfaces] * 2)
        return ["births", *self.tasks(), self.number(self.random.choice([0, 1, 8, 12])), "replies", *self.listed(names)]

    def hold(self):
        once = self.often(0.3)
        places = []
        for _ in range(self.random.choice([1, 1, 2])):
            is_port = self.stood.ports and (once or self.often(0.85))
            place = ["port", self.random.choice(self.stood.ports)] if is_port else ["task", *self.whom(True)]
            places.append(place)
        return ["hold", *self.tasks(), "once" if once else "send", *joined(places)]

    def admit(self):
        slots = [f"{name}.{of}" for name, found in self.interfaces.items() for of in found.types()]
        if not slots:
            return self.hold()
        slots = self.listed(self.some(slots))
        return ["admit", *slots, *(["none"] if self.often(0.1) else self.classes(False))]

    def trust(self):
        verbs = self.some(VERBS, 2)
        if self.often(0.2):
            return ["trust", *self.tasks(0.08), *self.listed(verbs), "none"]
        if verbs[0] == "replies":
            return ["trust", *self.tasks(0.08), "replies", *self.classes(True)]
        verbs = [verb for verb in verbs if verb != "replies"]
        rights = ["any"] if self.often(0.2) else self.listed(self.some(["send", *RIGHTS]))
        return ["trust", *self.tasks(0.08), *self.listed(verbs), *rights, *self.classes(True, 4)]

    def fit(self):
        return ["replies", "fit"]

    # Texts

    def is_added(self, words):
        """Adds a line if the text is right with it."""
        stood, self.stood = self.stood, copy.deepcopy(self.stood, {id(self.interfaces): self.interfaces})
        try:
            self.stood.add(0, read_line(words))
        except (Fault, NoLine):
            self.stood = stood
            return False
        self.lines.append(words)
        return True

    def right(self):
        """The words of the lines of a text that has no fault, without its heading."""
        pick = self.random.choice
        for _ in range(pick([1, 2, 2, 3])):
            self.is_added(self.task())
        self.is_added(self.task())
        makes = [self.group] * pick([0, 1, 2]) + [self.port] * pick([0, 1, 2, 3]) + [self.births] * pick([1, 2, 3])
        makes += [self.births_replies] * pick([0, 0, 1])
        self.random.shuffle(makes)
        later = [self.port_of] * pick([0, 1, 2]) + [self.set] * pick([0, 1, 2]) + [self.hold] * pick([0, 1, 2, 3])
        later += [self.admit] * pick([0, 1, 2, 3]) + [self.trust] * pick([0, 0, 1, 2, 3]) + [self.fit] * pick([0, 0, 1])
        later += [pick([self.group, self.port, self.births])] * pick([0, 0, 1])
        self.random.shuffle(later)
        for make in makes + later:
            for _ in range(4):
                if self.is_added(make()):
                    break
        return self.lines

    def spoiled(self):
        """Lines of a right text, one or two of which are changed, moved, left out or added, mostly to a fault."""
        lines = [list(words) for words in self.lines]
        for _ in range(self.random.choice([1, 1, 2])):
            self.spoil(lines)
        return lines

    def makes(self):
        """What makes a line of each kind."""
        found = [self.task, self.group, self.set, self.port, self.port_of, self.births, self.births_replies]
        return found + [self.hold, self.admit, self.trust, self.fit]

    def of_nobody(self, tasks):
        """A line of TASKS that may be none."""
        return self.random.choice([["group", "h", *tasks], ["trust", *tasks, "sends", "none"]])

    def spoil(self, lines):
        at = self.random.randrange(len(lines))
        hows = ["add", "move", "twice", "drop", "put", "cut", "insert", "empty"]
        how = self.random.choices(hows, [5, 3, 2, 2, 1, 1, 1, 1.5])[0]
        if how == "add":
            lines.insert(self.random.choice([at, len(lines), len(lines)]), self.random.choice(self.makes())())
        elif how == "move":
            lines.insert(self.random.randrange(len(lines)), lines.pop(at))
        elif how == "twice":
            lines.insert(self.random.randrange(at, len(lines) + 1), list(lines[at]))
        elif how == "drop" and len(lines) > 1:
            lines.pop(at)
        elif how == "empty":
            lines.append(self.of_nobody(["all", "but", *self.listed(self.stood.tasks)] + [",", "nobody"] * self.often(0.2)))
        else:
            words = lines[at]
            place = self.random.randrange(len(words))
            some = self.random.choice([self.strange, [word for line in lines for word in line]])
            if how == "cut" and len(words) > 1:
                words.pop(place)
            elif how == "insert":
                words.insert(place, self.random.choice(some))
            else:
                words[place] = self.random.choice(some)

    def line(self, words):
        """A line as a text may have it."""
        comma = self.random.choice([", ", ", ", ",", " , "])
        return " ".join(words).replace(" , ", comma)


def random_text(chance, interfaces):
    """A random text over interfaces: a right one, or, more often, one that was spoiled."""
    maker = Maker(chance, interfaces)
    lines = maker.right()
    if chance.random() < 0.6:
        lines = maker.spoiled()
    return "\n".join(["wiring 4", *map(maker.line, lines)]) + "\n"


SAMPLES = """subsystem s 1000;
#include <mach/std_types.defs>
type file_t = MACH_MSG_TYPE_COPY_SEND;
routine open(d : mach_port_t; in it : mach_port_t; out f : file_t);
subsystem request 2000;
#include <mach/std_types.defs>
simpleroutine tell(d : mach_port_t; in p : mach_port_make_send_t);
subsystem plain 3000;
#include <mach/std_types.defs>
routine count(d : mach_port_t; out n : int);
"""


def compared_rows(mig):
    """Compares the rows that expand a wiring with what is found here, and gives how many differ."""
    import tempfile
    from pathlib import Path

    sys.path.append(str(Path(__file__).resolve().parents[1]))
    from golden import Entry, prepare, rows, words_of as words_in

    count = differ = 0
    for row in rows():
        name = row.name
        with tempfile.TemporaryDirectory() as folder:
            if isinstance(row, Entry) or not name.startswith("expand-"):
                continue
            told = prepare(row, Path(folder))
            words = [word.decode() for word in words_in(told)]
            out, err = (told.get(part, b"").decode() for part in ("stdout", "stderr"))
            # Rows of files that can't be read or written, and of MIG files, are left out.
            is_of_wiring = not err or err.startswith(f"machcheck: {words[2]}: ")
            if words[:2] != ["expand", "--wiring"] or not is_of_wiring or "ReadFailed" in err:
                continue
            files = [mig((Path(folder) / file).read_text()).interface() for file in words[3:]]
            data = (Path(folder) / words[2]).read_bytes()
            found = answer(data, words[2], {file.name: file for file in files}, [file.name for file in files])
            count += 1
            if found != (out, err, int(told.get("status", b"0"))):
                differ += 1
                print(f"differs: {name}\n{found[0]}{found[1]}status {found[2]}")
    print(f"{count} rows, {differ} differ")
    return differ


def main():
    sys.dont_write_bytecode = True
    from systems import Mig

    if sys.argv[1] == "--rows":
        return compared_rows(Mig) != 0
    if sys.argv[1] == "--random":
        count, seed = (int(word) for word in (sys.argv[2:] + ["1"])[:2])
        parts = ["subsystem" + part for part in SAMPLES.split("subsystem")[1:]]
        interfaces = {found.name: found for found in (Mig(part).interface() for part in parts)}
        for turn in range(count):
            text = random_text(random.Random(seed * 1_000_003 + turn), interfaces)
            _, fault, _ = answer(text, "W", interfaces, [*interfaces])
            print(f"# {fault.strip() or 'right'}\n{text}")
        return 0
    wiring, *defs = sys.argv[1:]
    files = [Mig(open(name).read()).interface() for name in defs]
    with open(wiring, "rb") as file:
        out, err, status = answer(file.read(), wiring, {f.name: f for f in files}, [f.name for f in files])
    sys.stdout.write(out)
    sys.stderr.write(err)
    return status


if __name__ == "__main__":
    sys.exit(main())
