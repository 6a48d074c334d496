"""Answers that programs read, apart from machcheck: what their objects have, and what the printed texts say of them.

Written from docs/FORMATS.md, sections 6 and 9, and docs/FAULTS.md, not from the program. `read` reads the one line that an
answer is, `wrong` compares an object with the forms of the schema, and `object_of` makes of the texts of a command, with
quotes and places, the object that says the same.
"""

import functools
import json
import re
from dataclasses import dataclass, field
from pathlib import Path

import policy3
from expand import Stood, version_of

COMMANDS = ["verify", "mend", "attack", "check", "explain", "facts", "graph", "slots", "promises", "replay", "live", "mig"]
# The options with a word, and those without one.
WORDED = ["wiring", "policy", "cert", "script", "fact", "task", "class", "right", "most", "line", "out", "format"]
FACT_TEXT = r"hold \S+ \S+ \S+|carry \S+ \S+ \S+|backup \S+ \S+"
# A line of a policy may have a name, and a fact that is waived has a reason.
NAME_TEXT = r'(?: "([^"]+)")?'
HEAD_TEXT = re.compile(rf"(?:NO (trusted|forbidden|expected)|WAIVED) line (\d+){NAME_TEXT} ({FACT_TEXT}){NAME_TEXT}")
STEP_TEXT = re.compile(rf"(\d+) (K\d+) ({FACT_TEXT})(?: from (\d+)(?: (\d+))?)?(?: by (.+))?")
SLOT_TEXT = re.compile(r"(\w+)\.(\w+)\.(\w+) \((\w+)\.(\w+)\)")


class Wrong(Exception):
    """An answer is not as it has to be."""


# The line of an answer


def ascending(pairs):
    """The members of an object, whose keys come in alphabetical order, each once."""
    keys = [key for key, _ in pairs]
    if keys != sorted(set(keys)):
        raise Wrong(f"keys that are no ascending list: {keys}")
    return dict(pairs)


def refuse(text):
    raise Wrong(f"no whole number: {text}")


def read(line):
    """The object of an answer: one line, without blanks between its parts, in which nothing is escaped without need."""
    try:
        text = line.decode()
        value = json.loads(text, object_pairs_hook=ascending, parse_constant=refuse, parse_float=refuse)
    except ValueError as found:
        raise Wrong(f"no JSON: {found}: {line!r}") from None
    if not isinstance(value, dict):
        raise Wrong(f"no object: {text}")
    if text != json.dumps(value, ensure_ascii=False, separators=(",", ":")) + "\n":
        raise Wrong(f"not written in the one way: {text!r}")
    return value


# The schema, version 1, and 2 of the answers of `mig`. A form is a type, the forms of the members of an object, the form of
# each item of a list, or a value by itself; a tuple has the forms of which one has to be.

NAME = re.compile(r"[A-Za-z_][A-Za-z0-9_]{0,63}")
CLASS = re.compile(r"(port|task|births):[A-Za-z_][A-Za-z0-9_]*(:([1-9]|1[0-5]))?")
RULE = re.compile(r"K([1-9]|10)")
RIGHT = ("send", "receive", "once")
FACT = (
    {"class": CLASS, "kind": "hold", "right": RIGHT, "task": NAME, "text": str},
    {"class": CLASS, "kind": "carry", "right": RIGHT, "text": str, "to": CLASS},
    {"class": CLASS, "kind": "backup", "notify": CLASS, "text": str},
)
BY = (
    None,
    {"kind": "line", "line": int},
    {"argument": NAME, "kind": "slot", "routine": NAME, "subsystem": NAME, "type": str},
    {"kind": "subsystem", "subsystem": NAME},
    {"kind": "task", "task": NAME},
)
STEP = {"by": BY, "fact": FACT, "from": [int], "rule": RULE}
UNMET = {"fact": FACT, "line": int, "name": (None, str), "text": str}
WAIVED = {"because": str, **UNMET}
BROKEN = {"steps": [STEP], **UNMET}
# What is asked of a fact that is expected, or waived.
ASKED = {"unmet": [UNMET], "waived": [WAIVED]}
REASON = {
    "fact": (None, FACT),
    "kind": ("counts", "missing", "not closed", "trusted", "forbidden"),
    "line": (None, int),
    "rule": (None, RULE),
}
COUNTS = {"fact": None, "kind": "counts", "line": None, "rule": None}
# How many lines a change mends is there if two or more are broken, in the first object of the change.
CHANGE = tuple(
    {**change, **more}
    for more in ({}, {"mends": int})
    for change in (
        {"kind": "remove", "line": int, "text": str},
        {"kind": "change", "line": int, "text": str},
        {"kind": "add", "text": str},
    )
)
MENDS = {
    "cause": (None, {"lines": int, "text": str}),
    "command": "mend",
    "complete": bool,
    "mends": [{"changes": [CHANGE], "loses": int}],
    "schema": 1,
}
ATTACK = {"calls": [str], "cut": bool, "fact": FACT, "line": int, "real": bool, "text": str, "trusted": bool}
DISPOSITION = ("MOVE_RECEIVE", "MOVE_SEND", "MOVE_SEND_ONCE", "COPY_SEND", "MAKE_SEND", "MAKE_SEND_ONCE")
# Where the sender picks one.
DISPOSITION += ("PORT_SEND", "PORT_SEND_ONCE", "POLYMORPHIC")
SLOT = {
    "admits": (None, [CLASS]),
    "argument": NAME,
    "disposition": tuple(f"MACH_MSG_TYPE_{word}" for word in DISPOSITION),
    "id": int,
    "message": ("request", "reply"),
    "routine": NAME,
    "subsystem": NAME,
    "type": NAME,
}
PROMISE = {
    "class": (None, CLASS),
    "line": int,
    "right": (None, RIGHT),
    "task": (None, NAME),
    "text": str,
    "verb": ("takes", "gives", "sends", "replies", "replies fit"),
}
DELIVERED = {"class": CLASS, "items": [str], "lines": [int], "text": str}
ADMITTED = {"admits": [CLASS], "lines": [int], "subsystem": NAME, "text": str, "type": NAME}
DRAWN = {"fact": FACT, "first": bool, "forbidden": (None, int)}
EVENT = {"call": str, "number": int, "reply": str, "task": re.compile(rf"{NAME.pattern}|@\d+")}
# Why a routine is left out, and why a type is not read.
WORDS = ("TooMany", "IdRange", "OldForm", "Unexpected", "UnknownType", "NoRequestPort", "ReplyPort", "TwiceNamed")
LEFT = {
    "carries": [{"argument": str, "type": str}],
    "file": str,
    "id": int,
    "line": int,
    "routine": str,
    "text": str,
    "word": WORDS,
}
TYPE = {"file": str, "line": int, "name": str, "text": str, "word": WORDS}
ANSWER = (
    {"answer": "YES", "command": ("attack", "check"), "notices": [str], "schema": 1},
    {"answer": "YES", "command": "verify", "notices": [str], "schema": 1, **ASKED},
    {
        **ASKED,
        "answer": "NO",
        "broken": [BROKEN],
        "command": "verify",
        "common": (None, {"fact": FACT, "lines": int}),
        "exposed": (None, BROKEN),
        "notices": [str],
        "schema": 1,
    },
    {"answer": "NO", "command": ("check", "live"), "notices": [str], "reason": REASON, "schema": 1},
    {"answer": "attacks", "attacks": [ATTACK], "command": "attack", "notices": [str], "schema": 1},
    {"answer": ("chain", "none"), "command": "explain", "fact": FACT, "schema": 1, "steps": [STEP]},
    {"answer": "facts", "command": "facts", "facts": [FACT], "schema": 1},
    {"answer": "NO", "command": ("facts", "graph"), "reason": COUNTS, "schema": 1},
    {"answer": "graph", "classes": [CLASS], "command": "graph", "facts": [DRAWN], "schema": 1, "tasks": [NAME]},
    {"answer": "none", "command": "graph", "fact": FACT, "schema": 1},
    {"answer": "slots", "command": "slots", "schema": 1, "slots": [SLOT]},
    {"admitted": [ADMITTED], "answer": "promises", "command": "promises", "delivered": [DELIVERED], "promises": [PROMISE],
     "schema": 1},
    {"answer": "replay", "command": "replay", "events": [EVENT], "ports": int, "schema": 1},
    {"answer": ("journal", "all wait"), "command": "live", "events": [EVENT], "ports": int, "schema": 1, "waits": [int]},
    {"answer": "YES", "command": "mend", "schema": 1},
    {"answer": ("changes", "none"), **MENDS},
    {
        "answer": ("cut", "not cut"),
        "command": "mig",
        "files": [{"file": str, "left_out": [LEFT], "read": int, "types": [TYPE]}],
        "schema": 2,
    },
    {
        "answer": "fault",
        "column": (None, int),
        "command": tuple(COMMANDS),
        "fault": str,
        "file": (None, str),
        "line": (None, int),
        "notes": [str],
        "schema": 1,
        "text": (None, str),
    },
)


def wrong(value, form, path="answer"):
    """What of a value is not of its form, or None."""
    if isinstance(form, tuple):
        return None if any(wrong(value, one) is None for one in form) else f"{path} has none of its forms: {value!r}"
    if isinstance(form, dict):
        if not isinstance(value, dict) or value.keys() != form.keys():
            return f"{path} has other keys than {[*form]}: {value!r}"
        return next(filter(None, (wrong(value[key], one, f"{path}.{key}") for key, one in form.items())), None)
    if isinstance(form, list):
        if not isinstance(value, list):
            return f"{path} is no list: {value!r}"
        return next(filter(None, (wrong(item, form[0], f"{path}[{n}]") for n, item in enumerate(value))), None)
    if isinstance(form, re.Pattern):
        fits = isinstance(value, str) and form.fullmatch(value)
    elif form is int:
        fits = type(value) is int and value >= 0
    elif isinstance(form, type):
        fits = isinstance(value, form)
    else:
        fits = type(value) is type(form) and value == form
    return None if fits else f"{path} is wrong: {value!r}"


def difference(right, value, path="answer"):
    """The first part in which a value is not right, or None."""
    if isinstance(right, dict) and isinstance(value, dict) and right.keys() == value.keys():
        return next(filter(None, (difference(right[key], value[key], f"{path}.{key}") for key in right)), None)
    if isinstance(right, list) and isinstance(value, list) and len(right) == len(value):
        parts = (difference(*pair, f"{path}[{n}]") for n, pair in enumerate(zip(right, value)))
        return next(filter(None, parts), None)
    is_same = type(right) is type(value) and right == value
    return None if is_same else f"{path} is not {json.dumps(right)[:500]} but {json.dumps(value)[:500]}"


# How texts are shown


def shown(text):
    """A text without control characters."""
    names = {"\n": r"\n", "\t": r"\t", "\r": r"\r", "\\": r"\\"}
    is_control = lambda sign: ord(sign) < 0x20 or 0x7F <= ord(sign) < 0xA0
    return "".join(names.get(sign) or (f"\\x{ord(sign):02x}" if is_control(sign) else sign) for sign in text)


def unshown(text):
    """The text that is shown so."""
    names = {"n": "\n", "t": "\t", "r": "\r", "\\": "\\"}
    return re.sub(r"\\(x..|.)", lambda sign: names.get(sign[1]) or chr(int(sign[1][1:], 16)), text)


# A command


@dataclass
class Asked:
    """A command by its words: what it is, its options and flags, and its MIG files."""

    words: list
    options: dict = field(default_factory=dict)
    files: list = field(default_factory=list)

    def __post_init__(self):
        left = self.words[1:]
        while left:
            word = left.pop(0)
            name, _, value = word.removeprefix("--").partition("=")
            if word.startswith("--"):
                self.options[name] = value if "=" in word else left.pop(0) if name in WORDED and left else True
            else:
                self.files.append(word)

    @property
    def command(self):
        return self.words[0]

    def has(self, option):
        return option in self.options

    def without(self, *options):
        """Its words without these options, which have no word of their own."""
        return [word for word in self.words if word not in [f"--{option}" for option in options]]

    def free_of(self, option):
        """Its words without this option, which has a word of its own."""
        words, name = [], f"--{option}"
        for before, word in zip(["", *self.words], self.words):
            if before != name and word != name and not word.startswith(f"{name}="):
                words.append(word)
        return words

    def named(self):
        """The files that it names."""
        return [self.options[name] for name in ("wiring", "policy", "cert", "script") if self.has(name)] + self.files


@dataclass
class Printed:
    """What a run prints, and its status."""

    status: int
    out: str
    err: str

    def lines(self):
        return self.out.split("\n")[:-1]

    def notices(self):
        return self.err.split("\n")[:-1]


@dataclass
class Texts:
    """What a command prints as text: by itself, and with all that is behind it (`whole`): quotes, sources and places; and
    the same of all lines of a policy, if one is asked for (`every`)."""

    plain: Printed
    whole: Printed
    every: Printed


def whole_words(asked):
    """The words of a command of which all is printed that its object says."""
    by = ["--by"] if asked.command == "explain" and not asked.has("by") else []
    return [asked.command, "--verbose", *by, *asked.without("verbose", "tree", "brief")[1:]]


def every_words(asked, words):
    """The words of a command about all lines of a policy."""
    return words if asked.command != "verify" else Asked(words).free_of("line")


# The objects of texts


def fact_object(text):
    """A fact by its text."""
    kind, first, second, *right = text.split(" ")
    if kind == "hold":
        return {"class": second, "kind": kind, "right": right[0], "task": first, "text": text}
    if kind == "carry":
        return {"class": second, "kind": kind, "right": right[0], "text": text, "to": first}
    return {"class": first, "kind": kind, "notify": second, "text": text}


def source_object(rule, source):
    """Where a step comes from, by the text behind `by`."""
    if source is None:
        return None
    if rule == "K1":
        return {"kind": "line", "line": int(source.removeprefix("line "))}
    if rule == "K4":
        subsystem, routine, argument, of, type_name = SLOT_TEXT.fullmatch(source).groups()
        if of != subsystem:
            raise Wrong(f"a slot of two subsystems: {source}")
        return {"argument": argument, "kind": "slot", "routine": routine, "subsystem": subsystem, "type": type_name}
    if rule == "K5":
        return {"kind": "subsystem", "subsystem": source}
    if rule != "K7" or not source.startswith("task:"):
        raise Wrong(f"{rule} has no such source: {source}")
    return {"kind": "task", "task": source.removeprefix("task:")}


def step_object(number, line):
    """A step by its line."""
    parts = STEP_TEXT.fullmatch(line)
    if not parts or int(parts[1]) != number:
        raise Wrong(f"no step: {line}")
    _, rule, fact, *places, source = parts.groups()
    places = [int(place) for place in places if place]
    return {"by": source_object(rule, source), "fact": fact_object(fact), "from": places, "rule": rule}


def steps_object(lines):
    return [step_object(number, line) for number, line in enumerate(lines)]


@functools.lru_cache(8)
def lines_in(path, stamp):
    """The lines of a file that was changed last at this time."""
    return path.read_bytes().decode().split("\n")


def line_of(path, number):
    """The line of this number of a file, without blanks at its ends."""
    stamp = path.stat()
    return lines_in(path, (stamp.st_ino, stamp.st_size, stamp.st_mtime_ns))[number - 1].strip(" \t\r")


def first_common(lines):
    """What the first line says that several chains have in common, if it does, and the other lines."""
    found = re.fullmatch(rf"# (\d+) of (\d+) lines by: ({FACT_TEXT})", lines[0]) if lines else None
    if not found:
        return None, None, lines
    return {"fact": fact_object(found[3]), "lines": int(found[1])}, int(found[2]), lines[1:]


def blocks(lines):
    """The lines that begin at the margin, each with those below it, without their two blanks."""
    found = []
    for line in lines:
        if line.startswith("  ") and found:
            found[-1][1].append(line[2:])
        else:
            found.append((line, []))
    return found


def head_object(head, below, folder, asked):
    """What is told of a fact: the kind of the line, and its object. Behind what has no chain the line of the policy need not
    be shown."""
    kind, line, name, fact, because = HEAD_TEXT.fullmatch(head).groups()
    if (kind is None) != (because is not None) or kind == "trusted" and name is not None:
        raise Wrong(f"no line of an answer: {head}")
    text = line_of(folder / asked.options["wiring" if kind == "trusted" else "policy"], int(line))
    quote, has_chain = f"# {shown(text)}", kind in ("trusted", "forbidden")
    if below[:1] != [quote] and (has_chain or below):
        raise Wrong(f"another quote than {quote!r}: {below[:1]!r}")
    made = {"fact": fact_object(fact), "line": int(line), "name": name, "text": text}
    if has_chain:
        made["steps"] = [] if asked.has("brief") else steps_object(below[1:])
    elif below[1:]:
        raise Wrong(f"a chain of {head}")
    if because is not None:
        made["because"] = because
    return kind or "waived", made


def asked_objects(lines, folder, asked):
    """What lines tell that are asked of facts: the objects of each kind."""
    found = {"trusted": [], "forbidden": [], "expected": [], "waived": []}
    for block in blocks(lines):
        kind, made = head_object(*block, folder, asked)
        found[kind].append(made)
    return found


def without_yes(printed):
    """The lines of an answer without YES, which is the last of them with status 0, and is not there otherwise."""
    lines = printed.lines()
    if (lines[-1:] == ["YES"]) != (printed.status == 0):
        raise Wrong(f"YES does not go with the status: {printed}")
    return lines[:-1] if printed.status == 0 else lines


def verify_object(folder, asked, texts):
    told = {"command": "verify", "notices": texts.plain.notices(), "schema": 1}
    common, count, lines = first_common(without_yes(texts.whole))
    found = asked_objects(lines, folder, asked)
    told |= {"unmet": found["expected"], "waived": found["waived"]}
    if texts.whole.status == 0:
        if found["trusted"] or found["forbidden"] or found["expected"]:
            raise Wrong(f"YES behind a line of NO: {lines}")
        return {"answer": "YES", **told}
    exposed = asked_objects(first_common(without_yes(texts.every))[2], folder, asked)["trusted"]
    broken = found["forbidden"]
    if common and (count != len(broken) or asked.has("line")):
        raise Wrong(f"{count} lines are broken of {len(broken)}")
    return {"answer": "NO", "broken": broken, "common": common, "exposed": exposed[0] if exposed else None, **told}


def reason_object(line):
    """The reason why a certificate is refused, by its line."""
    made = dict(COUNTS)
    if line == "NO counts":
        return made
    form = rf"NO (missing|not closed K\d+|\w+ line (\d+)){NAME_TEXT}(?: ({FACT_TEXT}))?"
    kind, number, _, fact = re.fullmatch(form, line).groups()
    made["kind"] = kind.split(" line")[0].split(" K")[0]
    made["fact"] = fact_object(fact) if fact else None
    made["line"] = int(number) if number else None
    made["rule"] = kind.removeprefix("not closed ") if "K" in kind else None
    return made


def check_object(folder, asked, texts):
    told = {"command": "check", "notices": texts.plain.notices(), "schema": 1}
    if texts.plain.out == "YES\n":
        return {"answer": "YES", **told}
    (line,) = texts.plain.lines()
    return {"answer": "NO", "reason": reason_object(line), **told}


def cut_lines(notices):
    """Which lines were not searched to the end, by the lines on standard error: whether of a trusted task, and the number."""
    found = (re.fullmatch(r"machcheck: attack: (trusted )?line (\d+): not all ways were tried", line) for line in notices)
    return {(bool(parts[1]), int(parts[2])) for parts in found if parts}


def attack_object(folder, asked, texts):
    """What is said of attacks. What is told beside them, of what is expected or waived, is not in the object."""
    told = {"command": "attack", "notices": texts.plain.notices(), "schema": 1}
    lines, cut, attacks = without_yes(texts.plain), cut_lines(texts.plain.notices()), []
    if asked.has("line"):
        # Of one line the output is a script: what is told beside its calls may be a comment.
        heads = re.compile(r"(?:# )?(?=WAIVED line |NO expected line )|# (?=REAL line )|(?=NO line )")
        lines = [heads.sub("", line, count=1) if heads.match(line) else f"  {line}" for line in lines]
    for head, calls in blocks(lines):
        if head.startswith(("NO expected ", "WAIVED ")):
            head_object(head, calls, folder, asked)
            continue
        word, trusted, line, fact, behind = re.fullmatch(
            rf"(REAL|NO) (trusted )?line (\d+) ({FACT_TEXT})( not reached)?", head).groups()
        if (word == "NO") != bool(behind) or word == "NO" and calls:
            raise Wrong(f"calls of {head}: {calls}")
        text = line_of(folder / asked.options["wiring" if trusted else "policy"], int(line))
        attacks.append({"calls": calls, "cut": (bool(trusted), int(line)) in cut, "fact": fact_object(fact),
                        "line": int(line), "real": word == "REAL", "text": text, "trusted": bool(trusted)})
    if texts.plain.status == 0:
        return {"answer": "YES", **told}
    return {"answer": "attacks", "attacks": attacks, **told}


def explain_object(folder, asked, texts):
    lines = texts.whole.lines()
    steps = [] if lines == ["none"] else steps_object(lines)
    answer = "chain" if steps else "none"
    return {"answer": answer, "command": "explain", "fact": fact_object(asked.options["fact"]), "schema": 1, "steps": steps}


def facts_object(folder, asked, texts):
    told = {"command": "facts", "schema": 1}
    if texts.plain.out == "NO counts\n":
        return {"answer": "NO", "reason": dict(COUNTS), **told}
    return {"answer": "facts", "facts": [fact_object(line) for line in texts.plain.lines()], **told}


def slots_object(folder, asked, texts, value):
    """What is said of slots, if their lines are those that are printed. The lines say less than the object."""
    requests = {(slot["subsystem"], slot["routine"], slot["argument"], slot["type"])
                for slot in value["slots"] if slot["message"] == "request"}
    text = ""
    for slot in value["slots"]:
        subsystem, routine, argument, of = names = tuple(slot[key] for key in ("subsystem", "routine", "argument", "type"))
        if slot["message"] == "request" or names not in requests:
            admits = "any" if slot["admits"] is None else ", ".join(slot["admits"]) or "none"
            text += f"{subsystem}.{routine}.{argument} ({subsystem}.{of}): {admits}\n"
    if text != texts.plain.out:
        raise Wrong(f"other slots than\n{text}:\n{texts.plain.out}")
    return value


def promise_object(line, said):
    """What a line of a wiring asks, by what is printed of it and by its number and words."""
    task, text, number = re.fullmatch(r"(\w+|each task): (.*) \(line (\d+)\)", line).groups()
    asked, words = said
    if asked != int(number):
        raise Wrong(f"line {number} in the place of {asked}: {words}")
    made = {"class": None, "line": int(number), "right": None, "task": task, "text": text}
    if words[:1] == ["replies"]:
        return {**made, "task": None, "verb": "replies fit"}
    _, of, verb, *limit = words
    if of != task:
        raise Wrong(f"line {number} is of another task than {task}: {words}")
    if limit != ["none"]:
        right, *named = limit if verb != "replies" else ["once", *limit]
        name = ":".join([*named[:2], *(str(int(kind)) for kind in named[2:] if int(kind))])
        made.update({"class": name, "right": right})
    return {**made, "verb": verb}


def said_lines(text):
    """The lines of a wiring that say something, behind its first, or those that they stand for: their numbers and words."""
    if version_of(text)[0] == 4:
        return Stood(text).lines
    lines = [(number, line.split("#")[0].split()) for number, line in enumerate(text.split("\n"), 1)]
    return [(number, words) for number, words in lines if words][1:]


def items_in(words):
    """The items behind `accepts`, in the words of a wiring. A task may have this name."""
    said = " ".join(words[words.index("accepts", 4 if words[0] == "port" else 2) + 1:])
    return [] if said == "none" else [" ".join(item.split()) for item in said.split(",")]


def class_words(words):
    """A class in the words of a wiring: births of kind 0 have no kind."""
    return " ".join([*words[:2], *(str(int(kind)) for kind in words[2:] if int(kind))])


def delivered_text(items):
    """What a port of these items delivers."""
    kinds = {"request": "requests of", "reply": "replies of", "destroyed": "port-destroyed notices"}
    told = [" ".join([kinds[item.split()[0]], *item.split()[1:]]) for item in items]
    return f"mach_msg delivers only {', '.join(told)}" if told else "mach_msg delivers nothing"


def enforced(text):
    """What has to be enforced at the ports of a wiring: of classes, and of types; and what is printed of it."""
    lines = said_lines(text)
    found = [(f"port {words[1]}", [number], items_in(words)) for number, words in lines if words[0] == "port"]
    for task in [task for _, words in lines if words[0] == "task" for task in words[1:]]:
        kinds = {0: ([], [])}
        for number, words in lines:
            if words[:2] == ["births", task]:
                kinds[int(words[2]) if words[2] != "accepts" else 0] = ([number], items_in(words))
        found += [(class_words(["births", task, str(kind)]), *kinds[kind]) for kind in sorted(kinds)]
    accepted = {item.split()[1] for _, _, items in found for item in items if " " in item}
    sorts = {}
    for number, words in lines:
        if words[0] == "admit" and words[1].split(".")[0] in accepted:
            numbers, classes = sorts.setdefault(words[1], ([], []))
            numbers += [number] * (number not in numbers)
            named = class_words(words[2:])
            classes += [named] * (words[2:] != ["none"] and named not in classes)
    colons = lambda name: name.replace(" ", ":")
    delivered = [{"class": colons(name), "items": items, "lines": numbers, "text": delivered_text(items)}
                 for name, numbers, items in found]
    admitted = []
    for sort, (numbers, classes) in sorts.items():
        subsystem, name = sort.split(".")
        text = f"only rights on ports of {', '.join(classes)}" if classes else "no right"
        admitted.append({"admits": [colons(one) for one in classes], "lines": numbers, "subsystem": subsystem, "text": text,
                         "type": name})
    by = lambda one: ("(no line)" if not one["lines"] else
                      f"(line{'s' * (len(one['lines']) > 1)} {', '.join(map(str, one['lines']))})")
    printed = [f"{name}: {one['text']} {by(one)}" for (name, _, _), one in zip(found, delivered)]
    printed += [f"{one['subsystem']}.{one['type']}: {one['text']} {by(one)}" for one in admitted]
    return delivered, admitted, printed


def promises_object(folder, asked, texts):
    text = (folder / asked.options["wiring"]).read_text(encoding="utf-8")
    delivered, admitted, printed = enforced(text)
    lines = texts.plain.lines()
    if lines[: len(printed)] != printed:
        raise Wrong(f"other promises than {printed}: {lines}")
    said = [(number, words) for number, words in said_lines(text) if words[0] in ("trust", "replies")]
    if len(lines) != len(printed) + len(said):
        raise Wrong(f"other promises than those of {said}: {lines}")
    promises = [promise_object(*pair) for pair in zip(lines[len(printed):], said)]
    return {"admitted": admitted, "answer": "promises", "command": "promises", "delivered": delivered, "promises": promises,
            "schema": 1}


NODE_LINE = re.compile(r'  "(\w+)" \[shape=box,label="([^"]*)"\];')
EDGE_LINE = re.compile(r'  "([^"]+)" -> "([^"]+)" \[label="([^"]*)"([^\]]*)\];')
LOOKS = {(True, False): "", (False, False): ",style=dashed", (True, True): ",color=red",
         (False, True): ",style=dashed,color=red"}


def drawn_edges(value, nodes):
    """The edges of a drawing of these nodes: the tail, the head and the looks of each, with its rights."""
    edges = {}
    for drawn in value["facts"]:
        fact = drawn["fact"]
        if fact["kind"] == "hold":
            (tail,) = [node for node, tasks in nodes.items() if fact["task"] in tasks]
            look = LOOKS[drawn["first"], drawn["forbidden"] is not None]
            edges.setdefault((tail, fact["class"], look), set()).add(fact["right"])
        elif fact["kind"] == "carry":
            edges.setdefault((fact["to"], fact["class"], ",style=dotted,arrowhead=vee"), set()).add(fact["right"])
        else:
            edges[fact["class"], fact["notify"], ",style=dotted,arrowhead=tee"] = {"backup"}
    return edges


def hold_text(fact):
    """The text of a hold of a task, a right, and the words of a class."""
    task, right, c = fact
    return f"hold {task} {':'.join(c)} {right}"


def forbidden_lines(folder, asked):
    """The first line of the policy that forbids each hold, by the text of the hold."""
    if not asked.has("policy"):
        return {}
    policy, found = (folder / asked.options["policy"]).read_text(), {}
    standing = Stood((folder / asked.options["wiring"]).read_text()).standing
    if policy3.version_of(policy) == 3:
        lines = policy3.asked(policy, standing).lines
        pairs = [(line.number, fact) for line in lines if line.key == "forbid" for fact in line.facts]
        for number, fact in pairs:
            found.setdefault(hold_text(fact), number)
        return found
    for number, line in enumerate(policy.split("\n"), 1):
        if (words := line.split("#")[0].split())[:1] == ["forbid"]:
            _, task, right, sort, name, *kind = words
            kind = int(kind[0]) if kind else 0
            found.setdefault(f"hold {task} {sort}:{name}{f':{kind}' if kind else ''} {right}", number)
            for port in standing.members.get((name, kind), []) if sort == "births" else []:
                found.setdefault(f"hold {task} port:{port} {right}", number)
    return found


def graph_object(folder, asked, texts, value):
    """What is said of a drawing, if the drawing that is printed is one of the same facts."""
    told = {"command": "graph", "schema": 1}
    if texts.plain.out == "NO counts\n":
        return {"answer": "NO", "reason": dict(COUNTS), **told}
    if texts.plain.out == "none\n":
        return {"answer": "none", "fact": fact_object(asked.options["fact"]), **told}
    nodes, edges, lines = {}, {}, texts.plain.lines()
    for line in lines[2:-1]:
        if node := NODE_LINE.fullmatch(line):
            nodes[node[1]] = node[2].split("\\n")
        else:
            tail, head, rights, look = EDGE_LINE.fullmatch(line).groups()
            edges[tail, head, look] = set(rights.split(", "))
    if edges != drawn_edges(value, nodes):
        raise Wrong(f"other edges than\n{drawn_edges(value, nodes)}:\n{edges}")
    facts, forbidden = [drawn["fact"] for drawn in value["facts"]], forbidden_lines(folder, asked)
    if {name for tasks in nodes.values() for name in tasks} != {*value["tasks"]}:
        raise Wrong(f"other tasks than {value['tasks']}: {nodes}")
    if {fact[key] for fact in facts for key in ("class", "to", "notify") if key in fact} != {*value["classes"]}:
        raise Wrong(f"other classes than those of the facts: {value['classes']}")
    for drawn in value["facts"]:
        if drawn["forbidden"] != forbidden.get(drawn["fact"]["text"]):
            raise Wrong(f"another line forbids {drawn}: {forbidden}")
    return value


def call_of(words):
    """The words of a call as they are written once: HEX without blanks, numbers without zeros before them, and no kind 0."""
    name, *parameters = words
    if name == "send":
        return f"send {''.join(parameters).lower()}"
    if name == "allocate" and len(parameters) == 3 and int(parameters[2]) == 0:
        parameters.pop()
    number = re.compile(r"[+-]?\d+")
    return " ".join(["receive" if name == "wait" else name,
                     *(str(int(word)) if number.fullmatch(word) else word for word in parameters)])


def script_of(folder, asked):
    """The lines of a script that say something: the task, and the call."""
    lines = (folder / asked.options["script"]).read_text().split("\n")
    said = [words for line in lines if (words := line.split("#")[0].split())]
    return [(re.sub(r"@0*(?=\d)", "@", words[0]), call_of(words[1:])) for words in said]


def events_object(folder, asked, lines):
    """The events of a script, by what is printed of them, and how many ports are live. Each task makes the calls of its
    lines in order."""
    *lines, end = lines
    calls, events = {}, []
    for task, call in reversed(script_of(folder, asked)):
        calls.setdefault(task, []).append(call)
    for number, line in enumerate(lines):
        at, task, reply = line.split(" ", 2)
        if int(at) != number:
            raise Wrong(f"another number: {line}")
        events.append({"call": calls[task].pop(), "number": number, "reply": reply, "task": task})
    count, ports = re.fullmatch(r"end events (\d+) ports (\d+)", end).groups()
    if int(count) != len(events):
        raise Wrong(f"another number of events than {len(events)}: {end}")
    return {"events": events, "ports": int(ports), "schema": 1}


def replay_object(folder, asked, texts):
    return {"answer": "replay", "command": "replay", **events_object(folder, asked, texts.plain.lines())}


def live_object(folder, asked, texts):
    if texts.plain.status == 1:
        (line,) = texts.plain.lines()
        return {"answer": "NO", "command": "live", "notices": [], "reason": reason_object(line), "schema": 1}
    waits = ALL_WAIT.search(texts.plain.err)
    lines = [int(number) for number in waits[1].split()] if waits else []
    events = events_object(folder, asked, texts.plain.lines())
    return {"answer": "all wait" if waits else "journal", "command": "live", "waits": lines, **events}


# The first line of the mends of a wiring of version 4, if they are of the lines that it stands for.
EXPANDED = "# lines are those of machcheck expand"


def mended_line(path, number, is_expanded):
    """The line of a wiring that a mend means, without blanks at its ends, and its words."""
    text = Stood(path.read_text()).text().split("\n")[number - 1] if is_expanded else line_of(path, number)
    return text, " ".join(text.split("#")[0].replace(",", " , ").split())


def change_object(folder, asked, line, is_expanded):
    """A line of a mend: its number, the change with how many lines it mends, and how many facts the mend loses, if the line
    says so."""
    removes, changes, adds = r"remove line (\d+) # ([^#]*?)", r"change line (\d+) # ([^#]*?)", r"add ([^#]*?)"
    parts = re.fullmatch(rf"(\d+) (?:{removes}|{changes}|{adds})(?: # ([^#]*))?", line)
    if not parts:
        raise Wrong(f"no line of a mend: {line}")
    number, removed, words, changed, text, added, note = parts.groups()
    lost = re.search(r"loses (\d+) facts", note or "")
    count = re.search(r"mends (\d+) (?:more )?of \d+ lines$", note or "")
    if removed:
        text, right = mended_line(folder / asked.options["wiring"], int(removed), is_expanded)
        if right != words:
            raise Wrong(f"line {removed} has other words than {words}: {text}")
        change = {"kind": "remove", "line": int(removed), "text": text}
    elif changed:
        change = {"kind": "change", "line": int(changed), "text": text}
    else:
        change = {"kind": "add", "text": added}
    if count:
        change["mends"] = int(count[1])
    return int(number), change, int(lost[1]) if lost else None


def mend_object(folder, asked, texts):
    told = {"command": "mend", "schema": 1}
    lines = texts.plain.lines()
    is_expanded = lines[0] == EXPANDED
    lines = lines[is_expanded:]
    if lines == ["YES"]:
        return {"answer": "YES", **told}
    found = re.fullmatch(rf"# all (\d+) broken lines have ({FACT_TEXT}) in their chains", lines[0])
    cause = {"lines": int(found[1]), "text": found[2]} if found else None
    mends = []
    for line in [] if lines[-1] == "none" else lines[bool(found) :]:
        number, change, lost = change_object(folder, asked, line, is_expanded)
        if (number > len(mends)) != (lost is not None):
            raise Wrong(f"a mend says once what it loses: {line}")
        if number > len(mends):
            mends.append({"changes": [], "loses": lost})
        mends[-1]["changes"].append(change)
    complete = "machcheck: mend: not all changes were tried" not in texts.plain.notices()
    return {"answer": "changes" if mends else "none", "cause": cause, "complete": complete, "mends": mends, **told}


PLACE = r"(?P<file>.*):(?P<line>\d+): "
WHY = r"(?P<word>[A-Z]\w+) (?P<text>.*?)"
CARRIES = r"(?:, carries (?P<carried>[\w?]+ \([\w?]+\)(?:, [\w?]+ \([\w?]+\))*))?"
NOT_READ = re.compile(rf"{PLACE}type (?P<name>\w+|\?) not read: {WHY}")
LEFT_OUT = re.compile(rf"{PLACE}routine (?P<name>\w+|\?) \(id (?P<id>\d+)\) left out: {WHY}{CARRIES}")


def told_object(told):
    """Where a type or a routine is, why it is not read, and the token at which that is told."""
    return {"file": unshown(told["file"]), "line": int(told["line"]), "text": unshown(told["text"]), "word": told["word"]}


def left_object(told):
    """A routine that is left out, by its line."""
    carries = re.findall(r"([\w?]+) \(([\w?]+)\)", told["carried"] or "")
    carries = [{"argument": argument, "type": of} for argument, of in carries]
    return dict(sorted({"carries": carries, "id": int(told["id"]), "routine": told["name"], **told_object(told)}.items()))


def type_object(told):
    """A type that is not read, by its line."""
    return dict(sorted({"name": told["name"], **told_object(told)}.items()))


def taken(lines, form):
    """The first lines that are of a form: they are taken away."""
    found = []
    while lines and (told := form.fullmatch(lines[0])):
        found.append(told)
        lines.pop(0)
    return found


def file_object(name, lines):
    """What is read of a file, by its lines, which are taken away."""
    types = [type_object(told) for told in taken(lines, NOT_READ)]
    left = [left_object(told) for told in taken(lines, LEFT_OUT)]
    carrying = sum(bool(routine["carries"]) for routine in left)
    if lines[0] == f"{shown(name)}: cut by an older mig: make it anew":
        lines.pop(0)
    count, of, rights = re.fullmatch(r"(\d+) of (\d+) routines read(?:, (\d+) of those left out carr\w+ rights)?",
                                     lines.pop(0).removeprefix(f"{shown(name)}: ")).groups()
    if int(of) != int(count) + len(left) or int(rights or 0) != carrying:
        raise Wrong(f"another number of routines of {name}")
    return {"file": name, "left_out": left, "read": int(count), "types": types}


def mig_object(folder, asked, texts):
    lines = texts.plain.notices()
    files = [file_object(name, lines) for name in asked.files]
    if lines:
        raise Wrong(f"other lines: {lines}")
    return {"answer": "not cut" if texts.plain.status else "cut", "command": "mig", "files": files, "schema": 2}


MOST_SHOWN = 20_000  # bytes of a line before the place of a fault, at it, and behind it


def front_shown(text):
    """What is shown of a text: its first bytes, and two dots if these are not all."""
    front = text.encode()[:MOST_SHOWN].decode(errors="ignore")
    return shown(front) + ("" if front == text else "..")


def end_shown(text):
    """The same of its last bytes, with the dots in front."""
    end = text.encode()[-MOST_SHOWN:].decode(errors="ignore")
    return ("" if end == text else "..") + shown(end)


def first_signs(text, width):
    """The first signs of a text that are shown so wide."""
    at = 0
    while at < len(text) and len(shown(text[:at]) if width < 100 else text[:at]) < width:
        at += 1
    return text[:at]


def sources_of(lines, file):
    """The file and the line from which each line of a MIG file's text came, by the marks of lines in front of it."""
    number, found = 0, []
    for line in lines:
        number += 1
        found.append((file, number))
        mark = re.match(r'#[ \t]*(?:line[ \t]*)?(\d+)(?:[ \t]*"([^"]*)")?', line)
        if mark:
            number = int(mark[1]) - 1
            file = shown(re.sub(r"\\(.)", r"\1", mark[2])) if mark[2] is not None else file
    return found


def place_of(folder, asked, file, lines):
    """The place of a fault, by the lines behind it: the file, the line, its column and its whole text; and the notes. Of
    `mig` it is the place from which the line of the text came."""
    place = re.fullmatch(r"(.*):(\d+):(\d+)", lines[0]) if lines else None
    if not place:
        return file, None, None, None, [line[2:] for line in lines]
    (path,) = {folder / name for name in asked.named() if shown(name) == file}
    line, column = int(place[2]), int(place[3])
    every = path.read_bytes().decode().split("\n")
    sources = sources_of(every, file) if asked.command == "mig" else [(file, at) for at in range(1, len(every) + 1)]
    # A mark may have the same source as a line.
    texts = [text for text, source in zip(every, sources) if source == (place[1], line)]
    text = next((text for text in texts if not text.startswith("#")), texts[0])
    before, behind = end_shown(text[: column - 1]), text[column - 1 :]
    carets = lines[2].removeprefix("  " + len(before) * " ")
    words = ("", first_signs(behind, len(carets)))
    lines_of = {f"  {before}{front_shown(word)}{front_shown(behind[len(word) :])}" for word in words}
    if lines[1] not in lines_of or not re.fullmatch(r"\^+", carets):
        raise Wrong(f"another line or other carets than of {text[:200]!r}: {lines[1][:200]!r}, {lines[2][:200]!r}")
    return place[1], line, column, text, [note[2:] for note in lines[3:]]


def up_to_fault(err):
    """What is printed up to the line of the fault. Behind it may be its place and notes."""
    lines = err.split("\n")[:-1]
    last = max((at for at, line in enumerate(lines) if line.startswith("machcheck: ")), default=-1)
    return "".join(f"{line}\n" for line in lines[: last + 1])


def fault_object(folder, asked, texts):
    plain, whole = up_to_fault(texts.plain.err), texts.whole.err
    if not whole.startswith(plain) or texts.plain.err not in (plain, whole):
        raise Wrong(f"another fault: {whole}")
    head, _, fault = plain.split("\n")[-2].removeprefix("machcheck: ").rpartition(": ")
    file, line, column, text, notes = place_of(folder, asked, head, whole[len(plain) :].split("\n")[:-1])
    return {
        "answer": "fault",
        "column": column,
        "command": asked.command,
        "fault": fault,
        "file": file or None,
        "line": line,
        "notes": notes,
        "schema": 1,
        "text": text,
    }


OBJECTS = {
    "verify": verify_object,
    "check": check_object,
    "explain": explain_object,
    "facts": facts_object,
    "graph": graph_object,
    "slots": slots_object,
    "promises": promises_object,
    "replay": replay_object,
    "live": live_object,
    "mend": mend_object,
    "attack": attack_object,
    "mig": mig_object,
}
# Those of which the object says more than the text: they are given the object too.
MORE = ("graph", "slots")
ALL_WAIT = re.compile(r": AllWait((?: \d+)+)$", re.M)


def is_fault(plain):
    """Whether a run ends with a fault of a command. A journal that ends because all tasks wait is an answer."""
    return plain.status == 2 and up_to_fault(plain.err) != "" and not ALL_WAIT.search(plain.err)


def has_object(asked, plain):
    """Whether a run has an object: all but faults of the words."""
    is_of_words = plain.err.startswith("error: ") or plain.err == "machcheck: arguments: NotUtf8\n"
    return asked.command in COMMANDS and not is_of_words


def object_of(folder, asked, texts, value):
    """The object of an answer, or of a fault, with its keys in alphabetical order. Of some it is the one that is given, if
    the texts agree with it."""
    more = [value] if asked.command in MORE and not is_fault(texts.plain) else []
    made = (fault_object if is_fault(texts.plain) else OBJECTS[asked.command])(Path(folder), asked, texts, *more)
    return dict(sorted(made.items()))
