"""Scripts that the kernel plays, and what it answered to each call.

    case = Case(name, wiring, lines, answers, asked)    a script over a wiring's text
    play([case, ..])                                    plays all, some hundred in one boot
    case.calls, case.asked                              a Call for each line, and for each question

- `lines` are the script's lines that have words, and `answers` what the model answers to each, as
  `replay` prints it behind the number and the task. The model's names are made true on the kernel,
  so that later lines are good.
- `asked` are questions that the kernel alone is asked behind the script: a task's number, words,
  and the answer that is expected. Words are those of a call, or `type_of NAME` (answer `type
  MASK`), `same NAME task NUMBER` and `same NAME port NUMBER` (answers `yes`, `no`: the name's port
  is that task's kernel port, or the port that was made as that one of the script: the wiring's
  ports in order, then each receive right that was allocated), `suspend NAME` (`done`).
- Behind `play` a Call has: `line`, `task` (its number), `answer` (the model's), `kernel` (the
  kernel's answer in the same form, or None), and `left_out`, the reason why the kernel was not
  asked, or "".

`replayed(wiring, script, defs)` gives the lines of a script and what `machcheck replay` answers to
each; defs are a dict of texts by file name. MACHCHECK names the program, or bin/machcheck of this
checkout is run.
"""

import os
import re
import subprocess
import sys
import tempfile
from pathlib import Path

sys.dont_write_bytecode = True
ROOT = Path(__file__).resolve().parent.parent.parent
sys.path[:0] = [str(ROOT / "tests"), str(ROOT / "tests/oracles")]
import room
from machine import DEAD, NULL, Machine
from room import pack, words_of

PROGRAM = os.environ.get("MACHCHECK") or str(ROOT / "bin/machcheck")
CODES = {
    0: "done",
    3: "KERN_NO_SPACE",
    4: "KERN_INVALID_ARGUMENT",
    6: "KERN_RESOURCE_SHORTAGE",
    12: "KERN_NOT_IN_SET",
    13: "KERN_NAME_EXISTS",
    15: "KERN_INVALID_NAME",
    16: "KERN_INVALID_TASK",
    17: "KERN_INVALID_RIGHT",
    18: "KERN_INVALID_VALUE",
    19: "KERN_UREFS_OVERFLOW",
    20: "KERN_INVALID_CAPABILITY",
    21: "KERN_RIGHT_EXISTS",
    0xFFFFFED0: "MIG_BAD_ARGUMENTS",
    0x10000002: "MACH_SEND_INVALID_DATA",
    0x10000003: "MACH_SEND_INVALID_DEST",
    0x10000004: "MACH_SEND_TIMED_OUT",
    0x10000007: "MACH_SEND_INTERRUPTED",
    0x10000008: "MACH_SEND_MSG_TOO_SMALL",
    0x10000009: "MACH_SEND_INVALID_REPLY",
    0x1000000A: "MACH_SEND_INVALID_RIGHT",
    0x1000000F: "MACH_SEND_INVALID_TYPE",
    0x10000010: "MACH_SEND_INVALID_HEADER",
    0x10004002: "MACH_RCV_INVALID_NAME",
    0x10004003: "MACH_RCV_TIMED_OUT",
    0x10004009: "MACH_RCV_PORT_DIED",
    0x1000400A: "MACH_RCV_IN_SET",
}
TOO_LARGE = 0x10004004
LIMITS = ["refused KERN_NO_SPACE", "refused KERN_RESOURCE_SHORTAGE", "refused PROFILE_NO_SPACE"]
RIGHTS = {"send": 0, "receive": 1, "once": 2, "set": 3, "dead": 4}
TYPES = 0x1F0000    # the bits of a name's type that the model has
# What driver.c has by these names.
IS_TRAP, HAS_LISTS, IS_GUARDED, MAKES_TASK, IS_REQUEST, COMES_BACK = 1, 2, 4, 8, 16, 32
QUESTIONS = {"type_of": 1, "task": 2, "port": 3}
OF_WORKER = [CONTROL, REPLY, DONE] = range(0x7FFF0001, 0x7FFF0004)
AT_END, BEFORE_EACH, QUEUES_TOO = 1, 2, 4
# Options of mach_msg: with a timeout of 0; what is too large stays in the queue.
SEND, RECEIVE, SEND_TIMEOUT, RECEIVE_TIMEOUT, RECEIVE_LARGE = 1, 2, 0x10, 0x100, 0x800
MOST = 12000        # bytes that the driver has for a message that comes


def item(type):
    """The descriptor of one item in line: of a type's number, or of a port by its disposition."""
    return type | 32 << 8 | 1 << 16 | 1 << 28


BOOLEAN, INTEGER, NAME = item(0), item(2), item(15)


def arguments(data):
    """Where the arguments of a message have their data: the type's number, the first byte, and how
    many bytes."""
    at = 24
    while at < len(data):
        word, *rest = words_of(data[at : at + 12])
        kind, size, number, at = word & 255, word >> 8 & 255, word >> 16 & 4095, at + 4
        if word >> 29 & 1:
            kind, size, number, at = rest[0] & 0xFFFF, rest[0] >> 16, rest[1], at + 8
        length = number * size // 8
        yield kind, at, length
        at += (length + 3) // 4 * 4


def places_of_names(data):
    """Where a message that came has names of rights: first that of the reply right."""
    yield 8
    for kind, start, length in arguments(data):
        if 16 <= kind <= 21:
            yield from range(start, start + length, 4)


def names_in(data):
    return [words_of(data[at : at + 4])[0] for at in places_of_names(data)]


def as_wanted(data, wanted):
    """A message of the kernel, where its names are those that the driver has renamed them to."""
    made, names = bytearray(data), iter(wanted)
    made[:4] = pack([words_of(data[:4])[0] & 0x8000FFFF])   # the other bits are the kernel's own
    for at in places_of_names(data):
        name = next(names, None)
        if words_of(data[at : at + 4])[0] not in (NULL, DEAD) and name not in (NULL, DEAD, None):
            made[at : at + 4] = pack([name])
    return bytes(made)


def is_same(kernel, answer):
    """Whether the kernel's answer is that of a machine, which may leave two codes open."""
    one, _, other = answer.partition(" or ")
    return kernel == one or bool(other) and kernel == "refused " + other


class Call:
    """A line of a script: what the model answers, how the worker makes it, and what the kernel
    answered."""

    def __init__(self, line, task, words, answer):
        self.line, self.task, self.name, self.said = line, task, words[0], answer
        self.answer, _, back = answer.partition(" back ")
        self.kernel, self.left_out = None, ""
        self.question = self.flags = self.option = self.send_size = 0
        self.receive_size = self.receive_name = 0
        self.wanted, self.data = [], b""
        is_number = lambda word: self.name != "send" and re.fullmatch(r"-?\d+", word)
        self.given = [int(word) if is_number(word) else word for word in words[1:]]
        getattr(self, "make_" + self.name)(*self.given)
        if back:
            self.flags, self.wanted = COMES_BACK, [int(name) for name in back.split()]
        # A request to a port that is no task's would go there as a message: the driver looks first.
        if answer.startswith("refused") and self.flags & IS_REQUEST:
            self.flags |= IS_GUARDED
        self.leave_out()

    def leave_out(self):
        """The kernel has no filter, no kinds of births, and not the limits of the model."""
        if self.answer.startswith("denied"):
            self.left_out = "filter"
        elif self.answer in LIMITS:
            self.left_out = "limit"
        elif self.name == "allocate" and self.given[2:] not in ([], [0]):
            self.left_out = "kind" if self.answer == "refused KERN_INVALID_VALUE" else ""

    @property
    def is_equal(self):
        """Whether the kernel was not asked, or answered what the model answers."""
        return self.left_out != "" or is_same(self.kernel, self.answer)

    # How it is made

    def request(self, id, task, *body, wanted=(), flags=0):
        """A request to the kernel; the body has descriptors and values by turns."""
        bits = 0x80000000 if any(16 <= word & 255 for word in body[::2]) else 0
        self.data = pack([bits | 21 << 8 | 19, 24 + 4 * len(body), task, REPLY, 0, id, *body])
        self.flags, self.option, self.send_size = IS_REQUEST | flags, SEND | RECEIVE, len(self.data)
        self.receive_size, self.receive_name, self.wanted = 512, REPLY, list(wanted)

    def answered_name(self):
        """The name that the model answers."""
        told = self.answer.split()
        return [int(told[-1])] if told[0] in ("name", "task") else []

    def make_allocate(self, task, right, kind=0):
        self.request(3204, task, INTEGER, RIGHTS[right], wanted=self.answered_name())

    def make_get_refs(self, task, name, right):
        self.request(3207, task, NAME, name, INTEGER, RIGHTS[right])

    def make_insert_right(self, task, name, right, disp):
        """By the trap that libraries try first: its right is taken, and faults are found, as the
        manual has it."""
        self.flags, self.data = IS_TRAP, pack([task, name, right, disp])

    def make_extract_right(self, task, name, disp):
        self.request(3216, task, NAME, name, INTEGER, disp, wanted=self.answered_name())

    def make_set_qlimit(self, task, name, limit):
        self.request(3210, task, NAME, name, INTEGER, limit)

    def make_type(self, task, name):
        self.request(3201, task, NAME, name)

    def make_names(self, task):
        self.request(3200, task, flags=HAS_LISTS)

    def make_rename(self, task, old, new):
        self.request(3202, task, NAME, old, NAME, new)

    def make_deallocate(self, task, name):
        self.request(3206, task, NAME, name)

    def make_destroy(self, task, name):
        self.request(3205, task, NAME, name)

    def make_mod_refs(self, task, name, right, delta):
        self.request(3208, task, NAME, name, INTEGER, RIGHTS[right], INTEGER, delta)

    def make_move_member(self, task, member, after):
        self.request(3213, task, NAME, member, NAME, after)

    def make_request_notification(self, task, name, id, sync, notify, disp):
        body = [NAME, name, INTEGER, id, INTEGER, sync, item(disp), notify]
        self.request(3214, task, *body, wanted=self.answered_name())

    def make_task_create(self, task):
        self.request(2007, task, BOOLEAN, 1, wanted=self.answered_name(), flags=MAKES_TASK)

    def make_task_terminate(self, task):
        self.request(2008, task)

    def make_receive(self, name, limit):
        self.option, self.receive_name = RECEIVE | RECEIVE_TIMEOUT | RECEIVE_LARGE, name
        self.receive_size = min(limit, MOST)
        if self.answer.startswith("message"):
            self.wanted = names_in(bytes.fromhex(self.answer.split()[1]))

    def make_send(self, *digits):
        data = bytes.fromhex("".join(digits))
        self.data = data[:4] + pack([len(data)]) + data[8:]
        self.option, self.send_size = SEND | SEND_TIMEOUT, len(data)

    # Questions

    def make_suspend(self, task):
        """Does the name command the task?"""
        self.request(2056, task)

    def make_type_of(self, name):
        self.question, self.data = QUESTIONS["type_of"], pack([name, 0])

    def make_same(self, name, kind, number):
        self.question, self.data = QUESTIONS[kind], pack([name, number])

    def words_for_driver(self):
        data = words_of(self.data)
        how = [self.option, self.send_size, self.receive_size, self.receive_name]
        counts = [len(self.wanted), len(data)]
        return [self.task, self.question, self.flags, *how, *counts, *self.wanted, *data]

    # What the kernel answered

    def read(self, text):
        """Takes what the driver printed of it."""
        told = text.split()
        if told[0] == "no":     # the name is no task's: the model has to know that
            is_known = self.answer in ("refused KERN_INVALID_TASK", "refused KERN_INVALID_ARGUMENT")
            self.left_out, self.kernel = ("no task", None) if is_known else ("", text)
        elif told[0] == "dead":
            ends_itself = self.name == "task_terminate" and self.answer == "done"
            self.kernel = "done" if ends_itself else "dead task"
        elif told[0] == "stuck":
            self.kernel = text
        else:
            has_data = len(told) > 1 and told[1] != "rename"
            data = bytes.fromhex(told[1]) if has_data else b""
            self.kernel = self.answer_of(int(told[0], 16), data)
            self.kernel += text[text.index(" rename") :] if " rename" in text else ""

    def answer_of(self, code, data):
        """The answer as `replay` prints it."""
        if self.question == QUESTIONS["type_of"]:
            return f"type {code & TYPES}"
        if self.question:
            return "yes" if code else "no"
        if code == TOO_LARGE:
            return f"too large {words_of(data[4:8])[0]}"
        if code:
            return "refused " + CODES.get(code, hex(code))
        if self.name == "receive":
            return "message " + as_wanted(data, self.wanted).hex()
        return self.result(words_of(data)[6:]) if self.flags & IS_REQUEST else "done"

    def result(self, body):
        """The answer of a request that the kernel received."""
        if body[1]:
            return "refused " + CODES.get(body[1], hex(body[1]))
        if self.name == "get_refs":
            return f"refs {body[3]}"
        if self.name == "type":
            return f"type {body[3] & TYPES}"
        if self.name == "names":
            pairs = sorted(zip(body[10::2], body[11::2]))
            pairs = [(name, mask) for name, mask in pairs if name not in OF_WORKER]
            return " ".join(["names", *(f"{name}:{mask & TYPES}" for name, mask in pairs)])
        if self.name in ("allocate", "extract_right", "request_notification", "task_create"):
            name = body[3]
            if name not in (NULL, DEAD) and self.wanted and self.wanted[0] not in (NULL, DEAD):
                name = self.wanted[0]       # the driver has renamed it
            task = f"task {self.answer.split()[1]} " if self.answer.startswith("task") else ""
            return f"{task}name {name}"
        return "done"


def first_rights(machine):
    """What the driver is to give the tasks of a wiring at first: see `give_first` of driver.c."""
    kernels = {task.kernel: number for number, task in enumerate(machine.tasks)}
    spaces = [(number, task.space) for number, task in enumerate(machine.tasks)]
    held = [(number, name, entry) for number, space in spaces for name, entry in space.items()]
    receivers = {entry.port: [number, name] for number, name, entry in held if entry.receive}
    given = [[0, *receivers[port], 0, 0] for port in sorted(receivers)]
    for number, name, entry in held:
        if entry.kind == "once":
            given.append([2, number, name, *receivers[entry.port]])
        elif entry.port not in kernels:
            given += [[1, number, name, *receivers[entry.port]]] * entry.refs
        else:       # each task has a right to its own kernel port already
            is_own = machine.tasks[number].kernel == entry.port
            given += [[3, number, name, kernels[entry.port], 0]] * (entry.refs - is_own)
    return given


class Case:
    """A script over a wiring, and what the model and the kernel answer."""

    def __init__(self, name, wiring, lines, answers, asked=(), reads=0):
        self.name, self.wiring, self.lines, self.reads = name, wiring, list(lines), reads
        machine = Machine(wiring)
        self.tasks = [task.name for task in machine.tasks]
        self.first = first_rights(machine)
        pairs = zip(self.lines, answers, strict=True)
        self.calls = [self.call(line, answer) for line, answer in pairs]
        self.asked = [self.question(*question) for question in asked]
        self.reading = []

    def call(self, line, answer):
        task, *words = line.split("#")[0].split()
        number = int(task[1:]) if task[0] == "@" else self.tasks.index(task)
        return Call(line, number, words, answer)

    def question(self, task, words, answer):
        words = [str(word) for word in words]
        return Call(" ".join(words), task, words, answer)

    def made(self):
        """The calls that the kernel is asked."""
        return [call for call in [*self.calls, *self.asked] if call.left_out in ("", "no task")]

    def words_for_driver(self, number):
        calls = self.made()
        first = [word for right in self.first for word in right]
        words = [number, self.reads, len(self.tasks), len(self.first), *first, len(calls)]
        return words + [word for call in calls for word in call.words_for_driver()]

    def read(self, lines):
        """Takes what the driver printed of it; the reading is that behind the last call."""
        answers = [place for place, line in enumerate(lines) if line[0] != "="]
        for call, place in zip(self.made(), answers):
            call.read(lines[place].split(" ", 1)[1].strip())
        self.reading = lines[answers[-1] + 1 :] if answers else lines

    def first_difference(self):
        """The first call to which the kernel answered something else than the model, or None."""
        return next((call for call in [*self.calls, *self.asked] if not call.is_equal), None)


def play(cases, at_once=500):
    """Plays cases, so many in a boot: the seconds to the driver and in all, by boots."""
    took = []
    for first in range(0, len(cases), at_once):
        part = cases[first : first + at_once]
        log = room.boot([case.words_for_driver(number) for number, case in enumerate(part)])
        took.append((log.begun, log.seconds))
        for number, case in enumerate(part):
            case.read(log.scripts[number])
    return took


def script_lines(script):
    """The lines of a script that have words, without comments."""
    lines = [line.split("#")[0].split() for line in script.split("\n")]
    return [" ".join(words) for words in lines if words]


def replayed(wiring, script, defs):
    """The lines of a script, and what `machcheck replay` answers to each; MIG files are texts by
    name."""
    with tempfile.TemporaryDirectory() as folder:
        for name, text in {"wiring": wiring, "script": script, **defs}.items():
            Path(folder, name).write_text(text)
        words = [PROGRAM, "replay", "--wiring", "wiring", "--script", "script", *defs]
        run = subprocess.run(words, cwd=folder, capture_output=True, text=True)
    if run.returncode:
        raise ValueError(run.stderr)
    return script_lines(script), [line.split(" ", 2)[2] for line in run.stdout.splitlines()[:-1]]
