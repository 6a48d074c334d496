"""The machine once more, apart from machcheck: written from Mach 3 Kernel Interfaces and docs/, in plain Python.

`tests/oracles/replays` compares what `machcheck replay` prints with what this model prints. It is slow and simple on purpose: a
call changes a copy of the world, and a refusal throws the copy away.
"""

import copy
import struct
from dataclasses import dataclass, field

from expand import Stood, version_of

NULL, DEAD = 0, 0xFFFFFFFF
SPACE, REFERENCES, PORTS = 4096, 65535, 65536

# The right that a disposition needs, and the one that it gives.
NEEDS = {16: "receive", 17: "send", 18: "once", 19: "send", 20: "receive", 21: "receive"}
GIVES = {16: "receive", 17: "send", 18: "once", 19: "send", 20: "send", 21: "once"}
MOVES = {"receive": 16, "send": 17, "once": 18}
# What lines about trusted tasks limit.
VERBS = ["takes", "gives", "sends", "replies"]
MASKS = {"send": 0x10000, "receive": 0x20000, "once": 0x40000, "set": 0x80000, "dead": 0x100000}

# The forms of the interfaces in tests/oracles/replays: for each id its kind and its arguments. An argument of ports is a
# disposition, a type and a count, which is 1 if it is not there; one of data is a type's number, its size and a count.
# A count that is a pair means at most so many. A number may have several `numbers`: the dispositions among which the sender
# chooses. Data of any kind have none. The kind of a simpleroutine with a reply port is `replied`.
ANY_DATA = -2
INTERFACES = {
    "ping": {500: ("simple", [])},
    "xfer": {2000: ("simple", [(16, "xfer.box_t")])},
    "look": {2100: ("simple", [(19, "look.mach_port_t")])},
    "fsys": {
        3000: ("request", [(12, 8, ("at most", 64))]),
        3100: ("reply", [(2, 32, 1), (19, "fsys.file_t")]),
    },
    "pair": {
        1000: ("request", [(2, 32, 1)]),
        1100: ("reply", [(2, 32, 1), (2, 32, 1)]),
        1002: ("request", []),
        1102: ("reply", [(2, 32, 1)]),
    },
    "many": {
        4000: ("simple", [(18, "many.once_t"), (17, "many.sends_t"), (20, "many.makes_t")]),
        4001: ("request", []),
        4101: ("reply", [(2, 32, 1)]),
    },
}


class Refused(Exception):
    """A call is refused; the text is the printed reply."""


def code(name):
    raise Refused("refused " + name)


def deny(text):
    raise Refused("denied " + text)


@dataclass
class Entry:
    """What stands under a name: `kind` is port, once, set or dead; references are sends or dead references."""

    kind: str
    port: int = None
    receive: bool = False
    refs: int = 0
    member_of: int = None

    def has(self, right):
        if right == "receive":
            return self.receive
        if right == "send":
            return self.kind == "port" and self.refs > 0
        return self.kind == right

    def rights(self):
        return [(right, self.port) for right in ("receive", "send", "once") if self.has(right)]

    def is_spent(self):
        return self.kind in ("port", "dead") and not self.receive and self.refs == 0


@dataclass
class Argument:
    """Data as it stands in a message, or the items of a queued message."""

    name: int
    size: int
    number: int
    data: bytes
    items: list = None

    @property
    def is_port(self):
        return 16 <= self.name <= 21


@dataclass
class Queued:
    """A message in a queue. An item is None for null, 'dead', or a port and a right."""

    by_once: bool
    id: int
    reply: object = None
    args: list = field(default_factory=list)


@dataclass
class Port:
    """A port; its backup is None, 'dead' or the number of a port."""

    cls: str
    queue: list = field(default_factory=list)
    limit: int = 5
    backup: object = None
    receipts: int = 0


@dataclass
class Task:
    """A task, as it is printed, and the wired task whose class it has."""

    name: str
    kernel: int
    like: str
    is_alive: bool = True
    space: dict = field(default_factory=dict)


def least_unused(space):
    name = 1
    while name in space:
        name += 1
    return name


def name_of(space, port):
    """The name of the port's entry, but for send-once rights."""
    return next((name for name in sorted(space) if space[name].kind == "port" and space[name].port == port), None)


def drop_if_spent(space, name):
    if space[name].is_spent():
        del space[name]


def parse_message(data):
    bits, _, remote, local, _, id = struct.unpack("<6I", data[:24])
    args, at = [], 24
    while at < len(data):
        (word,) = struct.unpack("<I", data[at : at + 4])
        name, size, number = word & 255, word >> 8 & 255, word >> 16 & 0xFFF
        at += 4
        if word >> 29 & 1:
            name, size, number = struct.unpack("<HHI", data[at : at + 8])
            at += 8
        length = number * size // 8
        args.append(Argument(name, size, number, data[at : at + length]))
        at += (length + 3) // 4 * 4
    return bits & 255, bits >> 8 & 255, remote, local, id, args


def words(numbers):
    return b"".join(struct.pack("<I", number) for number in numbers)


def written(arg):
    """An argument's descriptor and data."""
    data = arg.data + b"\0" * (-len(arg.data) % 4)
    if arg.size <= 255 and arg.number <= 4095:
        return struct.pack("<I", arg.name | arg.size << 8 | arg.number << 16 | 1 << 28) + data
    return struct.pack("<IHHI", 1 << 28 | 1 << 29, arg.name, arg.size, arg.number) + data


def births_of(task, kind="0"):
    """The class of a task's births of a kind. Kind 0 has no number behind the task."""
    return f"births {task} {int(kind)}" if int(kind) else f"births {task}"


def class_named(words):
    """The class of these words of a line."""
    return births_of(*words[1:]) if words[0] == "births" else " ".join(words)


def lines_of(text):
    """The words of each line that has some."""
    lines = [line.split("#")[0].split() for line in text.splitlines()]
    return [words for words in lines if words]


class Machine:
    """The machine of a wiring over the forms of interfaces: of version 4 by the lines that it stands for."""

    def __init__(self, wiring, interfaces=INTERFACES):
        self.tasks, self.ports, self.births = [], {}, 0
        self.labels, self.admits, self.kinds = {}, {}, set()
        self.limits, self.replies_fit = {verb: {} for verb in VERBS}, False
        self.interfaces, self.numbers, ports = interfaces, {}, {}
        plain = Stood(wiring).older() if version_of(wiring)[0] == 4 else wiring
        for word, *rest in lines_of(plain)[1:]:
            if word == "task":
                self.numbers[rest[0]] = len(self.tasks)
                task = Task(rest[0], self.birth("task " + rest[0]), rest[0])
                self.tasks.append(task)
                self.give(task.space, task.kernel, "send")
            elif word == "port":
                ports[rest[0]] = self.birth("port " + rest[0])
                self.labels["port " + rest[0]] = " ".join(rest[4:])
                self.give(self.tasks[self.numbers[rest[2]]].space, ports[rest[0]], "receive")
            elif word == "births":
                words = rest.index("accepts", 1)
                cls = births_of(*rest[:words])
                self.labels[cls] = " ".join(rest[words + 1 :])
                self.kinds.add(cls)
            elif word == "hold":
                kernel = rest[2] == "task"
                port = self.tasks[self.numbers[rest[3]]].kernel if kernel else ports[rest[3]]
                self.give(self.tasks[self.numbers[rest[0]]].space, port, rest[1])
            elif word == "admit":
                admitted = self.admits.setdefault(rest[0], set())
                if rest[1] != "none":
                    admitted.add(class_named(rest[1:]))
            elif word == "trust":
                self.limit(*rest)
            elif word == "replies":
                self.replies_fit = True

    def limit(self, task, verb, *words):
        """Limits a task, and each that is made like it, to what its lines of a verb name."""
        left = self.limits[verb].setdefault(task, set())
        if words != ("none",):
            right, *cls = ("once", *words) if verb == "replies" else words
            left.add((right, class_named(cls)))

    def birth(self, cls):
        self.ports[self.births] = Port(cls)
        self.births += 1
        return self.births - 1

    def items_of(self, cls):
        """What a class accepts."""
        label = self.labels.get(cls, "none")
        return [] if label == "none" else [item.strip() for item in label.split(",")]

    # Trusted tasks

    def may(self, verb, task, right, port):
        """Whether a task may do so with a right on a live port: no line of the verb names its class, or one of those
        names the right on the port's class."""
        left = self.limits[verb].get(task.like)
        return left is None or (right, self.ports[port].cls) in left

    def may_on(self, verb, caller, target, right, port):
        """The same of what is done to a task: always to one of the caller's own class."""
        return caller.like == target.like or self.may(verb, caller, right, port)

    # Who counts as whom

    def counted(self, task):
        """The tasks that a task counts as: those to whose kernel ports it holds send rights, and so on from each that
        no line limits in what it takes."""
        living = {other.kernel: other for other in self.tasks if other.is_alive}
        found, left = [task], [task]
        while left:
            one = left.pop()
            if one.like not in self.limits["takes"]:
                ports = [entry.port for entry in one.space.values() if entry.has("send")]
                new = [living[port] for port in dict.fromkeys(ports) if port in living]
                new = [other for other in new if all(other is not known for known in found)]
                found, left = found + new, left + new
        return found

    def breaks(self, like, right, cls):
        """Whether a task of the class of this wired task, or a task that it counts as, holds the right on a port of the
        class."""
        holders = [one for task in self.tasks if task.like == like for one in self.counted(task)]
        held = [pair for one in holders for entry in one.space.values() for pair in entry.rights()]
        return any(which == right and port in self.ports and self.ports[port].cls == cls for which, port in held)

    # Spaces

    def give(self, space, port, right):
        """Gives a right to a space: its name there."""
        if port not in self.ports:
            return DEAD
        if right == "once":
            name = least_unused(space)
            space[name] = Entry("once", port)
            return name
        name = name_of(space, port)
        if name is None:
            name = least_unused(space)
            space[name] = Entry("port", port)
        if right == "receive":
            space[name].receive = True
        else:
            space[name].refs = min(REFERENCES, space[name].refs + 1)
        return name

    def take(self, space, name, disp, no_name="KERN_INVALID_NAME", no_right="KERN_INVALID_RIGHT"):
        """Takes a right from a name: its port."""
        if name not in space:
            code(no_name)
        entry = space[name]
        if not entry.has(NEEDS[disp]):
            code(no_right)
        if disp == 16:
            entry.receive, entry.member_of = False, None
            self.ports[entry.port].receipts = 0
        elif disp == 17:
            entry.refs -= 1
        elif disp == 18:
            del space[name]
            return entry.port
        drop_if_spent(space, name)
        return entry.port

    def take_item(self, space, name, disp, refusal):
        """What a message carries for a name."""
        if name == NULL:
            return None
        if name == DEAD:
            return "dead"
        entry = space.get(name)
        if entry and entry.kind == "dead" and disp in (17, 18, 19):
            if disp != 19:
                entry.refs -= 1
                drop_if_spent(space, name)
            return "dead"
        return self.take(space, name, disp, refusal, refusal), GIVES[disp]

    # Calls

    def step(self, number, call, *words):
        """The printed reply to a call."""
        if not (number < len(self.tasks) and self.tasks[number].is_alive):
            return "dead task"
        before = copy.deepcopy((self.tasks, self.ports, self.births))
        try:
            return getattr(self, call)(self.tasks[number], *words) or "done"
        except Refused as refusal:
            self.tasks, self.ports, self.births = before
            return str(refusal)

    def target(self, caller, name, refusal="KERN_INVALID_TASK"):
        entry = caller.space.get(name)
        if entry and entry.has("send"):
            for task in self.tasks:
                if task.is_alive and task.kernel == entry.port:
                    return task
        code(refusal)

    def entry(self, task, name):
        if name not in task.space:
            code("KERN_INVALID_NAME")
        return task.space[name]

    def entry_with(self, task, name, right):
        entry = self.entry(task, name)
        if not entry.has(right):
            code("KERN_INVALID_RIGHT")
        return entry

    def allocate(self, caller, task, right, kind=0):
        target = self.target(caller, task)
        cls = births_of(target.like, kind)
        if right in ("send", "once") or kind != 0 and (right != "receive" or cls not in self.kinds):
            code("KERN_INVALID_VALUE")
        if len(target.space) >= SPACE:
            code("KERN_NO_SPACE")
        if right == "receive" and len(self.ports) >= PORTS:
            code("KERN_RESOURCE_SHORTAGE")
        name = least_unused(target.space)
        if right == "receive":
            target.space[name] = Entry("port", self.birth(cls), True)
        else:
            target.space[name] = Entry(right, refs=1)
        return f"name {name}"

    def deallocate(self, caller, task, name):
        target = self.target(caller, task)
        entry = self.entry(target, name)
        if entry.kind == "set" or (entry.kind == "port" and entry.refs == 0):
            code("KERN_INVALID_RIGHT")
        if entry.kind == "once":
            self.drop_entry(target, name)
        else:
            entry.refs -= 1
            drop_if_spent(target.space, name)

    def destroy(self, caller, task, name):
        target = self.target(caller, task)
        self.entry(target, name)
        self.drop_entry(target, name)

    def mod_refs(self, caller, task, name, right, delta):
        target = self.target(caller, task)
        entry = self.entry_with(target, name, right)
        if right in ("send", "dead"):
            if entry.refs + delta < 0:
                code("KERN_INVALID_VALUE")
            if entry.refs + delta > REFERENCES:
                code("KERN_UREFS_OVERFLOW")
            entry.refs += delta
            drop_if_spent(target.space, name)
        elif delta == -1 and right == "receive":
            entry.receive, entry.member_of = False, None
            drop_if_spent(target.space, name)
            self.die([("receive", entry.port)])
        elif delta == -1:
            self.drop_entry(target, name)
        elif delta != 0:
            code("KERN_INVALID_VALUE")

    def get_refs(self, caller, task, name, right):
        entry = self.entry(self.target(caller, task), name)
        if not entry.has(right):
            return "refs 0"
        return f"refs {entry.refs if right in ('send', 'dead') else 1}"

    def insert_right(self, caller, task, name, right, disp):
        target = self.target(caller, task)
        if name in (NULL, DEAD):
            code("KERN_INVALID_VALUE")
        entry = caller.space.get(right)
        if right in (NULL, DEAD) or (entry and entry.kind == "dead" and disp in (17, 18, 19)):
            code("KERN_INVALID_CAPABILITY")
        port = self.take(caller.space, right, disp)
        given, space = GIVES[disp], target.space
        if not self.may_on("gives", caller, target, given, port):
            deny("NotGiven")
        if given != "once" and name_of(space, port) not in (None, name):
            code("KERN_RIGHT_EXISTS")
        joins = name in space
        if joins and (given == "once" or not (space[name].kind == "port" and space[name].port == port)):
            code("KERN_NAME_EXISTS")
        if joins and given == "send" and space[name].refs == REFERENCES:
            code("KERN_UREFS_OVERFLOW")
        if len(space) >= SPACE:
            code("KERN_NO_SPACE")
        if not joins:
            space[name] = Entry("once" if given == "once" else "port", port)
        if given == "receive":
            space[name].receive = True
        elif given == "send":
            space[name].refs += 1

    def extract_right(self, caller, task, name, disp):
        target = self.target(caller, task)
        port = self.take(target.space, name, disp)
        if not self.may_on("takes", caller, target, GIVES[disp], port):
            deny("NotTaken")
        if len(caller.space) >= SPACE:
            code("KERN_NO_SPACE")
        return f"name {self.give(caller.space, port, GIVES[disp])}"

    def move_member(self, caller, task, member, name):
        target = self.target(caller, task)
        entry = self.entry_with(target, member, "receive")
        if name == NULL:
            if entry.member_of is None:
                code("KERN_NOT_IN_SET")
            entry.member_of = None
        else:
            self.entry_with(target, name, "set")
            entry.member_of = name

    def request_notification(self, caller, task, name, id, sync, notify, disp):
        target = self.target(caller, task)
        if id != 69 or sync != 0 or disp not in (18, 21):
            code("KERN_INVALID_VALUE")
        port = self.ports[self.entry_with(target, name, "receive").port]
        backup = None
        if notify != NULL:
            entry = caller.space.get(notify)
            if notify == DEAD or (entry and entry.kind == "dead" and disp == 18):
                code("KERN_INVALID_CAPABILITY")
            backup = self.take(caller.space, notify, disp)
            if "destroyed" not in self.items_of(self.ports[backup].cls):
                deny("NotDestroyed")
            if not self.may_on("gives", caller, target, "once", backup):
                deny("NotGiven")
        before, port.backup = port.backup, backup
        if isinstance(before, int) and not self.may_on("takes", caller, target, "once", before):
            deny("NotTaken")
        if before is None:
            return f"name {NULL}"
        if before == "dead":
            return f"name {DEAD}"
        if len(caller.space) >= SPACE:
            code("KERN_NO_SPACE")
        return f"name {self.give(caller.space, before, 'once')}"

    def set_qlimit(self, caller, task, name, limit):
        target = self.target(caller, task)
        if limit > 16:
            code("KERN_INVALID_VALUE")
        self.ports[self.entry_with(target, name, "receive").port].limit = limit

    def mask(self, entry):
        return sum(mask for right, mask in MASKS.items() if entry.has(right))

    def type(self, caller, task, name):
        return f"type {self.mask(self.entry(self.target(caller, task), name))}"

    def names(self, caller, task):
        space = self.target(caller, task).space
        return " ".join(["names"] + [f"{name}:{self.mask(space[name])}" for name in sorted(space)])

    def rename(self, caller, task, old, new):
        space = self.target(caller, task).space
        if new in (NULL, DEAD):
            code("KERN_INVALID_VALUE")
        if old not in space:
            code("KERN_INVALID_NAME")
        if new in space:
            code("KERN_NAME_EXISTS")
        space[new] = space.pop(old)
        for entry in space.values():
            if entry.member_of == old:
                entry.member_of = new

    def task_terminate(self, caller, task):
        target = self.target(caller, task, "KERN_INVALID_ARGUMENT")
        rights = [right for name in sorted(target.space) for right in target.space[name].rights()]
        target.is_alive, target.space = False, {}
        self.die(rights, target.kernel)

    def task_create(self, caller, task):
        parent = self.target(caller, task, "KERN_INVALID_ARGUMENT")
        if len(caller.space) >= SPACE:
            code("KERN_NO_SPACE")
        if len(self.ports) >= PORTS:
            code("KERN_RESOURCE_SHORTAGE")
        number = len(self.tasks)
        child = Task(f"@{number}", self.birth(self.ports[parent.kernel].cls), parent.like)
        self.tasks.append(child)
        self.give(child.space, child.kernel, "send")
        return f"task {number} name {self.give(caller.space, child.kernel, 'send')}"

    # Death

    def drop_entry(self, task, name):
        rights = task.space.pop(name).rights()
        for entry in task.space.values():
            if entry.member_of == name:
                entry.member_of = None
        self.die(rights)

    def queued(self, ports):
        """The rights on the queues of ports."""
        messages = [message for port in sorted(ports) for message in self.ports[port].queue]
        items = [item for message in messages for item in [message.reply] + carried(message)]
        return [(item[1], item[0]) for item in items if isinstance(item, tuple)]

    def dying(self, rights, kernel):
        """The least set of ports that dies where these rights and this kernel port go."""
        dying = set()
        while True:
            more = {kernel} & set(self.ports)
            for right, port in rights + self.queued(dying):
                if right == "receive" and port in self.ports:
                    backup = self.ports[port].backup
                    if backup is None or backup == "dead" or backup in dying:
                        more.add(port)
            if more <= dying:
                return dying
            dying |= more

    def die(self, rights, kernel=None):
        dying = self.dying(rights, kernel)
        gone = rights + self.queued(dying)
        for port in dying:
            del self.ports[port]
        for task in self.tasks:
            turn_names(task.space, dying)
        for port in self.ports.values():
            turn_port(port, dying)
        for right, port in gone:
            if right == "once" and port in self.ports:
                self.ports[port].queue.append(Queued(True, 71))
        lost = {port for right, port in gone if right == "receive" and port in self.ports}
        for number in sorted(lost):
            port = self.ports[number]
            if isinstance(port.backup, int):
                notice = Argument(16, 32, 1, b"", [(number, "receive")])
                self.ports[port.backup].queue.append(Queued(True, 69, None, [notice]))
                port.backup, port.receipts = None, 0

    # Messages

    def form(self, cls, id):
        """The form of an id that a class accepts, and its interface."""
        for item in self.items_of(cls):
            if item != "destroyed":
                word, subsystem = item.split()
                kind, args = self.interfaces[subsystem].get(id, (None, None))
                if kind and (kind == "reply") == (word == "reply"):
                    return subsystem, kind, args
        deny("NoSuchId")

    def judge(self, cls, id, given, local):
        """The form that a message meets, and its interface."""
        subsystem, kind, args = self.form(cls, id)
        if kind == "reply":
            if not (given and fits(args[0], given[0])):
                deny("WrongShape 0")
            if any(given[0].data):
                args = args[:1]
        for place in range(max(len(args), len(given))):
            if place >= min(len(args), len(given)) or not fits(args[place], given[place]):
                deny(f"WrongShape {place}")
            wanted = args[place][0]
            if given[place].is_port and given[place].name not in getattr(wanted, "numbers", (wanted,)):
                deny(f"WrongDisposition {place}")
        if local != 0 and not (kind in ("request", "replied") and local in (18, 21)):
            deny("ReplySlot")
        return subsystem, args

    def judge_reply(self, caller, reply, subsystem):
        """Refuses a reply right on a live port that does not fit a request, or that its sender may not name."""
        if isinstance(reply, tuple):
            port, right = reply
            if self.replies_fit and f"reply {subsystem}" not in self.items_of(self.ports[port].cls):
                deny("ReplySlot")
            if not self.may("replies", caller, right, port):
                deny("NotForReply")

    def send(self, caller, digits):
        remote_disp, local_disp, remote, local, id, args = parse_message(bytes.fromhex(digits))
        no_destination = "MACH_SEND_INVALID_DEST"
        space = caller.space
        destination = self.take(space, remote, remote_disp, no_destination, no_destination)
        subsystem, form = self.judge(self.ports[destination].cls, id, args, local_disp)
        no_reply = "MACH_SEND_INVALID_REPLY"
        if local_disp == 0 and local not in (NULL, DEAD):
            code(no_reply)
        reply = self.take_item(space, local, local_disp, no_reply)
        self.judge_reply(caller, reply, subsystem)
        for place, arg in enumerate(args):
            if arg.is_port:
                names = struct.unpack(f"<{arg.number}I", arg.data)
                arg.items = [self.take_admitted(caller, name, arg.name, form[place][1], place) for name in names]
        port, by_once = self.ports[destination], remote_disp in (18, 21)
        if len(port.queue) >= port.limit and not by_once:
            code("MACH_SEND_TIMED_OUT")
        port.queue.append(Queued(by_once, id, reply, args))

    def take_admitted(self, caller, name, disp, slot, place):
        """What a slot carries for a name. The slot's type has to admit it, and then the sender may send it."""
        item = self.take_item(caller.space, name, disp, "MACH_SEND_INVALID_RIGHT")
        if isinstance(item, tuple):
            port, right = item
            if slot in self.admits and self.ports[port].cls not in self.admits[slot]:
                deny(f"NotAdmitted {place}")
            if not self.may("sends", caller, right, port):
                deny(f"NotSent {place}")
        return item

    def source(self, space, name):
        """The name that is received from."""
        entry = space.get(name)
        if not (entry and (entry.kind == "set" or entry.receive)):
            code("MACH_RCV_INVALID_NAME")
        if entry.member_of is not None:
            code("MACH_RCV_IN_SET")
        if entry.kind == "set":
            members = [member for member in sorted(space) if space[member].member_of == name]
        else:
            members = [name]
        for member in members:
            if self.ports[space[member].port].queue:
                return member
        code("MACH_RCV_TIMED_OUT")

    def receive(self, caller, name, limit):
        space = caller.space
        member = self.source(space, name)
        port = self.ports[space[member].port]
        message = port.queue.pop(0)
        blank = [shown(arg, [NULL] * len(arg.items or [])) for arg in message.args]
        size = 24 + sum(len(written(arg)) for arg in blank)
        if size > limit:
            raise Refused(f"too large {size}")
        reply = self.give_item(space, message.reply)
        args = [shown(arg, [self.give_item(space, item) for item in arg.items or []]) for arg in message.args]
        if len(space) > SPACE:
            code("PROFILE_NO_SPACE")
        complex_bit = 0x80000000 if any(arg.is_port for arg in args) else 0
        disps = (18 if message.by_once else 17) << 8 | (18 if message.reply is not None else 0)
        header = (complex_bit | disps, size, reply, member, port.receipts, message.id)
        port.receipts = (port.receipts + 1) % 2**32
        return "message " + (words(header) + b"".join(map(written, args))).hex()

    def give_item(self, space, item):
        if item is None:
            return NULL
        return DEAD if item == "dead" else self.give(space, *item)


def carried(message):
    """The items that a queued message carries, but for its reply."""
    return [item for arg in message.args for item in arg.items or []]


def shown(arg, names):
    """An argument as it is received with these names."""
    if arg.items is None:
        return arg
    return Argument(MOVES[GIVES[arg.name]], 32, len(names), words(names))


def turn_names(space, dying):
    """Names on dead ports turn dead, or go."""
    for name, entry in list(space.items()):
        if entry.port in dying:
            refs = 1 if entry.kind == "once" else entry.refs
            space[name] = Entry("dead", refs=refs)
            drop_if_spent(space, name)


def turn_port(port, dying):
    """What names dead ports on a port's queue or as its backup turns dead."""
    def turned(item):
        return "dead" if isinstance(item, tuple) and item[0] in dying else item

    if isinstance(port.backup, int) and port.backup in dying:
        port.backup = "dead"
    for message in port.queue:
        message.reply = turned(message.reply)
        for arg in message.args:
            if arg.items is not None:
                arg.items = [turned(item) for item in arg.items]


def fits(form, arg):
    """Whether an argument has the form's type and count; of ports, whatever their disposition."""
    name, size, count = form if len(form) == 3 else (*form, 1)
    if name == ANY_DATA:
        return not arg.is_port
    if name in NEEDS or arg.is_port:
        is_alike = name in NEEDS and arg.is_port
    else:
        is_alike = (arg.name, arg.size) == (name, size)
    bounded = isinstance(count, tuple) and arg.number <= count[1]
    return is_alike and (bounded or arg.number == count)


def replay(wiring, script, interfaces=INTERFACES):
    """What `machcheck replay` prints of a script, where `@N` has no leading zero."""
    machine, lines = Machine(wiring, interfaces), []
    for task, call, *rest in lines_of(script):
        if call == "send":
            rest = ["".join(rest)]
        else:
            rest = [int(word) if word.lstrip("-").isdigit() else word for word in rest]
        number = int(task[1:]) if task[0] == "@" else machine.numbers[task]
        lines.append(f"{len(lines)} {task} {machine.step(number, call, *rest)}")
    lines.append(f"end events {len(lines)} ports {len(machine.ports)}")
    return "\n".join(lines) + "\n"
