"""All rights behind a script: what the driver has read of the kernel, what a machine has, and where
they differ.

A reading is a dict of what is known of a task's name, as ("type", TASK, NAME), or of a port, as
("limit", PORT):

- of names: type, references, which port a right leads to (`port` or `once`), members of a set
- of ports: receiver, set, sequence number, limit, how long the queue is, how many send-once rights
  there are, whether there are senders, whether a port-destroyed notice is requested and to which
  port it goes, and all messages in order

Not there: make-send counts, and requests for other notices, which the model does not have. Of a
port whose receive right is in a queue there are only limit, request and messages.

Ports are numbers: a machine's own, and the driver's names. They are mapped one to one by where they
are: a port that a task has under a name is the one that the machine has there. One that fits
nowhere, or twice, is a difference. """

import collections

from cases import TYPES, arguments, words_of
from machine import DEAD, MASKS, NULL, carried

DRIVER, FIRST_MARK = 0xFFFF, 0x40000000     # as in driver/reading.h
STATUS = [
    "set", "seqno", "make-sends", "limit", "queued", "once rights", "has senders", "has request",
]
OF_PORT = [word for word in STATUS if word != "make-sends"]
IN_QUEUE = ["limit", "has request"]         # of a port whose receive right was in a queue
NO_PORT = "no port"


class Port(int):
    """The driver's name of a port."""


# Of a machine


def of_machine(machine):
    return {**dict(of_names(machine)), **dict(of_ports(machine))}


def of_names(machine):
    for number, task in enumerate(machine.tasks):
        if task.is_alive:
            yield ("task", number), task.kernel
        for name, entry in task.space.items():
            yield ("type", number, name), machine.mask(entry)
            if entry.has("send") or entry.has("dead"):
                yield ("references", number, name), entry.refs
            if entry.kind in ("port", "once"):
                yield (entry.kind, number, name), entry.port
            if entry.kind == "set":
                members = (one for one, other in task.space.items() if other.member_of == name)
                yield ("members", number, name), sorted(members)
            if entry.receive:
                yield ("receiver", entry.port), (number, name)
                yield ("set", entry.port), entry.member_of or 0


def of_ports(machine):
    rights = collections.Counter(held(machine))
    entries = [entry for task in machine.tasks for entry in task.space.values()]
    received = {entry.port for entry in entries if entry.receive}
    for number in machine.ports.keys() - {task.kernel for task in machine.tasks}:
        port = machine.ports[number]
        yield ("limit", number), port.limit
        yield ("has request", number), port.backup is not None
        yield ("backup", number), port.backup
        yield ("queue", number), tuple(map(plain, port.queue))
        if number in received:
            yield ("seqno", number), port.receipts
            yield ("queued", number), len(port.queue)
            yield ("once rights", number), rights[number, "once"]
            # A port of `Known` may count a sender that no one is.
            has_senders = rights[number, "send"] > 0 or getattr(port, "lost_sender", False)
            yield ("has senders", number), has_senders


def held(machine):
    """All send and send-once rights: in spaces, queues and requests. A message has a right to its
    own port too."""
    for task in machine.tasks:
        for entry in task.space.values():
            yield from ((port, right) for right, port in entry.rights())
    for number, port in machine.ports.items():
        for message in port.queue:
            yield number, "once" if message.by_once else "send"
            items = [message.reply, *carried(message)]
            yield from (item for item in items if isinstance(item, tuple))
        if isinstance(port.backup, int):
            yield port.backup, "once"


def plain(message):
    """A queued message: its id, whether a send-once right sent it, the reply right, and the
    arguments."""
    args = [
        (arg.name, bytes(arg.data)) if arg.items is None else ("rights", *arg.items)
        for arg in message.args
    ]
    return message.id, message.by_once, message.reply, tuple(args)


# Of the kernel


class Reading:
    """What the lines of a reading say."""

    def __init__(self, lines):
        self.told, self.status, self.marks = {}, {}, {}
        self.queues, self.came = collections.defaultdict(list), {}
        for line in lines:
            _, kind, who, name, *words = line.split()
            self.take(kind, int(who, 16), int(name, 16), words)
        types = [(key, type) for key, type in self.told.items() if key[0] == "type"]
        for _, who, name in (key for key, type in types if type == MASKS["once"]):
            self.told["once", who, name] = self.marked(who, name)
        for (who, name), status in self.status.items():
            self.take_status(who, name, status)

    def take(self, kind, who, name, words):
        if kind == "q":
            self.take_message(Port(name), bytes.fromhex(words[0]))
            return
        words = [int(word, 16) for word in words]
        if kind == "k":
            self.told["task", who] = Port(name)
        elif kind == "s":
            self.status.setdefault((who, name), dict(zip(STATUS, words)))
        elif kind == "t":
            self.told["members", who, name] = sorted(words)
        elif kind == "m":
            self.marks[who, name] = words[0]
        elif who != DRIVER:
            self.take_name(who, name, *words)

    def take_message(self, port, data):
        id = words_of(data[:24])[5]
        if id > FIRST_MARK:
            self.came[id] = port
        else:
            self.queues[port].append(data)

    def take_name(self, who, name, type, references, port):
        self.told["type", who, name] = type & TYPES
        if type & (MASKS["send"] | MASKS["dead"]):
            self.told["references", who, name] = references
        if port:
            self.told["port", who, name] = Port(port)

    def marked(self, who, name):
        """The port of a send-once right: where its mark came out."""
        mark = self.marks.get((who, name))
        return mark if mark is None else self.came.get(mark, NO_PORT) if mark else "dead"

    def take_status(self, who, name, status):
        """What is known of the port of a receive right. The driver takes each, so most are read
        twice."""
        port = self.told["port", who, name] if who != DRIVER else Port(name)
        if who != DRIVER:
            self.told["receiver", port] = who, name
        elif ("receiver", port) in self.told:
            return
        for word in OF_PORT if who != DRIVER else IN_QUEUE:
            self.told[word, port] = bool(status[word]) if word.startswith("has") else status[word]
        self.told["backup", port] = self.marked(who, name)
        self.told["queue", port] = tuple(map(self.unpacked, self.queues[port]))

    def unpacked(self, data):
        """A message as `plain` has it."""
        right = {16: "receive", 17: "send", 18: "once"}
        bits, _, reply, _, _, id = words_of(data[:24])

        def item(disp, name):
            if name in (NULL, DEAD):
                return "dead" if name else None
            return self.marked(DRIVER, name) if disp == 18 else Port(name), right[disp]

        args = []
        for kind, start, length in arguments(data):
            body = data[start : start + length]
            items = [item(kind, name) for name in words_of(body)] if kind in right else []
            args.append(("rights", *items) if kind in right else (kind, body))
        return id, bits >> 8 & 255 == 18, item(bits & 255, reply), tuple(args)


# Both


def mapped(value, ports):
    """A value of the kernel's reading with a machine's numbers."""
    if isinstance(value, Port):
        return ports.get(value, f"port {int(value)} of the kernel")
    return tuple(mapped(one, ports) for one in value) if isinstance(value, tuple) else value


def match(value, other, ports):
    """Learns which port is which from a value that both have."""
    if isinstance(value, Port) and isinstance(other, int) and other not in ports.values():
        ports.setdefault(value, other)
    elif isinstance(value, tuple) and isinstance(other, tuple):
        for one, another in zip(value, other):
            match(one, another, ports)


def differences(lines, machine):
    """Where the kernel's reading and a machine differ: what it is of, the machine's value, and the
    kernel's."""
    kernel, model, ports, known = Reading(lines).told, of_machine(machine), {}, -1
    while known < len(ports):       # what a mapped port is known by maps more
        known = len(ports)
        for key, value in kernel.items():
            match(value, model.get(mapped(key, ports)), ports)
    kernel = {mapped(key, ports): mapped(value, ports) for key, value in kernel.items()}
    keys = dict.fromkeys([*model, *kernel])
    both = [(key, model.get(key), kernel.get(key)) for key in keys]
    return [one for one in both if one[1] != one[2]]
