"""The machine of tests/oracles/machine.py with the known differences: it does what GNU Mach does.

`Known(wiring, interfaces, without)` is that machine. `without` names differences that it does not
have, by their names in entries.py, which says in words what each is. `answers(machine, lines)` are
a machine's answers to a script.

An answer is the kernel's word for word, except for calls that the kernel is not asked: see
`Call.leave_out` in cases.py. After MACH_SEND_TIMED_OUT ` back NAMES` follows: under these names the
rights of the message came back. For `late-death` an answer has two codes with ` or ` between.
"""

import collections
import copy
import pickle
import struct

from cases import words_of
from entries import ENTRIES
import machine
from machine import DEAD, GIVES, INTERFACES, NEEDS, NULL, Argument, Entry, Machine, Queued, Refused
from machine import carried, code, drop_if_spent, turn_names, turn_port

SENDS = 65534       # so many references a send right has at most; a dead name has 65535
LONG = 1 << 29      # the bit of a descriptor of three words


def answers(machine, lines):
    """What a machine answers to the lines of a script."""
    found = []
    for line in lines:
        task, call, *words = line.split("#")[0].split()
        if call == "send":
            words = ["".join(words)]
        else:
            words = [int(word) if word.lstrip("-").isdigit() else word for word in words]
        number = int(task[1:]) if task[0] == "@" else machine.numbers[task]
        found.append(machine.step(number, call, *words))
    return found


def first_words(data):
    """The first word of each argument's descriptor in a message."""
    found, at = [], 24
    while at < len(data):
        word, *rest = words_of(data[at : at + 12])
        found.append(word)
        at, size, number = at + 4, word >> 8 & 255, word >> 16 & 4095
        if word & LONG:
            at, size, number = at + 8, rest[0] >> 16, rest[1]
        at += (number * size // 8 + 3) // 4 * 4
    return found


def may_take(space, name, disp):
    """Whether a message may name a right so."""
    entry = space.get(name)
    is_dead = entry is not None and entry.kind == "dead" and disp in (17, 18, 19)
    return name in (NULL, DEAD) or is_dead or entry is not None and entry.has(NEEDS[disp])


def rights_of(items):
    """The rights among the items of a message."""
    return [item[::-1] for item in items if isinstance(item, tuple)]


class Known(Machine):
    """The machine with the differences."""

    def __init__(self, wiring, interfaces=INTERFACES, without=()):
        self.without, self.asked, self.stamp = set(without), set(), 0
        super().__init__(wiring, interfaces)

    def does(self, difference):
        """Whether it has a difference; `asked` are those that may have mattered."""
        assert difference in ENTRIES, f"no entry: {difference}"
        self.asked.add(difference)
        return difference not in self.without

    def state(self):
        """The state, to come back to: bytes are made faster than a copy."""
        return pickle.dumps((self.tasks, self.ports, self.births), -1)

    def restore(self, state):
        self.tasks, self.ports, self.births = pickle.loads(state)

    def step(self, number, call, *words):
        """As that of `Machine`; but a refused call may cost something."""
        if not (number < len(self.tasks) and self.tasks[number].is_alive):
            return "dead task"
        machine.REFERENCES = SENDS if "fewer-references" not in self.without else 65535
        before = self.state()
        try:
            return getattr(self, call)(self.tasks[number], *words) or "done"
        except Refused as refusal:
            self.restore(before)
            return self.with_cost(before, number, str(refusal), call, *words)
        finally:
            machine.REFERENCES = 65535

    def with_cost(self, before, number, answer, call, *words):
        """The answer of a refused call, and what it costs."""
        if not (answer.startswith("refused") and hasattr(self, "cost_" + call)):
            return answer
        try:
            return getattr(self, "cost_" + call)(self.tasks[number], answer, *words)
        except Refused:
            self.restore(before)
            return answer

    # Which fault is found, and how it is answered

    def target(self, caller, name, refusal="KERN_INVALID_TASK"):
        entry = caller.space.get(name)
        if not (entry and entry.has("send")) and self.does("not-sent"):
            code("MACH_SEND_INVALID_DEST")
        return super().target(caller, name, refusal)

    def rename(self, caller, task, old, new):
        space = self.target(caller, task).space
        if new in space and old not in space and self.does("first-fault"):
            code("KERN_NAME_EXISTS")
        super().rename(caller, task, old, new)

    def insert_right(self, caller, task, name, right, disp):
        try:
            super().target(caller, task)
        except Refused:
            if self.does("not-sent"):
                code("MACH_SEND_INTERRUPTED")
        if name in (NULL, DEAD) and not may_take(caller.space, right, disp):
            if self.does("first-fault"):
                code("KERN_INVALID_RIGHT" if right in caller.space else "KERN_INVALID_NAME")
        super().insert_right(caller, task, name, right, disp)

    def request_notification(self, caller, task, name, id, sync, notify, disp):
        target = self.target(caller, task)
        try:
            return super().request_notification(caller, task, name, id, sync, notify, disp)
        except Refused as refusal:
            if str(refusal).startswith("refused KERN_INVALID") and self.does("notify-by-message"):
                self.refuse_notify(caller.space, notify, disp)
                is_taken = target is caller and (name, disp) == (notify, 18)
                if is_taken and str(refusal) == "refused KERN_INVALID_RIGHT":
                    code("KERN_INVALID_NAME")       # the message has taken it from there
            raise

    def refuse_notify(self, space, notify, disp):
        """Faults of a right for notices, which goes in the request's message."""
        if not may_take(space, notify, disp):
            code("MACH_SEND_INVALID_RIGHT")
        if disp not in (18, 21):
            code("MIG_BAD_ARGUMENTS")
        if notify == DEAD or notify in space and space[notify].kind == "dead":
            code("KERN_INVALID_CAPABILITY")

    def refuse_send(self, refusal, space, remote, disp, local, local_disp):
        """Turns the refusal of a message to the kernel's; the space is that before the message."""
        told = str(refusal)
        if told == "refused MACH_SEND_TIMED_OUT":
            self.refuse_types(self.words)
        if told == "refused MACH_SEND_INVALID_DEST" and remote in space:
            if not may_take(space, local, local_disp or 19) and self.does("first-fault"):
                code("MACH_SEND_INVALID_REPLY")
        if told == "refused MACH_SEND_INVALID_REPLY" and remote == local:
            if disp == local_disp == 18 and self.does("first-fault"):
                code("MACH_SEND_INVALID_DEST")
        raise refusal

    def refuse_types(self, words):
        if any(word & LONG and word & 0xFFFFFFF for word in words) and self.does("long-first-word"):
            code("MACH_SEND_INVALID_TYPE")

    def take_admitted(self, caller, name, disp, slot, place):
        self.refuse_types(self.words[: place + 1])
        return super().take_admitted(caller, name, disp, slot, place)

    # What a refused call costs

    def taken_for(self, space, name, disp):
        """What a request takes for a name."""
        return self.take_item(space, name, disp, "KERN_INVALID_RIGHT")

    def cost_insert_right(self, caller, answer, task, name, right, disp):
        """The right goes into the request, which is refused then, and is destroyed with it."""
        if self.does("refused-rights"):
            super().target(caller, task)
            self.die(rights_of([self.taken_for(caller.space, right, disp)]))
        return answer

    def cost_request_notification(self, caller, answer, task, name, id, sync, notify, disp):
        return self.cost_insert_right(caller, answer, task, name, notify, disp)

    def cost_extract_right(self, caller, answer, task, name, disp):
        space = self.target(caller, task).space
        is_dead = name in space and space[name].kind == "dead"
        if is_dead and disp in (17, 18, 19) and self.does("dead-extract"):
            self.taken_for(space, name, disp)
            return f"name {DEAD}"
        return answer

    def cost_send(self, caller, answer, digits):
        data = bytes.fromhex(digits)
        if answer == "refused MACH_SEND_TIMED_OUT" and self.does("timed-out"):
            names = [self.give_item(caller.space, item) for item in self.taken(caller.space, data)]
            return " ".join([answer, "back", *map(str, names)])
        is_body = answer in ("refused MACH_SEND_INVALID_RIGHT", "refused MACH_SEND_INVALID_TYPE")
        if is_body and self.does("refused-rights"):
            self.die(rights_of(self.taken(caller.space, data)))
        return answer

    def taken(self, space, data):
        """What a message takes before its first fault: destination, reply right and body."""
        disp, local_disp, remote, local, _, args = machine.parse_message(data)
        items = [self.taken_for(space, remote, disp)]
        items.append(self.taken_for(space, local, local_disp) if local_disp else None)
        try:
            for arg, word in zip(args, first_words(data)):
                self.refuse_types([word])
                for name in words_of(arg.data) if arg.is_port else []:
                    items.append(self.taken_for(space, name, arg.name))
        except Refused:
            pass
        return items

    # Messages

    def birth(self, cls):
        number = super().birth(cls)
        self.ports[number].lost_sender = False      # a send right that counts, and no one has it
        return number

    def send(self, caller, digits):
        data, space = bytes.fromhex(digits), copy.deepcopy(caller.space)
        disp, local_disp, remote, local, _, _ = machine.parse_message(data)
        self.words = first_words(data)
        try:
            super().send(caller, digits)
        except Refused as refusal:
            self.refuse_send(refusal, space, remote, disp, local, local_disp)
        self.refuse_types(self.words)
        port = space[remote].port
        message = self.ports[port].queue.pop()
        message.words, message.has_reply = self.words, local_disp != 0
        rights = rights_of([message.reply, *carried(message)])
        moved = [one for right, one in rights if right == "receive"]
        if any(self.is_circular(one, port) for one in moved) and self.does("circular"):
            self.die([(GIVES[disp], port), *rights])
        else:
            self.enqueue(port, message)

    def is_circular(self, port, to):
        """Whether a port's receive right, in the queue of another, makes a circle of queues."""
        seen = set()
        while to not in (None, port) and to not in seen:
            seen.add(to)
            to = next((number for number, other in self.ports.items() for message in other.queue
                       for item in carried(message) if item == (to, "receive")), None)
        return to == port

    def enqueue(self, port, message):
        self.stamp = message.stamp = self.stamp + 1
        self.ports[port].queue.append(message)

    def source(self, space, name):
        entry = space.get(name)
        if entry and entry.kind == "set" and self.does("set-order"):
            ready = [(self.ports[one.port].queue[0].stamp, member) for member, one in space.items()
                     if one.member_of == name and self.ports[one.port].queue]
            if ready:
                return min(ready)[1]
        return super().source(space, name)

    def move_member(self, caller, task, member, name):
        entry = self.target(caller, task).space.get(member)
        was = entry and entry.member_of
        super().move_member(caller, task, member, name)
        if entry.member_of not in (None, was):      # what is queued comes behind what the set has
            for message in self.ports[entry.port].queue:
                self.stamp = message.stamp = self.stamp + 1

    def receive(self, caller, name, limit):
        member = self.source(caller.space, name)
        message = self.ports[caller.space[member].port].queue[0]
        words = getattr(message, "words", [])
        is_long = [word & LONG != 0 and self.does("long-stays") for word in words]
        longer = [arg for arg, long in zip(message.args, is_long) if long]
        more = sum(8 for arg in longer if arg.size <= 255 and arg.number <= 4095)
        try:
            answer = super().receive(caller, name, limit - more)
        except Refused as refusal:
            if str(refusal).startswith("too large"):
                raise Refused(f"too large {int(str(refusal).split()[2]) + more}") from None
            raise
        return "message " + self.as_sent(bytes.fromhex(answer.split()[1]), message, is_long).hex()

    def as_sent(self, data, message, is_long):
        """A message that was received, with the descriptors that were sent, and with the kind of a
        null reply right."""
        args = machine.parse_message(data)[5]
        pairs = zip(args, is_long or [False] * len(args))       # a notice was not sent
        body = b"".join(written(arg, long) for arg, long in pairs)
        bits = words_of(data[:4])[0]
        if getattr(message, "has_reply", False) and self.does("null-reply"):
            bits |= 18
        return machine.words([bits, 24 + len(body), *words_of(data[8:24])]) + body

    # Death, one right after the other

    def die(self, rights, kernel=None):
        if not self.does("death-order"):
            super().die(rights, kernel)
            for message in (message for port in self.ports.values() for message in port.queue):
                message.stamp = getattr(message, "stamp", 0)
            return
        self.deferred = collections.deque()
        for right, port in rights:
            self.lose(right, port)
        if kernel is not None:
            self.bury(kernel)

    def lose(self, right, port):
        if port in self.ports and right == "once":
            self.enqueue(port, Queued(True, 71))
        if port in self.ports and right == "receive":
            self.end(port)

    def end(self, number):
        """A receive right goes: to the backup, or its port dies."""
        port = self.ports[number]
        backup, port.backup, port.receipts = port.backup, None, 0
        if not isinstance(backup, int):
            self.bury(number)
        elif not (self.is_circular(number, backup) and self.does("circular")):
            notice = Argument(16, 32, 1, b"", [(number, "receive")])
            self.enqueue(backup, Queued(True, 69, None, [notice]))
        else:
            self.bury(number)

    def bury(self, number):
        queue = self.ports.pop(number).queue
        for task in self.tasks:
            turn_names(task.space, {number})
        for port in self.ports.values():
            turn_port(port, {number})
        for message in queue:
            self.deferred.append(message)
            if self.deferred[0] is message:
                self.destroy_messages()

    def destroy_messages(self):
        """Destroys the messages that wait for it; more join them while this goes on."""
        while self.deferred:
            message = self.deferred[0]
            for right, port in rights_of([message.reply, *carried(message)]):
                self.lose(right, port)
            self.deferred.popleft()

    def mod_refs(self, caller, task, name, right, delta):
        if right == "dead":
            machine.REFERENCES = 65535
        if right == "send" and delta > 0:
            self.asked.add("fewer-references")
        target = self.target(caller, task)
        entry = target.space.get(name)
        is_receive = entry is not None and entry.receive and right == "receive"
        if is_receive and delta == -1 and self.does("sends-die"):
            target.space[name] = Entry("dead", refs=entry.refs)
            drop_if_spent(target.space, name)
            self.ports[entry.port].lost_sender |= entry.refs > 0
            self.die([("receive", entry.port)])
            return
        if entry is not None and entry.kind == "dead":
            self.refuse_late(entry.refs, right, delta)
        super().mod_refs(caller, task, name, right, delta)

    def refuse_late(self, refs, right, delta):
        """Refuses a number by which the right could not change when the port was alive: the kernel
        may not have found that it is dead."""
        is_wrong = right == "once" and refs == 1 and delta not in (0, -1)
        if (is_wrong or right == "send" and refs + delta < 0) and self.does("late-death"):
            code("KERN_INVALID_VALUE or KERN_INVALID_RIGHT")
        if right == "send" and refs + delta > SENDS and self.does("late-death"):
            code("KERN_UREFS_OVERFLOW or KERN_INVALID_RIGHT")


def written(arg, is_long):
    """An argument's descriptor and data, in three words or as short as it can be."""
    if not is_long:
        return machine.written(arg)
    data = arg.data + b"\0" * (-len(arg.data) % 4)
    return struct.pack("<IHHI", 1 << 28 | LONG, arg.name, arg.size, arg.number) + data
