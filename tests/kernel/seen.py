"""What a kernel shows of the breaches that `attack` calls REAL.

    for head, lines in listed(what attack prints):
        breach = Breach(head, lines, answers, wiring)   if head begins with REAL
    play([breach.case, ..])
    breach.is_seen(), breach.told()                     whether it was seen; what is printed of it

Answers are those of `replay`. The machine of tests/oracles/machine.py makes the calls of the script, and
then says who holds the right, under which name. The kernel alone is asked whether this is so:

- The name has a right of that kind.
- If the port is a task's kernel port, it is that of this task, and the holder suspends the task
  through it. A task does not try this with its own: it could not answer any more.
- Any other port is the one to which the driver has kept a right since it was made, by a line of the
  wiring or by an `allocate` of the script. A send-once right can't be compared, so a message goes
  through it, and comes out there.
- If the holder is not the task of the line, but one that it commands, it has the kernel port of
  that one.
"""

import re

from cases import Case
from entries import ENTRIES
from known import Known
from machine import Machine, Queued, words as packed

HEAD = r"(REAL|NO) ((?:trusted )?line \d+) hold (\S+) (\S+) (\S+)( not reached)?"
WORD = {"send": "send", "receive": "receive", "once": "send-once"}
MESSAGE = 7777  # the id of the message that goes through a send-once right
BY_ONCE = 18  # how that right is taken


def listed(printed):
    """The headings that `attack` prints, each with the lines of its script."""
    found = []
    for line in printed.splitlines():
        if line.startswith("  ") and found:
            found[-1][1].append(line[2:])
        else:
            found.append((line, []))
    return found


class Unjudged:
    """For a machine without its filter: it needs no MIG files.

    It does the same with scripts of which the filter denies nothing.
    """

    def judge(self, cls, id, given, local):
        return None, [(arg.name, None) for arg in given]

    def judge_reply(self, caller, reply, subsystem):
        pass

    def make(self, line):
        """Makes the call of a line of a script. Returns the answer."""
        task, call, *words = line.split()
        number = int(task[1:]) if task[0] == "@" else self.numbers[task]
        if call == "send":
            return self.step(number, call, "".join(words))
        return self.step(number, call, *(int(w) if w.lstrip("-").isdigit() else w for w in words))


class Model(Unjudged, Machine):
    """The machine."""


class Deviating(Unjudged, Known):
    """The machine with the known differences of the kernel, or without one of them."""

    def __init__(self, wiring, *without):
        super().__init__(wiring, without=without)


class Breach:
    """A REAL line of `attack`, its script, and what the kernel is asked behind the script.

    `task`, `name` and `port`: the holder of the right, its name of the right, and the machine's
    number of the port. `through`: the way from the task of the line to the holder. Each step is a
    task, its name of a kernel port, and whose that is. `words`: what is seen if the kernel has the
    expected answer to each question.
    """

    def __init__(self, head, lines, answers, wiring):
        self.head, self.lines, self.wiring, self.questions = head, lines, wiring, []
        _, self.line, self.like, self.cls, self.right, _ = re.fullmatch(HEAD, head).groups()
        self.machine = Model(wiring)
        for line in lines:
            self.machine.make(line)
        self.tasks = self.machine.tasks
        self.kernels = {task.kernel: n for n, task in enumerate(self.tasks) if task.is_alive}
        self.task, self.name, self.port, self.through = self.find()
        self.words = self.ask()
        self.case = Case(head, wiring, lines, answers, self.questions)

    # Who holds the right

    def held(self, task, right):
        """A task's names of rights of a kind, each with its port."""
        space = self.tasks[task].space.items()
        every = [(name, *one) for name, entry in space for one in entry.rights()]
        return [(name, port) for name, held, port in every if held == right]

    def find(self):
        """The holder that is the fewest steps away."""
        ways = [(n, []) for n, t in enumerate(self.tasks) if t.like == self.like and t.is_alive]
        for task, through in ways:
            for name, port in self.held(task, self.right):
                if self.machine.ports[port].cls == self.cls.replace(":", " "):
                    return task, name, port, through
            ways += self.commanded(task, through, {known for known, _ in ways})
        raise ValueError(f"{self.head}: the machine of tests/oracles/machine.py has no such breach")

    def commanded(self, task, through, known):
        """The tasks that a task commands and that are not known, with the ways to them."""
        if self.tasks[task].like in self.machine.limits["takes"]:
            return []
        names = {self.kernels[p]: name for name, p in self.held(task, "send") if p in self.kernels}
        return [(n, [*through, (task, name, n)]) for n, name in names.items() if n not in known]

    # What the kernel is asked

    def question(self, task, answer, *words):
        self.questions.append((task, words, answer))

    def ask(self):
        """Writes the questions. Returns what is seen if the kernel has the expected answers."""
        for task, name, other in self.through:
            self.question(task, "yes", "same", name, "task", other)
        mask = self.machine.mask(self.tasks[self.task].space[self.name])
        self.question(self.task, f"type {mask}", "type_of", self.name)
        if self.port in self.kernels:
            words = self.ask_task(self.kernels[self.port])
        elif self.right == "once":
            words = self.ask_by_message()
        else:
            words = self.ask_port()
        steps = [f"{self.called(task)} commands {self.called(other)} by its name {name}; "
                 for task, name, other in self.through]
        return "".join([*steps, self.called(self.task), " ", words])

    def ask_task(self, victim):
        self.question(self.task, "yes", "same", self.name, "task", victim)
        if victim == self.task:
            return f"has its own kernel port, its name {self.name}"
        self.question(self.task, "done", "suspend", self.name)
        return f"suspended {self.called(victim)} by its kernel port, its name {self.name}"

    def ask_port(self):
        self.question(self.task, "yes", "same", self.name, "port", self.place())
        return f"has a {WORD[self.right]} right to {self.what()}, its name {self.name}"

    def ask_by_message(self):
        """Sends a message, and receives all that is in the queue, where it is the last."""
        owner, where = self.receiver()
        if owner is None:
            return f"has a send-once right, its name {self.name}; to which port was not asked"
        queue = self.machine.ports[self.port].queue
        queue.append(Queued(True, MESSAGE))
        message = packed([BY_ONCE, 24, self.name, 0, 0, MESSAGE]).hex()
        self.question(owner, "yes", "same", where, "port", self.place())
        self.question(self.task, "done", "send", message)
        for _ in range(len(queue)):
            answer = self.machine.step(owner, "receive", where, 8192)
            self.question(owner, answer, "receive", where, 8192)
        sent = f"sent a message by its send-once right, its name {self.name}"
        return f"{sent}; {self.called(owner)} received it from {self.what()}, its name {where}"

    def receiver(self):
        """The task that can receive from the port itself, and its name of it."""
        for task in self.kernels.values():
            for name, port in self.held(task, "receive"):
                if port == self.port and self.tasks[task].space[name].member_of is None:
                    return task, name
        return None, None

    def place(self):
        """Which of the script's ports it is, in the order in which they were made."""
        return self.port - sum(1 for task in self.tasks if task.kernel < self.port)

    def called(self, task):
        return self.tasks[task].name

    def what(self):
        word, of = self.cls.split(":", 1)
        return f"the port {of}" if word == "port" else f"a port of {self.cls}"

    # What it answered

    def is_seen(self):
        return all(call.is_equal for call in self.case.asked)

    def told(self):
        """What is printed below the script."""
        if self.is_seen():
            return f"SEEN {self.line}: {self.words}"
        call, name = self.case.first_difference(), self.rests_on()
        known = f"; known as {name}, docs/KERNEL.md" if name else ""
        answers = f"the machine answers {call.answer}, the kernel {call.kernel}"
        return f"NOT SEEN {self.line}: at `{call.line}` {answers}{known}"

    def rests_on(self):
        """The known difference without which the kernel would have the breach, or None."""
        if self.is_reached(Deviating(self.wiring)):
            return None
        return next((n for n in ENTRIES if self.is_reached(Deviating(self.wiring, n))), None)

    def is_reached(self, machine):
        """Whether the script leads another machine to the breach."""
        for line in self.lines:
            machine.make(line)
        return self.is_there(machine)

    def is_there(self, machine):
        return machine.breaks(self.like, self.right, self.cls.replace(":", " "))

    # Without a call

    def cuts(self):
        """The script without each one of its calls in turn, if that does not lead to the breach."""
        for place in range(len(self.lines)):
            lines, machine = self.lines[:place] + self.lines[place + 1 :], Model(self.wiring)
            answers = [machine.make(line) for line in lines]
            if not self.is_there(machine):
                name = f"{self.head}, without `{self.lines[place]}`"
                yield Case(name, self.wiring, lines, answers, self.questions)
