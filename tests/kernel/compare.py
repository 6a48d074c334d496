"""Compares the kernel with machines on scripts: each answer, and all rights behind the script.

    trial = Trial(name, wiring, lines, interfaces)
    play([trial, ..])
    trial.faults()      where the kernel is not as `Known` of known.py is, as lines of text
    trial.is_plain()    whether it is as tests/oracles/machine.py is, without any difference
    trial.entries()     the names of the entries that the script shows
"""

from cases import AT_END, BEFORE_EACH, QUEUES_TOO, Case, is_same
from entries import ENTRIES
from known import Known, answers
from machine import INTERFACES, Machine
from rights import differences


class Trial(Case):
    """A script that is compared. Its machine is Known, or one that has played the script and its
    answers."""

    def __init__(self, name, wiring, lines, interfaces=INTERFACES, played=None, each=False):
        self.interfaces = interfaces
        self.machine = played[0] if played else Known(wiring, interfaces)
        said = played[1] if played else answers(self.machine, lines)
        reads = AT_END | QUEUES_TOO | (BEFORE_EACH if each else 0)
        super().__init__(name, wiring, lines, said, reads=reads)

    def faults(self):
        call = self.first_difference()
        if call:
            told = [f"  the model: {call.answer}", f"  the kernel: {call.kernel}"]
            return [f"{self.name}: {call.line}", *told]
        return [
            f"{self.name}: {' '.join(map(str, key))}: the model: {model}, the kernel: {kernel}"
            for key, model, kernel in differences(self.reading, self.machine)
        ]

    def is_as(self, machine):
        """Whether a machine answers the script as the kernel did, and has its rights then."""
        other = [answer.partition(" back ")[0] for answer in answers(machine, self.lines)]
        pairs = zip(self.calls, other)
        equal = all(call.left_out or is_same(call.kernel, answer) for call, answer in pairs)
        return equal and not differences(self.reading, machine)

    def is_plain(self):
        return self.is_as(Machine(self.wiring, self.interfaces))

    def entries(self):
        """What the script shows: entries without which the machine is not as the kernel is."""
        without = lambda name: Known(self.wiring, self.interfaces, {name})
        tried = [name for name in ENTRIES if name in self.machine.asked]
        return [name for name in tried if not self.is_as(without(name))]

    def shown(self):
        """The wiring and the script, with what both answer."""
        yield from (f"    {line}" for line in self.wiring.splitlines())
        for call in self.calls:
            yield f"{' ' if call.is_equal else '!'}   {call.line}"
            yield f"        the model:  {call.answer}"
            kernel = f"not asked: {call.left_out}" if call.left_out else call.kernel
            yield f"        the kernel: {kernel}"
