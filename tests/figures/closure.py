"""The least set of facts that is closed under the ten rules, counted. Written from the table of rules in
docs/FORMATS.md, apart from the definitions and from the program. A class here takes either nothing or all: slots of
each disposition, requests of an interface with a routine, and port-destroyed notices.

Lines about trusted tasks are `limits`: for each verb, by task, the classes of each right that they name, as bits.
"""

# The right that a disposition needs and the one that it gives: receive, send or once.
SLOTS = {("r", "r"), ("s", "s"), ("o", "o"), ("r", "s"), ("r", "o")}


def places(bits):
    """The numbers of the bits that are set."""
    while bits:
        last = bits & -bits
        yield last.bit_length() - 1
        bits ^= last


def size(holds, carries, backups):
    """How many facts there are."""
    rows = [row for rights in holds + carries for row in rights.values()]
    return sum(bin(row).count("1") for row in rows + backups)


def may(limits, verb, task, right):
    """The classes on which a verb's lines leave a task a right."""
    named = limits.get(verb, {})
    return named[task].get(right, 0) if task in named else -1


def conclude(task, holds, carries, backups, ports, taking, limits, fitting):
    """Adds what the rules conclude from what a task holds."""
    own = holds[task]
    own["s"] |= own["r"]  # K3
    own["o"] |= own["r"]
    for to in places((own["s"] | own["o"]) & taking):
        for need, give in SLOTS:
            carries[to][give] |= own[need] & may(limits, "sends", task, give)  # K4
        carries[to]["o"] |= own["o"] & may(limits, "replies", task, "o") & fitting.get(to, -1)  # K5
    for at in places(own["r"]):
        for right in "rso":
            own[right] |= carries[at][right]  # K6
        backups[at] |= own["o"] & taking  # K8
        own["o"] |= backups[at]  # K10
    for other in range(len(holds)):
        if own["s"] >> (ports + other) & 1:
            for right in "rso":  # K7
                own[right] |= holds[other][right] & may(limits, "takes", task, right)
                holds[other][right] |= own[right] & may(limits, "gives", task, right)


def least(tasks, ports, taking, first, kinds=1, limits={}, fitting={}):
    """How many facts the least set has. Classes are the ports, the tasks' kernel ports and their births, so many kinds
    of each task, in this order; `taking` are those that take all, and `first` has a task, a class and a right for each
    hold of the lines. `fitting` has the classes that fit as reply ports of requests to a class, if not all do."""
    classes = ports + tasks + tasks * kinds
    holds = [dict.fromkeys("rso", 0) for _ in range(tasks)]
    carries = [dict.fromkeys("rso", 0) for _ in range(classes)]
    backups = [0] * classes
    for task in range(tasks):
        holds[task]["s"] |= 1 << (ports + task)  # K1
        for kind in range(kinds):
            holds[task]["r"] |= 1 << (ports + tasks + task * kinds + kind)  # K2
    for task, at, right in first:
        holds[task][right] |= 1 << at  # K1
    mask = sum(1 << at for at in taking)
    before = -1
    while before != size(holds, carries, backups):
        before = size(holds, carries, backups)
        for task in range(tasks):
            conclude(task, holds, carries, backups, ports, mask, limits, fitting)
        for at in range(classes):
            for to in places(backups[at]):
                carries[to]["r"] |= 1 << at  # K9
    return before
