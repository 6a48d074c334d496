"""What `verify` reports of parts of a system that can do nothing, in plain Python: of interfaces, lines and slots.

Written from docs/FAULTS.md, 'Notices', not from the program.
"""

from itertools import groupby

from systems import GIVES, HOLD, NEEDS, ONCE, RECEIVE, SEND, Class

MOST = 10


class Dead:
    """The parts of a system that can do nothing, by a set of facts."""

    def __init__(self, system, facts):
        self.system = system
        self.held = {fact[1:] for fact in facts if fact[0] == HOLD}
        tasks, classes = range(len(system.tasks)), range(len(system.classes))
        # For each class the tasks that may ask another there.
        self.asking = {c: {t for t in tasks for u in tasks if self.may_ask(t, u, c)} for c in classes}

    def may_ask(self, t, u, c):
        """Whether t may send to a class, from which another task, u, may receive."""
        sends = (t, c, SEND) in self.held or (t, c, ONCE) in self.held
        return t != u and sends and (u, c, RECEIVE) in self.held

    def accepting(self, item):
        """The classes that accept an item."""
        return [c for c, label in enumerate(self.system.labels) if item in label]

    def askers(self, item):
        """The tasks that may ask another at a class that accepts an item."""
        return set().union(*(self.asking[c] for c in self.accepting(item)))

    def unaccepted(self):
        """The names of the interfaces that no class accepts."""
        every = {name for label in self.system.labels for word, name in label if word != "destroyed"}
        return [name for name in self.system.interfaces if name not in every]

    def by_line(self):
        """The lines of the text, each with the words of those that it stands for."""
        for line, stood in groupby(self.system.lines, lambda pair: pair[0]):
            yield line, [words for _, words in stood]

    def declared(self, words):
        """The class that a line declares: of a port, or of births that accept something."""
        if words[0] == "port":
            return Class("port", words[1])
        at = words.index("accepts", 2) if words[0] == "births" else 0
        if at and words[at + 1 :] != ["none"]:
            return Class("births", words[1], int(words[2]) if at == 3 else 0)
        return None

    def quiet(self):
        """The lines that declare classes at none of which a task may ask another, with these."""
        for line, stood in self.by_line():
            classes = [c for c in map(self.declared, stood) if c]
            if classes and not any(self.asking[self.system.number[c]] for c in classes):
                yield line, classes[0].text() if len(classes) == 1 else "the ports of this line"

    def unanswered(self):
        """The names of the interfaces that are asked without a port for replies."""
        for name, interface in self.system.interfaces.items():
            askers = self.askers(("request", name))
            ports = self.accepting(("reply", name))
            if interface.has_routine() and askers:
                if not any(self.hears(t, c) for t in askers for c in ports):
                    yield name

    def hears(self, t, c):
        return (t, c, ONCE) in self.held and self.system.may("replies", t, c, ONCE)

    def fills(self, t, slot, of):
        """Whether a task has a right for a slot."""
        need, give = NEEDS[slot.disposition], GIVES[slot.disposition]
        return any(
            (t, c, need) in self.held and self.system.admits(of, c) and self.system.may("sends", t, c, give)
            for c in range(len(self.system.classes))
        )

    def dead_slots(self, types):
        """The slots of these types that never carry a right, by files and ids; of an id those of the request first."""
        for name, interface in self.system.interfaces.items():
            forms = [("request", form.id, form) for form in interface.requests]
            forms += [("reply", form.id - 100, form) for form in interface.replies]
            for word, _, form in sorted(forms, key=lambda found: (found[1], found[0] == "reply")):
                askers = self.askers((word, name))
                for slot in form.slots:
                    of = name, slot.type
                    if of in types and askers and not any(self.fills(t, slot, of) for t in askers):
                        yield f"{name}.{form.routine}.{slot.argument} ({name}.{slot.type})"

    def slots(self):
        """The first lines about types of which slots never carry a right, with these slots."""
        firsts = {}
        for of, lines in self.system.admitted.items():
            if any(lines.values()):
                firsts.setdefault(min(lines), set()).add(of)
        for line, types in firsts.items():
            dead = list(self.dead_slots(types))
            if dead:
                yield line, dead

    def idle(self):
        """The lines of nothing but `none`, each beside one of the same type, or of the same task and verb, that names a
        class; with the first of these."""
        subjects, named = {}, set()
        for line, stood in self.by_line():
            for words in stood:
                at = {"admit": 2, "trust": 3}.get(words[0], len(words))
                subject = words[0], " ".join(words[1:at])
                subjects.setdefault(line, []).append((subject, words[at:] == ["none"]))
                if words[at:] not in ([], ["none"]):
                    named.add(subject)
        for line, said in subjects.items():
            if all(is_none and subject in named for subject, is_none in said):
                yield line, said[0][0][1] + " and the like" * (len(said) > 1)


def some(lines, wiring, kind):
    """The first lines of a kind, and how many more there are."""
    more = [f"{wiring}: {len(lines) - MOST} more {kind}"] if len(lines) > MOST else []
    return lines[:MOST] + more


def slots_text(dead):
    more = f" and {len(dead) - 1} more slots never carry" if len(dead) > 1 else " never carries"
    return f"{dead[0]}{more} a right"


def notices(system, facts, wiring, defs):
    """The lines about parts that can do nothing, behind `machcheck: `. `defs` has the files of interfaces, by name."""
    dead = Dead(system, facts)
    told = some([f"{defs[n]}: no port accepts messages of {n}" for n in dead.unaccepted()], wiring,
                "interfaces accepted by no port")
    told += some([f"{wiring}:{n}: no other task may ever send to {where}" for n, where in dead.quiet()], wiring,
                 "lines of ports to which no other task may ever send")
    told += some([f"{defs[n]}: {n} may be asked, but never with a port that accepts its replies"
                  for n in dead.unanswered()], wiring, "interfaces that are asked without a port for replies")
    told += some([f"{wiring}:{n}: {slots_text(found)}" for n, found in sorted(dead.slots())], wiring,
                 "lines of slots that never carry a right")
    told += some([f"{wiring}:{n}: none adds nothing to the other lines of {of}" for n, of in sorted(dead.idle())],
                 wiring, "lines of none add nothing")
    return told
