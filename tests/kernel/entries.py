"""The known differences between GNU Mach and the model: one table, ENTRIES, by name.

Each entry has:

- script: the smallest script that shows it
- kernel: what the kernel does
- manual: what Mach 3 Kernel Interfaces says, from memory: it was not looked up
- deviates: who deviates from that
- calls: why no fact is missed, which is the calls of the model that lead to the same rights

`Known` in known.py does what the entries say. What the kernel does and no entry says fails the
tests. So does an entry whose script does not differ, or would not differ without it.

The scripts are over WIRING. Task a has the port p under 2, and the kernel port of task b under 3.
Task b has the kernel port of a under 2, and a send right to p under 3. Under 1 each task has its
own kernel port.
"""

from dataclasses import dataclass

from cases import item
from room import pack

ALL = "request look, request xfer, request many, destroyed"
WIRING = f"""wiring 1
task a
task b
port p receiver a accepts {ALL}
births a accepts {ALL}
births b accepts {ALL}
hold a send task b
hold b send task a
hold b send port p
"""
NOTHING = "Nothing is given or lost: only the code differs."


def message(remote, disp, id, *rights, reply=0, reply_disp=0):
    """A message in hexadecimal digits; its rights are a disposition and a name each."""
    body = pack([word for disp, name in rights for word in (item(disp), name)])
    bits = (0x80000000 if rights else 0) | reply_disp << 8 | disp
    return (pack([bits, 24 + len(body), remote, reply, 0, id]) + body).hex()


def long_message(remote, id, name, first=0x30000000):
    """A message that copies a send right, with a descriptor of three words that begins so."""
    return pack([0x80000013, 40, remote, 0, 0, id, first, 19 | 32 << 16, 1, name]).hex()


@dataclass
class Entry:
    """A difference, as the top says."""

    script: list
    kernel: str
    manual: str
    deviates: str
    calls: str


ENTRIES = {
    "refused-rights": Entry(
        ["b insert_right 2 3 3 17"],
        "A request or a message that is refused after its header has taken its rights by then. "
        "They are destroyed with it: a send-once right with a notice, a receive right with its "
        "port.",
        "A message that is refused for its contents is destroyed. Of the calls on ports it says "
        "only the codes.",
        "the model: there a refused call changes nothing",
        "The rights are lost as by `deallocate` and `destroy`; one that the message was to make, "
        "as by `insert_right` under a new name before that. The notices are those of these calls.",
    ),
    "timed-out": Entry(
        ["a set_qlimit 1 2 0", f"b send {message(3, 19, 4001)}"],
        "A message that finds the queue full comes back, as if the sender had received it: a right "
        "that it copied or made is there once more, and what it moved may have another name.",
        "The same.",
        "the model: there a refused call changes nothing",
        "What is there once more is a copy of a right that the sender holds, or made from its own "
        "receive right: `insert_right` into its own space. Another name is `rename`.",
    ),
    "circular": Entry(
        [f"a send {message(2, 20, 2000, (16, 2))}"],
        "A message that would bring a port's receive right into its own queue, or round a circle "
        "of queues, is destroyed. So is a port that would go to itself as its own backup.",
        "Nothing.",
        "neither",
        "Rights are lost, as by `destroy` of the receive right and `deallocate` of the others.",
    ),
    "death-order": Entry(
        [
            "a allocate 3 receive",
            "a request_notification 3 4 69 0 2 21",
            "a insert_right 3 9 2 21",
            "a task_terminate 3",
        ],
        "What ends together ends one right after the other, by names, and the messages of a dead "
        "port in their order. So notices are queued in that order, and a port may still go to a "
        "backup that ends after it.",
        "No order.",
        "neither",
        "The same is a list of calls: `destroy` of each name in that order, and then the call. A "
        "notice carries what the backup's request lets it carry at any time.",
    ),
    "set-order": Entry(
        [
            "a allocate 1 set",
            "a allocate 1 receive",
            "a insert_right 3 9 5 20",
            "a move_member 1 2 4",
            "a move_member 1 5 4",
            f"b send {message(9, 19, 4001)}",
            f"b send {message(3, 19, 4001)}",
            "a receive 4 8192",
        ],
        "A port set gives the message that was queued first. What a port has queued when it joins "
        "counts as queued then.",
        "Messages of one port are in order; of several ports nothing.",
        "neither",
        "The receiver takes the member out by `move_member`, receives from it, and puts it back.",
    ),
    "dead-extract": Entry(
        ["a allocate 1 dead", "b extract_right 2 4 19"],
        "A send or send-once right that is extracted from a dead name is a dead right: the answer "
        "is done, with the name of no port. A moved one takes a reference of the dead name.",
        "Nothing of dead names.",
        "neither",
        "No right is given. A reference of a dead name goes by `deallocate`.",
    ),
    "sends-die": Entry(
        [
            "a allocate 1 receive",
            "a insert_right 1 4 4 20",
            "a request_notification 1 4 69 0 2 21",
            "a mod_refs 1 4 receive -1",
        ],
        "A receive right that goes by `mod_refs` turns the send references of its name into a dead "
        "name, also if the port goes to its backup and lives. The port counts that send right for "
        "ever.",
        "The name turns dead if the port dies.",
        "the kernel: by `destroy` the same right goes as the manual says",
        "Send rights are lost, as by `mod_refs` of them. A dead name is `allocate` of one, and no "
        "right.",
    ),
    "fewer-references": Entry(
        ["b mod_refs 1 3 send 65534"],
        "A name has at most 65,534 references to send rights.",
        "There is a limit, of no number.",
        "neither",
        "A reference less is given, as by `deallocate` of one.",
    ),
    "not-sent": Entry(
        ["a names 9"],
        "A request to a name that is no send right is not sent: the code is that of the message.",
        "KERN_INVALID_TASK is for what is no task; codes of messages come from the library.",
        "neither",
        NOTHING,
    ),
    "notify-by-message": Entry(
        ["a request_notification 1 2 69 0 9 21"],
        "A right for notices that can't be sent is a fault of the message, one of another kind a "
        "fault of the request; and a dead one is found before all other faults.",
        "A code for each fault, in no order.",
        "neither",
        NOTHING,
    ),
    "first-fault": Entry(
        ["a rename 1 9 2"],
        "Of two faults it finds another one first: in `rename` that the new name is used, in "
        "`insert_right` that the right is not there, in a message that the reply right is not "
        "there, or that one send-once right is named twice.",
        "A code for each fault, in no order.",
        "neither",
        NOTHING,
    ),
    "late-death": Entry(
        ["a destroy 1 2", "b mod_refs 1 3 send -2"],
        "That the port of a name is dead is found when the name is used. Before that `mod_refs` of "
        "its right by a wrong number is refused for the number; after that, because the name has "
        "no such right.",
        "A code for each fault, in no order.",
        "neither",
        NOTHING,
    ),
    "null-reply": Entry(
        [f"b send {message(3, 19, 4001, reply_disp=21)}", "a receive 2 8192"],
        "The header of a message that names no reply right keeps the kind of right that it would "
        "have been.",
        "Nothing.",
        "neither",
        "No right comes: some bits of the header differ.",
    ),
    "long-stays": Entry(
        [f"b send {long_message(3, 2100, 1)}", "a receive 2 8192"],
        "A descriptor of three words stays one, and its eight bytes more count for the receiver's "
        "limit.",
        "Both forms may be sent; which one comes is not said.",
        "neither",
        "The same rights come. A message that is too large stays in the queue, as with a smaller "
        "limit.",
    ),
    "long-first-word": Entry(
        [f"b send {long_message(3, 2100, 1, 0x30000013)}"],
        "In a descriptor of three words the fields of the first word that the others stand for "
        "have to be 0, or the message is refused with MACH_SEND_INVALID_TYPE.",
        "These fields are not used, and should be 0.",
        "neither",
        "Nothing is sent; rights are lost as in `refused-rights`.",
    ),
}
