"""Answers as objects: the line that `--format json` prints.

All was written by hand, from docs/FORMATS.md and docs/FAULTS.md.
"""

import json

from texts import ALONE, ASKED, CERTIFICATE, CHECKED, CLIENT, FORBID, FS, LOADER, STD, UNWRITTEN, words_in

ROWS = []


def written(name, words, files, status, /, err=None, made=None, **members):
    """The words without `--format json`, the files that are made, and the members of the object. On standard error come the
    notices, or `err`. The objects of `mig` that are no faults have a schema of their own. No policy here expects or waives."""
    command, *words = words_in(words)
    if command == "verify" and members["answer"] != "fault":
        members.update(unmet=[], waived=[])
    line = json.dumps({"schema": 1, **members}, ensure_ascii=False, separators=(",", ":"), sort_keys=True)
    err = "".join(f"{notice}\n" for notice in members.get("notices", [])) if err is None else err
    ROWS.append({"name": name, "args": [command, "--format", "json", *words], "files": files, "status": status,
                 "stdout": f"{line}\n", "stderr": err, "written": made or {}})


def hold(task, c, right):
    return {"class": c, "kind": "hold", "right": right, "task": task, "text": f"hold {task} {c} {right}"}


def carry(to, c, right):
    return {"class": c, "kind": "carry", "right": right, "text": f"carry {to} {c} {right}", "to": to}


def backup(c, notify):
    return {"class": c, "kind": "backup", "notify": notify, "text": f"backup {c} {notify}"}


def step(rule, fact, *places, by=None):
    return {"by": by, "fact": fact, "from": [*places], "rule": rule}


def line_of(number):
    return {"kind": "line", "line": number}


def fault(name, words, files, told, file, place=None, notes=(), err=None):
    """A fault: what is printed of it, the file, the place (line, column and text) and the notes."""
    line, column, text = place or (None, None, None)
    written(name, words, files, 2, answer="fault", column=column, command=words.split(" ")[0], fault=told, file=file,
            line=line, notes=[*notes], text=text, err=err or f"machcheck: {file}: {told}\n")


CONTROL = hold("server", "task:loader", "send")
CHAIN = [
    step("K1", hold("loader", "task:loader", "send"), by=line_of(2)),
    step("K1", hold("loader", "task:server", "send"), by=line_of(4)),
    step("K7", CONTROL, 1, 0, by={"kind": "task", "task": "server"}),
]
BROKEN = {"fact": CONTROL, "line": 2, "name": None, "steps": CHAIN, "text": "forbid server send task loader"}
written("a YES", ASKED, {"w": "wiring 1\ntask loader\ntask server\n", "p": FORBID}, 0,
        answer="YES", command="verify", notices=[])
written("a NO", ASKED, {"w": LOADER, "p": FORBID}, 1, answer="NO", broken=[BROKEN], command="verify", common=None,
        exposed=None, notices=[])
written("a NO, briefly", f"{ASKED} --brief", {"w": LOADER, "p": FORBID}, 1, answer="NO", broken=[{**BROKEN, "steps": []}],
        command="verify", common=None, exposed=None, notices=[])
written("a NO as a tree", f"{ASKED} --tree --verbose", {"w": LOADER, "p": FORBID}, 1, answer="NO", broken=[BROKEN],
        command="verify", common=None, exposed=None, notices=[])
# A line with quotes, a backslash, control characters, blanks at its ends, and letters of two, three and four bytes.
STRANGE = 'forbid server send task loader\t# "so" \\ \x01\x1b\x7f é€\U0001f600 <&>'
written("a strange line", ASKED, {"w": LOADER, "p": f"policy 1\n \t{STRANGE} \t\r\n"}, 1, answer="NO",
        broken=[{**BROKEN, "text": STRANGE}], command="verify", common=None, exposed=None, notices=[])
# Both lines are broken because the loader controls the server.
SEVERAL = FORBID + "forbid server receive births loader\n"
BIRTHS = {
    "fact": hold("server", "births:loader", "receive"),
    "line": 3,
    "name": None,
    "steps": [
        step("K1", hold("loader", "task:server", "send"), by=line_of(4)),
        step("K2", hold("loader", "births:loader", "receive")),
        step("K7", hold("server", "births:loader", "receive"), 0, 1, by={"kind": "task", "task": "server"}),
    ],
    "text": "forbid server receive births loader",
}
written("several lines", ASKED, {"w": LOADER, "p": SEVERAL}, 1, answer="NO", broken=[BROKEN, BIRTHS], command="verify",
        common={"fact": hold("loader", "task:server", "send"), "lines": 2}, exposed=None, notices=[])
written("one of several lines", f"{ASKED} --line 3", {"w": LOADER, "p": SEVERAL}, 1, answer="NO", broken=[BIRTHS],
        command="verify", common=None, exposed=None, notices=[])
# The guest controls a trusted task, also if one line is asked for.
OVER = {"w": "wiring 3\ntask proc\ntask guest\nhold guest send task proc\ntrust proc takes none\n",
        "p": "policy 1\nforbid guest send task proc\nforbid proc receive births proc\n"}
OVER_PROC = hold("guest", "task:proc", "send")
written("one line, and a trusted task", f"{ASKED} --line 2", OVER, 1, answer="NO", command="verify", common=None, notices=[],
        broken=[{"fact": OVER_PROC, "line": 2, "name": None, "steps": [step("K1", OVER_PROC, by=line_of(4))],
                 "text": "forbid guest send task proc"}],
        exposed={"fact": OVER_PROC, "line": 5, "name": None, "steps": [step("K1", OVER_PROC, by=line_of(4))],
                 "text": "trust proc takes none"})
TRUSTED = {"w": "wiring 3\ntask proc\ntask guest\nhold guest send task proc\n trust proc takes none # so \n",
           "p": "policy 1\n"}
EXPOSED = hold("guest", "task:proc", "send")
written("a trusted task", ASKED, TRUSTED, 1, answer="NO", broken=[], command="verify", common=None,
        exposed={"fact": EXPOSED, "line": 5, "name": None, "steps": [step("K1", EXPOSED, by=line_of(4))],
                 "text": "trust proc takes none # so"},
        notices=["machcheck: p: forbids nothing"])
written("a YES with notices", ASKED, {"w": "wiring 3\ntask proc\ntrust proc takes none\n", "p": "policy 1\n"}, 0,
        answer="YES", command="verify", notices=["machcheck: p: forbids nothing", "machcheck: w: trusted: proc"])
GIVEN = {"argument": "file", "kind": "slot", "routine": "open", "subsystem": "fs", "type": "file_t"}
TAKEN = hold("client", "task:server", "send")
written("a chain of messages", f"{ASKED} fs.defs", CLIENT, 1, answer="NO", command="verify", common=None, exposed=None,
        notices=[], broken=[{"fact": TAKEN, "line": 2, "name": None, "text": "forbid client send task server", "steps": [
            step("K1", hold("client", "port:root", "send"), by=line_of(6)),
            step("K2", hold("client", "births:client", "receive")),
            step("K1", hold("server", "port:root", "receive"), by=line_of(4)),
            step("K1", hold("server", "task:server", "send"), by=line_of(3)),
            step("K3", hold("client", "births:client", "once"), 1),
            step("K5", carry("port:root", "births:client", "once"), 0, 4, by={"kind": "subsystem", "subsystem": "fs"}),
            step("K6", hold("server", "births:client", "once"), 2, 5),
            step("K4", carry("births:client", "task:server", "send"), 6, 3, by=GIVEN),
            step("K6", TAKEN, 1, 7),
        ]}])

# Certificates.

def refused(name, files, kind, words=CHECKED, notices=(), fact=None, line=None, rule=None):
    written(name, words, files, 1, answer="NO", command="check", notices=[*notices],
            reason={"fact": fact, "kind": kind, "line": line, "rule": rule})


written("a certificate", CHECKED, ALONE, 0, answer="YES", command="check", notices=[])
refused("a stale certificate", {**ALONE, "w": "wiring 1\ntask a\ntask b\n"}, "counts")
refused("a stale certificate, with advice", {**ALONE, "w": "wiring 1\ntask a\ntask b\n"}, "counts",
        f"{CHECKED} --verbose", ["machcheck: this certificate is not of this wiring: make it anew, or use verify"])
refused("a missing fact", {**ALONE, "c": CERTIFICATE[:13] + b"\3" + CERTIFICATE[20:]}, "missing",
        fact=hold("a", "task:a", "send"))
refused("a set that is not closed", {**ALONE, "c": CERTIFICATE[:13] + b"\3" + CERTIFICATE[14:32]}, "not closed",
        fact=hold("a", "births:a", "once"), rule="K3")
refused("a forbidden fact", {**ALONE, "p": "policy 1\n\nforbid a once births a\n"}, "forbidden", line=3)
# Two tasks, of which each has all: send rights to both kernel ports, and all rights to the births of both.
HELD = [(0, 0), (1, 0), *((c, right) for c in (2, 3) for right in (0, 1, 2))]
ALL_OF_TWO = bytes.fromhex("4d524343000100020004" "00000010") + \
    b"".join(bytes([1, 0, task, 0, c, right]) for task in (0, 1) for c, right in HELD)
refused("a trusted task of a certificate", {
    "w": "wiring 3\ntask a\ntask b\nhold b send task a\n\ntrust a takes none\n", "p": "policy 1\n", "c": ALL_OF_TWO,
}, "trusted", fact=hold("b", "task:a", "send"), line=6)

written("a chain", "explain --wiring w --fact hold_server_task:loader_send", {"w": LOADER}, 0,
        answer="chain", command="explain", fact=CONTROL, steps=CHAIN)
written("a chain with its sources", "explain --by --wiring w --fact hold_server_task:loader_send",
        {"w": LOADER}, 0, answer="chain", command="explain", fact=CONTROL, steps=CHAIN)
written("no chain", "explain --wiring w --fact hold_server_task:loader_once", {"w": LOADER}, 1,
        answer="none", command="explain", fact=hold("server", "task:loader", "once"), steps=[])
written("facts", "facts --wiring w", {"w": "wiring 2\ntask a\nbirths a 3 accepts destroyed\n"}, 0, answer="facts",
        command="facts", facts=[
            hold("a", "task:a", "send"),
            *(hold("a", c, right) for c in ("births:a", "births:a:3") for right in ("send", "receive", "once")),
            *(carry("births:a:3", c, "receive") for c in ("births:a", "births:a:3")),
            *(backup(c, "births:a:3") for c in ("births:a", "births:a:3")),
        ])
written("facts of a right", "facts --right receive --task a --wiring w", {"w": "wiring 1\ntask a\ntask b\n"}, 0,
        answer="facts", command="facts", facts=[hold("a", "births:a", "receive")])
written("facts of another wiring", "facts --wiring w --cert c", {"w": "wiring 1\n", "c": CERTIFICATE}, 1, answer="NO",
        command="facts", reason={"fact": None, "kind": "counts", "line": None, "rule": None})
written("nothing to mend", "mend --wiring w --policy p", {"w": "wiring 1\n", "p": "policy 1\n"}, 0, answer="YES",
        command="mend")
for blanks in " ", "  ":
    text = f"hold{blanks}loader send task server"
    written(f"a mend of a line with{blanks}blanks", "mend --wiring w --policy p", {
        "w": LOADER.replace("hold loader", f"\thold{blanks}loader") + "# end\n", "p": FORBID,
    }, 0, answer="changes", cause=None, command="mend", complete=True,
            mends=[{"changes": [{"kind": "remove", "line": 4, "text": text}], "loses": 8}])
written("a mend of two broken lines", "mend --wiring w --policy p", {"w": LOADER, "p": SEVERAL}, 0, answer="changes",
        cause={"lines": 2, "text": "hold loader task:server send"}, command="mend", complete=True,
        mends=[{"changes": [{"kind": "remove", "line": 4, "mends": 2, "text": "hold loader send task server"}], "loses": 8}])
written("no mend", "mend --wiring w --policy p", {"w": "wiring 1\ntask a\n", "p": "policy 1\nforbid a send task a\n"}, 1,
        answer="none", cause=None, command="mend", complete=True, mends=[])
# Attacks. The loader has its own kernel port under 1 and that of the server under 2, and 19 is COPY_SEND. The server has
# its kernel port under 1. An empty list of calls: the hold is one of the wiring.
ATTACKED = "attack --wiring w --policy p"


def attacks(name, words, files, *found, notices=()):
    written(name, words, files, 1, answer="attacks", command="attack", notices=[*notices], attacks=[
        {"calls": calls or [], "cut": False, "fact": fact, "line": line, "real": calls is not None, "text": text,
         "trusted": trusted} for fact, line, text, trusted, calls in found])


LOADED = (CONTROL, 2, "forbid server send task loader", False, ["loader insert_right 2 2 1 19"])
attacks("an attack", ATTACKED, {"w": LOADER, "p": FORBID}, LOADED)
attacks("an attack on a line", f"{ATTACKED} --line 2", {"w": LOADER, "p": FORBID}, LOADED)
attacks("attacks on what is held at first", ATTACKED, OVER,
        (OVER_PROC, 5, "trust proc takes none", True, []), (OVER_PROC, 2, "forbid guest send task proc", False, []),
        (hold("proc", "births:proc", "receive"), 3, "forbid proc receive births proc", False, ["proc allocate 1 receive"]))
written("nothing to attack", ATTACKED, {"w": "wiring 1\n", "p": "policy 1\n"}, 0, answer="YES", command="attack",
        notices=["machcheck: p: forbids nothing"])

# Slots, promises and drawings.

WAYS = f"""subsystem ways 400;
{STD}type box_t = MACH_MSG_TYPE_MOVE_RECEIVE;
type file_t = MACH_MSG_TYPE_COPY_SEND;
type once_t = MACH_MSG_TYPE_MAKE_SEND_ONCE;
simpleroutine hand(server : mach_port_t; in box : box_t);
skip;
routine swap(server : mach_port_t; inout file : file_t; in number : int; out once : once_t);
"""


def slot(routine, number, message, argument, type_name, disposition, admits):
    return {"admits": admits, "argument": argument, "disposition": f"MACH_MSG_TYPE_{disposition}", "id": number,
            "message": message, "routine": routine, "subsystem": "ways", "type": type_name}


written("slots", "slots --wiring w ways.defs", {
    "w": "wiring 2\ntask a\nport q receiver a accepts request ways\nbirths a 3 accepts none\nadmit ways.file_t task a\n"
         "admit ways.file_t port q\nadmit ways.once_t none\nadmit ways.file_t births a 3\n", "ways.defs": WAYS,
}, 0, answer="slots", command="slots", slots=[
    slot("hand", 400, "request", "box", "box_t", "MOVE_RECEIVE", None),
    slot("swap", 402, "request", "file", "file_t", "COPY_SEND", ["port:q", "task:a", "births:a:3"]),
    slot("swap", 502, "reply", "file", "file_t", "COPY_SEND", ["port:q", "task:a", "births:a:3"]),
    slot("swap", 502, "reply", "once", "once_t", "MAKE_SEND_ONCE", []),
])
written("a slot", "slots --wiring w fs.defs", {"w": "wiring 1\ntask server\nadmit fs.file_t births server\n", "fs.defs": FS}, 0,
        answer="slots", command="slots", slots=[{
            "admits": ["births:server"], "argument": "file", "disposition": "MACH_MSG_TYPE_COPY_SEND", "id": 200,
            "message": "reply", "routine": "open", "subsystem": "fs", "type": "file_t"}])
written("no slots", "slots --wiring w", {"w": "wiring 1\n"}, 0, answer="slots", command="slots", slots=[])


def promise(line, task, verb, text, right=None, name=None):
    return {"class": name, "line": line, "right": right, "task": task, "text": text, "verb": verb}


def delivered(name, items, told, *lines):
    return {"class": name, "items": items, "lines": [*lines], "text": f"mach_msg delivers {told}"}


def admitted(type_name, admits, text, *lines):
    return {"admits": admits, "lines": [*lines], "subsystem": "fs", "text": text, "type": type_name}


written("promises", "promises --wiring w", {
    "w": "wiring 3\ntask a\ntask b\nbirths b 07 accepts none\ntrust a takes none\ntrust a sends send task b # so\n"
         "replies fit\ntrust a sends once births b 07\ntrust b replies births b 0\n",
}, 0, admitted=[], answer="promises", command="promises", delivered=[
    delivered("births:a", [], "nothing"), delivered("births:b", [], "nothing"), delivered("births:b:7", [], "nothing", 4),
], promises=[
    promise(5, "a", "takes", "no mach_port_extract_right from another task, and no mach_port_request_notification there that "
                             "returns a right"),
    promise(6, "a", "sends", "mach_msg with rights in its body only of send rights on ports of task b", "send", "task:b"),
    promise(7, None, "replies fit",
            "mach_msg with a reply port only if the port accepts the replies of the request's interface"),
    promise(8, "a", "sends", "mach_msg with rights in its body or of send-once rights on ports of births b 7", "once",
            "births:b:7"),
    promise(9, "b", "replies", "mach_msg with reply ports only of births b", "once", "births:b"),
])


written("a promise", "promises --wiring w", {"w": "wiring 3\ntask a\ntrust a sends none\n"}, 0, admitted=[],
        answer="promises", command="promises", delivered=[delivered("births:a", [], "nothing")],
        promises=[promise(3, "a", "sends", "no mach_msg with rights in its body")])
written("promises of ports", "promises --wiring w fs.defs", {
    "w": "wiring 2\ntask server\nport gate receiver server accepts request fs, destroyed\nbirths server 2 accepts reply fs\n"
         "admit fs.file_t births server 2\nadmit fs.file_t task server\n", "fs.defs": FS,
}, 0, admitted=[
    admitted("file_t", ["births:server:2", "task:server"], "only rights on ports of births server 2, task server", 5, 6),
], answer="promises", command="promises", delivered=[
    delivered("port:gate", ["request fs", "destroyed"], "only requests of fs, port-destroyed notices", 3),
    delivered("births:server", [], "nothing"), delivered("births:server:2", ["reply fs"], "only replies of fs", 4),
], promises=[])


def drawn(fact, first=False, forbidden=None):
    return {"fact": fact, "first": first, "forbidden": forbidden}


written("a drawing", "graph --wiring w --policy p", {
    "w": "wiring 2\ntask a\nbirths a 3 accepts destroyed\n",
    "p": "policy 2\nforbid a send task a\n# so\nforbid a send births a 3\nforbid a send births a 3\n",
}, 0, answer="graph", classes=["task:a", "births:a", "births:a:3"], command="graph", tasks=["a"], facts=[
    drawn(hold("a", "task:a", "send"), True, 2),
    *(drawn(hold("a", "births:a", right)) for right in ("send", "receive", "once")),
    drawn(hold("a", "births:a:3", "send"), False, 4),
    *(drawn(hold("a", "births:a:3", right)) for right in ("receive", "once")),
    *(drawn(carry("births:a:3", c, "receive")) for c in ("births:a", "births:a:3")),
    *(drawn(backup(c, "births:a:3")) for c in ("births:a", "births:a:3")),
])
written("a drawing of a chain", "graph --wiring w --fact hold_server_task:loader_send", {"w": LOADER}, 0, answer="graph",
        classes=["task:loader", "task:server"], command="graph", tasks=["loader", "server"], facts=[
            drawn(hold("loader", "task:loader", "send"), True), drawn(hold("loader", "task:server", "send"), True),
            drawn(CONTROL),
        ])
written("nothing is drawn", "graph --wiring w --task a --holds --cert c", {
    "w": ALONE["w"], "c": CERTIFICATE[:10] + bytes(4)}, 0, answer="graph", classes=[], command="graph", facts=[], tasks=[])
written("no chain is drawn", "graph --wiring w --fact hold_server_task:loader_once", {"w": LOADER}, 1,
        answer="none", command="graph", fact=hold("server", "task:loader", "once"))
written("a drawing of another wiring", "graph --wiring w --cert c", {"w": "wiring 1\n", "c": CERTIFICATE}, 1, answer="NO",
        command="graph", reason={"fact": None, "kind": "counts", "line": None, "rule": None})

# Scripts. A task has its own kernel port under 1, and a new name is the least that it does not use.


def event(number, task, call, reply):
    return {"call": call, "number": number, "reply": reply, "task": task}


written("a replay", "replay --wiring w --script s", {
    "w": "wiring 1\ntask a\n",
    "s": "# a port, its send right, and what is refused\na allocate 01 receive 0\n\na insert_right 1 2 2 20 # MAKE_SEND\n"
         "a get_refs 1 2 send\na deallocate 1 9\na mod_refs 1 2 send 01\na receive 2 24\na task_create 1\n@1 names 1\n",
}, 0, answer="replay", command="replay", ports=3, events=[
    event(0, "a", "allocate 1 receive", "name 2"),
    event(1, "a", "insert_right 1 2 2 20", "done"),
    event(2, "a", "get_refs 1 2 send", "refs 1"),
    event(3, "a", "deallocate 1 9", "refused KERN_INVALID_NAME"),
    event(4, "a", "mod_refs 1 2 send 1", "done"),
    event(5, "a", "receive 2 24", "refused MACH_RCV_TIMED_OUT"),
    event(6, "a", "task_create 1", "task 1 name 3"),
    event(7, "@1", "names 1", "names 1:65536"),
])
written("a replay of a call", "replay --wiring w --script s", {"w": "wiring 1\ntask a\n", "s": "a allocate 1 receive\n"}, 0,
        answer="replay", command="replay", events=[event(0, "a", "allocate 1 receive", "name 2")], ports=2)
written("an empty replay", "replay --wiring w --script s", {"w": "wiring 1\n", "s": "# nothing\n"}, 0, answer="replay",
        command="replay", events=[], ports=0)
LIVED = "live --wiring w --policy p --cert c --script s"
written("a journal", LIVED, {**ALONE, "s": "a allocate 1 receive\n"}, 0, answer="journal", command="live", ports=2,
        events=[event(0, "a", "allocate 1 receive", "name 2")], waits=[])
written("a journal of tasks that wait", LIVED, {**ALONE, "s": "a allocate 1 receive\n\na wait 2 24\n"}, 2,
        answer="all wait", command="live", ports=2, events=[event(0, "a", "allocate 1 receive", "name 2")], waits=[3],
        err="machcheck: s: AllWait 3\n")
written("a script that is not run", LIVED, {**ALONE, "p": "policy 1\nforbid a once births a\n", "s": ""}, 1,
        answer="NO", command="live", notices=[], reason={"fact": None, "kind": "forbidden", "line": 2, "rule": None})

# A type is not read, and two routines are left out, of which one carries rights.
EDITION = "#pragma machcheck 2\n"
LEFT = f"""subsystem s 300;
{STD}type gate_t = mach_port_t;
type other_t = array[4 of int;
routine one(server : mach_port_t; in number : int);
skip;
procedure two(server : mach_port_t;
    in data : data_t = ^array[] of char);
routine three(server : mach_port_t; in gate : gate_t; out other : other_t);
"""
LEFT_OUT = [
    {"carries": [], "file": "s.defs", "id": 302, "line": 7, "routine": "two", "text": "procedure", "word": "OldForm"},
    {"carries": [{"argument": "gate", "type": "gate_t"}, {"argument": "other", "type": "other_t"}],
     "file": "s.defs", "id": 303, "line": 9, "routine": "three", "text": "other_t", "word": "UnknownType"},
]
TYPES = [{"file": "s.defs", "line": 4, "name": "other_t", "text": "of", "word": "Unexpected"}]
FILES = [{"file": "s.defs", "left_out": LEFT_OUT, "read": 1, "types": TYPES}]
TOLD = """\
s.defs:4: type other_t not read: Unexpected of
s.defs:7: routine two (id 302) left out: OldForm procedure
s.defs:9: routine three (id 303) left out: UnknownType other_t, carries gate (gate_t), other (other_t)
s.defs: 1 of 3 routines read, 1 of those left out carries rights
"""
written("a file of which a part is read", "mig --out out s.defs", {"s.defs": LEFT, "out/x": ""}, 0, answer="cut",
        command="mig", files=FILES, err=TOLD, made={"out/s.defs": EDITION + LEFT}, schema=2)
written("a file that is not written", "mig --strict --out out s.defs", {"s.defs": LEFT, "out/x": ""}, 2, answer="not cut",
        command="mig", files=FILES, err=TOLD, schema=2)
CUT = f'subsystem t 5;\n{STD}routine r(p : mach_port_t);\nrcsid "left out: u carries gate (gate_t)";\n'
ONE = {"file": "t.defs", "left_out": [], "read": 1, "types": []}
ANEW = "t.defs: cut by an older mig: make it anew\nt.defs: 1 of 1 routines read\n"
written("a file that an older mig cut", "mig --out out t.defs s.defs", {"t.defs": CUT, "s.defs": LEFT, "out/x": ""}, 0,
        answer="cut", command="mig", files=[ONE, *FILES], err=ANEW + TOLD, schema=2,
        made={"out/t.defs": EDITION + CUT, "out/s.defs": EDITION + LEFT})
written("an older mig's file, with --strict=rights", "mig --strict=rights --out out t.defs", {"t.defs": CUT, "out/x": ""}, 2,
        answer="not cut", command="mig", files=[ONE], err=ANEW, schema=2)
# In a text a backslash stands before one of a file's name, and names are shown without control characters on standard error.
MARKED = 'subsystem t 5;\n# 7 "a\\\\\tb.defs"\ntype odd_t = int @;\n# 3 "é.defs" 1\n\nroutine (p : odd_t);\n'
written("lines that came from other files", "mig --as-received --out out t.defs", {"t.defs": MARKED, "out/x": ""}, 2,
        answer="not cut", command="mig", schema=2, err="""\
a\\\\\\tb.defs:7: type odd_t not read: Unexpected @
é.defs:4: routine ? (id 5) left out: Unexpected (, carries ? (?)
t.defs: 0 of 1 routines read, 1 of those left out carries rights
""", files=[{"file": "t.defs", "read": 0, "left_out": [{
            "carries": [{"argument": "?", "type": "?"}], "file": "é.defs", "id": 5, "line": 4, "routine": "?", "text": "(",
            "word": "Unexpected",
        }], "types": [{"file": "a\\\tb.defs", "line": 7, "name": "odd_t", "text": "@", "word": "Unexpected"}]}])

# Faults.

NAMED = "a name has letters, digits and _, begins with no digit, and has at most 64 characters"
fault("a typo in a wiring", ASKED, {"w": "wiring 1\n\ttsk fs # x\n", "p": FORBID}, "BadLine 2", "w",
      (2, 2, "\ttsk fs # x"), ["expected: task, port, births, hold or admit", "did you mean: task"])
fault("a name of a wiring", "facts --wiring w", {"w": "wiring 1\ntask client\nhold clent send task client\r\n"},
      "UnknownName 3", "w", (3, 6, "hold clent send task client\r"),
      ["no line above declares a task of this name", "did you mean: client"])
OK = "wiring 1\ntask fs\n" + 9 * "\n" + "births fs accepts request proc\n"
fault("a missing MIG file", "verify --wiring ok.wiring --policy p fs.defs name.defs", {
    "ok.wiring": OK, "p": "policy 1\n", "fs.defs": FS, "name.defs": f"subsystem name 200;\n{STD}skip;\n",
}, "UnknownName 12", "ok.wiring", (12, 27, "births fs accepts request proc"),
      ["no MIG file that was given has this subsystem; they have: fs, name"])
fault("a name of a policy", ASKED, {"w": LOADER, "p": "policy 1\nforbid sever send task loader\n"}, "UnknownName 2", "p",
      (2, 8, "forbid sever send task loader"), ["the wiring has no task of this name", "did you mean: server"])
fault("a strange line of a wiring", "facts --wiring w", {"w": 'wiring 1\ntask\x02"é\\€" # \U0001f600\x9b\n'}, "BadLine 2",
      "w", (2, 1, 'task\x02"é\\€" # \U0001f600\x9b'), ["expected: task, port, births, hold or admit"])
fault("columns are characters", "facts --wiring w", {"w": "wiring 1\ntask é x\n"}, "BadLine 2", "w", (2, 6, "task é x"),
      ["expected: the name of a task", NAMED])
fault("a type of a MIG file", "facts --wiring w d", {"w": "wiring 1\n",
      "d": f"subsystem s 5;\n{STD}routine r(p : mach_prot_t);\n"}, "UnknownType 60", "d",
      (3, 15, "routine r(p : mach_prot_t);"), ["did you mean: mach_port_t"])
fault("a file that is not there", "mig --out . absent.defs", {}, "ReadFailed", "absent.defs", None,
      ["no such file or folder"])
fault("a folder", "check --wiring w --policy p --cert folder", {"w": "wiring 1\n", "p": "policy 1\n", "folder/x": ""},
      "ReadFailed", "folder", None, ["it is a folder"])
fault("a strange name of a file", 'facts --wiring a\tb"é\\\x1b', {}, "ReadFailed", r'a\tb"é\\\x1b', None,
      ["no such file or folder"])
fault("bytes that are no text", "facts --wiring w", {"w": b"wiring 1\n# \xff\n"}, "NotUtf8", "w", None,
      ["the byte ff on line 2 is not UTF-8"])
fault("two MIG files of one subsystem", "facts --wiring w a.defs b.defs", {"w": "wiring 1\n", "a.defs": FS, "b.defs": FS},
      "TwiceNamed 0", "w", None, ["a.defs and b.defs have the same subsystem: fs"])
fault("too many MIG files", " ".join(["facts --wiring w", *(f"d{n}" for n in range(17))]),
      {"w": "wiring 1\n", **{f"d{n}": f"subsystem s{n} 5;\n" for n in range(17)}}, "TooMany 0", "w", None,
      ["d16 is the 17th MIG file: a wiring of version 1 or 2 has at most 16, one of version 3 has 256"])
fault("an empty wiring", "facts --wiring w", {"w": ""}, "BadLine 1", "w", None,
      ["expected: wiring 1, wiring 2, wiring 3 or wiring 4"])
fault("a word of an option", "facts --task nobody --wiring w", {"w": LOADER}, "BadTask", "--task", None,
      ["the wiring has no task of this name", "tasks of the wiring: loader, server"])
fault("a class of an option", "facts --class nobody --wiring w", {"w": "wiring 1\n"}, "BadClass", "--class", None,
      ["the wiring has no class of this name"])
fault("a right of an option", "facts --right nobody --wiring w", {"w": "wiring 1\n"}, "BadRight", "--right", None,
      ["expected: send, receive or once"])
fault("no fact", "explain --wiring w --fact hold_a", {"w": "wiring 1\n"}, "BadFact", "--fact", None,
      ["expected: hold TASK CLASS RIGHT, carry CLASS CLASS RIGHT or backup CLASS CLASS"])
fault("no number of mends", "mend --most 0 --wiring w --policy p", {}, "BadMost", "--most", None,
      ["expected: a number from 1 to 1000000"])
fault("a line that holds", f"{ASKED} --line 9", {"w": LOADER, "p": FORBID}, "NotBroken", "--line", None,
      ["verify without --line prints the lines that are broken"])
fault("no number of a line", f"{ASKED} --line 0", {}, "BadLine", "--line", None,
      ["expected: a number from 1 to 4294967295"])
fault("a certificate that is none", CHECKED, {**ALONE, "c": b"no"}, "Magic", "c", None,
      ["a certificate begins with the bytes MRCC: make writes one"])
fault("a fault in a certificate", CHECKED, {**ALONE, "c": CERTIFICATE[:14] + b"\4" + CERTIFICATE[15:]}, "BadFact 14", "c",
      None, ["no fact begins at this byte: its kind, task, class or right is out of range"])
fault("two files of one name", "mig --out out s.defs a/s.defs", {"s.defs": LEFT, "a/s.defs": LEFT}, "SameName",
      "a/s.defs", None, ["an earlier file has this name: write them into two folders"])
fault("a folder that is not there", "mig --out absent t.defs", {
    "t.defs": f"subsystem t 5;\n{STD}routine r(p : mach_port_t);\n",
}, "WriteFailed 0", "absent/t.defs", None, [UNWRITTEN],
      "t.defs: 1 of 1 routines read\nmachcheck: absent/t.defs: WriteFailed 0\n")
fault("mig of what is no MIG file", "mig --out . d.defs", {"d.defs": "subsystem s 5;\nnonsense x;\n"}, "Unexpected 15",
      "d.defs", (2, 1, "nonsense x;"))
fault("mig of what is no MIG file of another source", "mig --out . d.defs",
      {"d.defs": '# 70 "s/x.defs"\nsubsystem s 5;\nnonsense x;\n'}, "Unexpected 31", "s/x.defs", (71, 1, "nonsense x;"),
      err="machcheck: d.defs: Unexpected 31\n")
