"""Policies of version 3: what their lines forbid, expect and waive, and what each command prints of it.

All was written by hand, from docs/FORMATS.md and docs/FAULTS.md.
"""

import json

from json_answers import hold, line_of, step
from texts import ALONE, ASKED, CHECKED, FORBID, LOADER, STD

ROWS = []
# A name as one word.
HYPHENS = {ord(" "): "-", ord(","): "", ord("'"): ""}


def row(name, words, files, out="", err="", status=0, **others):
    told = {"args": words.split(" "), "stdout": out, "stderr": err, "status": status}
    ROWS.append({"name": f"policy-3-{name.translate(HYPHENS)}", "files": files, **told, **others})


def answer(name, words, wired, policy, out, err="", status=1):
    """What comes of a policy whose lines are behind its heading."""
    row(name, words, {"w": wired, "p": f"policy 3\n{policy}"}, out, err, status)


def verify(name, wired, policy, out, err="", status=1):
    answer(name, ASKED, wired, policy, out, err, status)


def brief(name, wired, policy, out, err="", status=1):
    answer(name, f"{ASKED} --brief", wired, policy, out, err, status)


def refused(name, fault, wired, policy):
    verify(name, wired, policy, "", f"machcheck: p: {fault}\n", 2)


# Three tasks, of which two are a group. In SENT both of them may send to the port of the first.
APART = """\
wiring 4
task a, b, c
group u b, c
port p receiver a accepts none
births a 1 accepts none
births u 1 accepts none
"""
SENT = f"{APART}hold u send port p\n"
# What a may do in each of these: so a policy expects something.
OWN = "expect a send task a\n"
NO_FORBID = "machcheck: p: forbids nothing\n"
NO_EXPECT = "machcheck: p: expects nothing\n"

# Two clients of a server, each with sessions of its own. First each asks by an interface of its own; then by one, and its
# type admits all births of the server.


def sessions(subsystem, number):
    return f"subsystem {subsystem} {number};\n{STD}type session_t = MACH_MSG_TYPE_MAKE_SEND;\n" \
        "routine open(p : mach_port_t; out q : session_t);\nroutine use(q : mach_port_t; n : int);\n"


CLIENTS = """\
policy 3
forbid "apart, #1" a any births server 2
forbid "apart, #2" b any births server 1
forbid "no control" server, a, b send task other
expect a send births server 1
expect "b works" b send births server 2
"""
row("clients that are apart", f"{ASKED} --brief s_a.defs s_b.defs", {"w": """\
wiring 4
task server, a, b
port gate_a receiver server accepts request s_a
port gate_b receiver server accepts request s_b
births server 1 accepts request s_a
births server 2 accepts request s_b
births a 0 accepts reply s_a
births b 0 accepts reply s_b
hold a send port gate_a
hold b send port gate_b
admit s_a.session_t births server 1
admit s_b.session_t births server 2
replies fit
""", "p": CLIENTS, "s_a.defs": sessions("s_a", 7000), "s_b.defs": sessions("s_b", 7200)}, "YES\n")
row("clients that are not apart", f"{ASKED} --brief s.defs", {"w": """\
wiring 4
task server, a, b
port gate receiver server accepts request s
births server 1 accepts request s
births server 2 accepts request s
hold a, b send port gate
replies fit
births a, b 0 accepts reply s
admit s.session_t births server any
""", "p": CLIENTS, "s.defs": sessions("s", 7000)}, """\
NO forbidden line 2 "apart, #1" hold a births:server:2 send
NO forbidden line 3 "apart, #2" hold b births:server:1 send
""", status=1)

# What lines forbid and expect.

brief("trusted before the lines in their order", """\
wiring 4
task a, b, c
hold a send task b
trust c, b takes none
""", """\
expect c send task a, task c
forbid "f" a any task other
""", """\
NO trusted line 4 hold a task:b send
NO expected line 2 hold c task:a send
NO forbidden line 3 "f" hold a task:b send
""")
verify("expected and lacking", f"{APART}hold b send port p\n", """\
expect "reads" u send port p
expect b receive port p
""", """\
NO expected line 2 "reads" hold c port:p send
NO expected line 3 hold b port:p receive
""", NO_FORBID)
verify("a name in front of the fact", SENT, f"forbid \"no sends\" b send port p\n{OWN}", """\
NO forbidden line 2 "no sends" hold b port:p send
  0 K1 hold b port:p send by line 7
""")
verify("a hash and a comma in a name", SENT, f"forbid \"a, b # c\"\tb send port p # \"so\"\n{OWN}", """\
NO forbidden line 2 "a, b # c" hold b port:p send
  0 K1 hold b port:p send by line 7
""")
verify("letters of several bytes in strings", SENT, f"""\
forbid "é €, \U0001f600" u send port p
waive "é €, \U0001f600" c send port p "ü # so"
{OWN}""", """\
NO forbidden line 2 "é €, \U0001f600" hold b port:p send
  0 K1 hold b port:p send by line 7
WAIVED line 2 "é €, \U0001f600" hold c port:p send "ü # so"
""")
LONG = 64 * "é"
verify("strings of 128 bytes", SENT, f'forbid "{LONG}" b send port p\nwaive "{LONG}" "{128 * "x"}"\n{OWN}',
       f'WAIVED line 2 "{LONG}" hold b port:p send "{128 * "x"}"\n')
verify("a string is a word by itself", SENT, f'forbid"x"b send port p\nwaive"x""known"\n{OWN}',
       'WAIVED line 2 "x" hold b port:p send "known"\n')
# c receives at two ports, and a and b may send there.
PORTS = """\
wiring 4
task a, b, c
port p receiver c accepts none
port q receiver c accepts none
hold a, b send port p, port q
hold b once port q
"""
verify("a product in its order", PORTS, f"forbid \"o\" b, a any port q, port p\n{OWN}", """\
NO forbidden line 2 "o" hold b port:q send
  0 K1 hold b port:q send by line 5
NO forbidden line 2 "o" hold b port:p send
  0 K1 hold b port:p send by line 5
NO forbidden line 2 "o" hold b port:q once
  0 K1 hold b port:q once by line 6
NO forbidden line 2 "o" hold a port:q send
  0 K1 hold a port:q send by line 5
NO forbidden line 2 "o" hold a port:p send
  0 K1 hold a port:p send by line 5
""")
verify("rights in their order, each once", PORTS, f"forbid b, b once, send, once port q, port q\n{OWN}", """\
NO forbidden line 2 hold b port:q once
  0 K1 hold b port:q once by line 6
NO forbidden line 2 hold b port:q send
  0 K1 hold b port:q send by line 5
""")
verify("all but one", PORTS, f"forbid all but c once, send port q\n{OWN}", """\
NO forbidden line 2 hold a port:q send
  0 K1 hold a port:q send by line 5
NO forbidden line 2 hold b port:q once
  0 K1 hold b port:q once by line 6
NO forbidden line 2 hold b port:q send
  0 K1 hold b port:q send by line 5
""")
CONTROLLED = "wiring 4\ntask a, b\nhold a send task b\n"
verify("other than the holder", CONTROLLED, f"forbid all send task other\n{OWN}", """\
NO forbidden line 2 hold a task:b send
  0 K1 hold a task:b send by line 3
NO forbidden line 2 hold b task:a send
  0 K1 hold a task:a send by line 2
  1 K1 hold a task:b send by line 3
  2 K7 hold b task:a send from 1 0 by task:b
""")
brief("facts are counted, not lines", CONTROLLED, f"forbid all send task other\n{OWN}", """\
# 2 of 2 lines by: hold a task:b send
NO forbidden line 2 hold a task:b send
NO forbidden line 2 hold b task:a send
""")
verify("births of others are expected", SENT, "forbid a send task b\nexpect \"r\" all receive births other 1\n", """\
NO expected line 3 "r" hold a births:b:1 receive
NO expected line 3 "r" hold a births:c:1 receive
NO expected line 3 "r" hold b births:a:1 receive
NO expected line 3 "r" hold b births:c:1 receive
NO expected line 3 "r" hold c births:a:1 receive
NO expected line 3 "r" hold c births:b:1 receive
""")
verify("births of any kind are forbidden", SENT, f"forbid a receive births a any\n{OWN}", """\
NO forbidden line 2 hold a births:a receive
  0 K2 hold a births:a receive
NO forbidden line 2 hold a births:a:1 receive
  0 K2 hold a births:a:1 receive
""")
verify("a product of lists that are mixed", SENT, """\
group h a, b
forbid "p" h send, receive task other, births c any
expect h receive births h 1
""", """\
NO expected line 4 hold a births:b:1 receive
NO expected line 4 hold b births:a:1 receive
""")
verify("a group of groups", SENT, f"group h u, a, b\nforbid h send port p\n{OWN}", """\
NO forbidden line 3 hold b port:p send
  0 K1 hold b port:p send by line 7
NO forbidden line 3 hold c port:p send
  0 K1 hold c port:p send by line 7
NO forbidden line 3 hold a port:p send
  0 K1 hold a port:p receive by line 4
  1 K3 hold a port:p send from 0
""")
verify("all but groups", SENT, f"group h b\nforbid all but h, c once port p\nexpect all but u send port p\n", """\
NO forbidden line 3 hold a port:p once
  0 K1 hold a port:p receive by line 4
  1 K3 hold a port:p once from 0
""")
verify("all but one in a class", SENT, "forbid c any task all but c\nexpect c send port p, births all but c 1\n", """\
NO expected line 3 hold c births:a:1 send
NO expected line 3 hold c births:b:1 send
""")
verify("lines of one name", SENT, f"""\
forbid "x" b send port p
forbid "y" c send port p
forbid "x" c receive births c 1
waive "x" "known"
{OWN}""", """\
WAIVED line 2 "x" hold b port:p send "known"
NO forbidden line 3 "y" hold c port:p send
  0 K1 hold c port:p send by line 7
WAIVED line 4 "x" hold c births:c:1 receive "known"
""")
verify("a fact of two lines", SENT, f"forbid \"x\" b send port p\nforbid u send port p\n{OWN}", """\
NO forbidden line 2 "x" hold b port:p send
  0 K1 hold b port:p send by line 7
NO forbidden line 3 hold b port:p send
  0 K1 hold b port:p send by line 7
NO forbidden line 3 hold c port:p send
  0 K1 hold c port:p send by line 7
""")
# Another right is told of a line that holds, and not of one that is broken elsewhere.
brief("another right than those of a line that holds", SENT, f"forbid b receive port p, task a\n{OWN}", "YES\n",
      "machcheck: p:2: holds, but b may hold port:p send\n", 0)
brief("another right than those of a broken line", SENT, f"forbid b receive port p, births b 1\n{OWN}",
      "NO forbidden line 2 hold b births:b:1 receive\n")
brief("another right than those of two lines", SENT, f"forbid b receive port p\nforbid b receive births b 1\n{OWN}",
      "NO forbidden line 3 hold b births:b:1 receive\n", "machcheck: p:2: holds, but b may hold port:p send\n")
verify("nothing forbidden comes about", SENT, f"forbid all but a any births a any\n\n {OWN}expect u send port p\n", "YES\n",
       status=0)

# Sets, and ports that are births.

verify("a port that is births is forbidden", f"{APART}port q of births a 1\nhold b send port q, port p\n",
       "forbid b send births a 1\nexpect b send port q\n", """\
NO forbidden line 2 hold b port:q send
  0 K1 hold b port:q send by line 8
""")
brief("a set that names one of two ports", f"""\
{APART}port q of births a 1
port r of births a 1
hold b send port p
hold c send port q, port r
""", """\
set s births a 1, port q, port p
expect b send s
""", """\
NO expected line 3 hold b births:a:1 send
NO expected line 3 hold b port:q send
""", NO_FORBID)
# The wiring's set is births and, where something is forbidden, the port that is one of them.
SET = f"""\
{APART}port q of births a 1
set s births a 1
hold b send port p, port q
"""
verify("a set of the wiring", SET, "forbid b send s\nexpect c send s\n", """\
NO forbidden line 2 hold b port:q send
  0 K1 hold b port:q send by line 9
NO expected line 3 hold c births:a:1 send
""")
verify("a set of the policy", SET, "set z births a 1\nforbid b send z\nexpect c send z\n", """\
NO forbidden line 3 hold b port:q send
  0 K1 hold b port:q send by line 9
NO expected line 4 hold c births:a:1 send
""")
verify("a set that names the port", SET, "set z port q, births a 1\nforbid b send z\nexpect c send z\n", """\
NO forbidden line 3 hold b port:q send
  0 K1 hold b port:q send by line 9
NO expected line 4 hold c port:q send
NO expected line 4 hold c births:a:1 send
""")
verify("a set of sets", SET, "set z port p, s\nforbid b send z\nexpect c send births a 1, z, port q\n", """\
NO forbidden line 3 hold b port:p send
  0 K1 hold b port:p send by line 9
NO forbidden line 3 hold b port:q send
  0 K1 hold b port:q send by line 9
NO expected line 4 hold c births:a:1 send
NO expected line 4 hold c port:p send
NO expected line 4 hold c port:q send
""")
verify("a port that is births is waived", SET, f"forbid \"x\" b send s\nwaive \"x\" b send births a 1 \"a bell\"\n{OWN}",
       'WAIVED line 2 "x" hold b port:q send "a bell"\n')

# Waivers.

TICKET = """\
forbid "x" u send port p
waive "x" b send port p, task a "ticket #7, known"
expect u send port p
"""
answer("one of two facts waived", f"{ASKED} --waive --brief", SENT, TICKET, """\
WAIVED line 2 "x" hold b port:p send "ticket #7, known"
NO forbidden line 2 "x" hold c port:p send
""")
verify("one of two facts waived, with chains", SENT, TICKET, """\
WAIVED line 2 "x" hold b port:p send "ticket #7, known"
NO forbidden line 2 "x" hold c port:p send
  0 K1 hold c port:p send by line 7
""")
verify("a whole line waived", SENT, 'forbid "x" u send port p\nwaive "x" "known"\n', """\
WAIVED line 2 "x" hold b port:p send "known"
WAIVED line 2 "x" hold c port:p send "known"
""", NO_EXPECT)
answer("what is waived passes", f"{ASKED} --waive", SENT, 'forbid "x" b send port p\nwaive "x" "known"\n', """\
WAIVED line 2 "x" hold b port:p send "known"
YES
""", NO_EXPECT, 0)
verify("what is waived does not pass without the option", SENT, f'forbid "x" b send port p\nwaive "x" "known"\n{OWN}',
       'WAIVED line 2 "x" hold b port:p send "known"\n')
verify("a waiver of what cannot come about", SENT, """\
forbid "x" a send task b
waive "x" "known"
expect b send port p
""", "YES\n", "machcheck: p:3: waives nothing\n", 0)
answer("waivers of what cannot come about", f"{ASKED} --waive", SENT, f"""\
forbid "x" a send task b, task c
waive "x" a any task b "one"
waive "x" "two"
{OWN}""", "YES\n", "machcheck: p:3: waives nothing\nmachcheck: p:4: waives nothing\n", 0)
verify("a waiver is of the lines above", SENT, f"""\
forbid "x" b send port p
waive "x" "known"
forbid "x" c send port p
{OWN}""", """\
WAIVED line 2 "x" hold b port:p send "known"
NO forbidden line 4 "x" hold c port:p send
  0 K1 hold c port:p send by line 7
""")
verify("of a fact that is waived twice the first words stay", SENT, f"""\
forbid "x" u send port p
waive "x" b send port p "first"
waive "x" "second"
{OWN}""", """\
WAIVED line 2 "x" hold b port:p send "first"
WAIVED line 2 "x" hold c port:p send "second"
""")
verify("a fact is waived in each line of the name", SENT, f"""\
forbid "x" c, b send port p
forbid "x" b send port p
waive "x" all but c send port p "known"
{OWN}""", """\
NO forbidden line 2 "x" hold c port:p send
  0 K1 hold c port:p send by line 7
WAIVED line 2 "x" hold b port:p send "known"
WAIVED line 3 "x" hold b port:p send "known"
""")
answer("two waivers of one line", f"{ASKED} --waive", SENT, f"""\
forbid "x" all send port p
waive "x" a, b send port p "one"
waive "x" c any port p "two"
{OWN}""", """\
WAIVED line 2 "x" hold a port:p send "one"
WAIVED line 2 "x" hold b port:p send "one"
WAIVED line 2 "x" hold c port:p send "two"
YES
""", status=0)
answer("an expected fact is never waived", f"{ASKED} --waive", SENT, """\
expect "x" b receive port p
forbid "x" b send port p
waive "x" all any port p "known"
""", """\
NO expected line 2 "x" hold b port:p receive
WAIVED line 3 "x" hold b port:p send "known"
""")
row("nothing is waived by a policy of version 1", f"{ASKED} --brief --waive", {"w": LOADER, "p": FORBID},
    "NO forbidden line 2 hold server task:loader send\n", status=1)

# One line.

LINES = """\
forbid "x" b send port p
forbid c send port p, births c 1
waive "x" "known"
expect "r" c receive, send port p
"""
for number, out in ((3, """\
NO forbidden line 3 hold c port:p send
  0 K1 hold c port:p send by line 7
NO forbidden line 3 hold c births:c:1 send
  0 K2 hold c births:c:1 receive
  1 K3 hold c births:c:1 send from 0
"""), (2, 'WAIVED line 2 "x" hold b port:p send "known"\n'), (5, 'NO expected line 5 "r" hold c port:p receive\n')):
    answer(f"line {number} alone", f"{ASKED} --line {number}", SENT, LINES, out)
answer("a waiver is no line that is broken", f"{ASKED} --line 4", SENT, LINES, "", "machcheck: --line: NotBroken\n", 2)
answer("a line of a yes", f"{ASKED} --line 4", SENT, f"forbid b send task a\n{OWN}", "YES\n", status=0)

# Certificates: a task alone, and what it has.

NOT_JUDGED = "machcheck: p: 2 expected facts are not judged: use verify\n"
MADE = """\
forbid "own" a receive births a
waive "own" "it makes them"
expect a send births a, task a
"""


def checked(name, policy, out, err=NOT_JUDGED, status=1, options=""):
    row(name, f"{CHECKED}{options}", {**ALONE, "p": f"policy 3\n{policy}"}, out, err, status)


checked("check names the line", MADE, 'NO forbidden line 2 "own"\n')
checked("check lets waived facts pass", MADE, "YES\n", status=0, options=" --waive")
checked("check names the first line that is not waived", f"{MADE}forbid a once births a\nforbid \"z\" a send births a\n",
        "NO forbidden line 5\n", options=" --waive")
checked("check does not judge what is expected", "expect a receive task a\nforbid a once task a\nexpect \"x\" a once task a\n",
        "YES\n", status=0)
row("check as JSON", f"check --format json {CHECKED[6:]}", {**ALONE, "p": f"policy 3\n{MADE}"},
    '{"answer":"NO","command":"check","notices":["machcheck: p: 2 expected facts are not judged: use verify"],'
    '"reason":{"fact":null,"kind":"forbidden","line":2,"rule":null},"schema":1}\n', NOT_JUDGED, 1)

# Attacks. The loader has its own kernel port under 1 and that of the server under 2, and 19 is COPY_SEND.

STARTS = """\
forbid "w" loader send task server
waive "w" "it starts the server"
"""


def attack(name, policy, out, status=1, options=""):
    answer(name, f"attack --wiring w --policy p{options}", LOADER, policy, out, status=status)


attack("attack searches for what is forbidden alone", f"""\
forbid server send task loader
{STARTS}expect loader receive task server
""", """\
REAL line 2 hold server task:loader send
  loader insert_right 2 2 1 19
WAIVED line 3 "w" hold loader task:server send "it starts the server"
NO expected line 5 hold loader task:server receive
""")
attack("attack lets waived facts pass", f"{STARTS}expect loader send task server\n", """\
WAIVED line 2 "w" hold loader task:server send "it starts the server"
YES
""", 0, " --waive")
attack("attack does not let waived facts pass", f"{STARTS}expect loader send task server\n",
       'WAIVED line 2 "w" hold loader task:server send "it starts the server"\n')
answer("attack of what is expected alone", "attack --wiring w --policy p", "wiring 1\ntask loader\ntask server\n",
       "forbid server send task loader\nexpect loader send task server\n",
       "NO expected line 3 hold loader task:server send\n")

# Mends. Without line 4 of the wiring each task has 4 facts of 8, and so has the server if the loader gives it nothing.


def mend(name, wired, policy, out, status=0, options=""):
    answer(name, f"mend --wiring w --policy p{options}", wired, policy, out, status=status)


REMOVED = "1 remove line 4 # hold loader send task server # loses 8 facts\n"
CONTROL = "forbid \"c\" server send task loader\n"
mend("mend of what is forbidden", LOADER, f"{CONTROL}expect loader send task loader\n", REMOVED)
mend("mend takes nothing that is expected", LOADER, f"{CONTROL}expect loader send task server\n", "none\n", 1)
mend("mend takes nothing that is expected, and trusts", LOADER.replace("wiring 1", "wiring 3"),
     f"{CONTROL}expect loader send task server\n", "1 add trust loader gives none # loses 4 facts\n")
mend("mend of an expected fact that is lacking", LOADER, f"{CONTROL}expect server receive task server\n", "none\n", 1)
mend("mend of an expected fact alone", LOADER, "forbid server once task server\nexpect server receive task server\n",
     "none\n", 1)
WAIVED = f"{CONTROL}waive \"c\" \"known\"\nexpect loader send task loader\n"
mend("mend of what is waived", LOADER, WAIVED, REMOVED)
mend("mend lets waived facts pass", LOADER, WAIVED, "YES\n", options=" --waive")

# Wirings of each version.

verify("over version 1", LOADER, "forbid \"never\" all but loader send task loader\nexpect all once births server\n", """\
NO forbidden line 2 "never" hold server task:loader send
  0 K1 hold loader task:loader send by line 2
  1 K1 hold loader task:server send by line 4
  2 K7 hold server task:loader send from 1 0 by task:server
""")
verify("over version 2", "wiring 2\ntask a\ntask b\nbirths a 1 accepts none\nbirths a 2 accepts none\n", f"""\
set s births a any, births b 0
forbid "x" all but b receive s
forbid b any births a any
{OWN}""", """\
NO forbidden line 3 "x" hold a births:a receive
  0 K2 hold a births:a receive
NO forbidden line 3 "x" hold a births:a:1 receive
  0 K2 hold a births:a:1 receive
NO forbidden line 3 "x" hold a births:a:2 receive
  0 K2 hold a births:a:2 receive
""")
verify("over version 3", """\
wiring 3
task proc
task guest
hold proc send task guest
trust proc takes none
trust proc gives none
""", 'forbid "apart" guest any task other\nexpect proc send task guest\n', "YES\n", "machcheck: w: trusted: proc\n", 0)

# Objects: a fact that is forbidden, one that is waived, and one that is expected and lacking.

SENDS = {task: hold(task, "port:p", "send") for task in ("b", "c")}
UNMET = {"fact": hold("b", "port:p", "receive"), "line": 5, "name": "reads", "text": 'expect "reads" b receive port p'}
KNOWN = {"because": "known, #1", "fact": SENDS["b"], "line": 2, "name": "x", "text": 'forbid "x" b send port p # so'}
OF_C = {"fact": SENDS["c"], "line": 4, "name": None, "steps": [step("K1", SENDS["c"], by=line_of(7))],
        "text": "forbid c send port p"}
PASSES = f"""\
forbid "x" b send port p # so
waive "x" "known, #1"
{OWN}"""
EACH = """\
forbid "x" b send port p # so
waive "x" "known, #1"
 forbid c send port p\t
expect "reads" b receive port p
"""


def written(name, policy, status, options="", **members):
    members = {"command": "verify", "notices": [], "schema": 1, "unmet": [], "waived": [], **members}
    line = json.dumps(members, ensure_ascii=False, separators=(",", ":"), sort_keys=True)
    answer(name, f"verify --format json{options} {ASKED[7:]}", SENT, policy, f"{line}\n", status=status)


NONE_BROKEN = {"answer": "NO", "broken": [], "common": None, "exposed": None}
written("an object of each kind", EACH, 1, **{**NONE_BROKEN, "broken": [OF_C]}, unmet=[UNMET], waived=[KNOWN])
written("an object of what is waived alone", PASSES, 1, **NONE_BROKEN, waived=[KNOWN])
written("an object of a yes", PASSES, 0, " --waive", answer="YES", waived=[KNOWN])
written("an object of one line", EACH, 1, " --line 5", **NONE_BROKEN, unmet=[UNMET])

# Logs: the ids of the rules, the status, and of each result its rule, its place, and the words of its suppression.

SHAPE = """\
import json
import sys

run = json.load(sys.stdin)["runs"][0]
print("rules:", *sorted(rule["id"] for rule in run["tool"]["driver"]["rules"]))
print("status:", run["invocations"][0]["exitCode"])
lines = []
for result in run["results"]:
    place = result["locations"][0]["physicalLocation"]
    rule = run["tool"]["driver"]["rules"][result["ruleIndex"]]["id"]
    words = [given["justification"] for given in result.get("suppressions", [])]
    same = result["ruleId"] == rule
    lines.append((place["artifactLocation"]["uri"], place["region"]["startLine"], rule if same else "another rule", *words))
for line in sorted(lines):
    print(*line)
"""


def logged(name, policy, out, status, options=""):
    row(name, f"verify --format sarif{options} {ASKED[7:]}", {"w": SENT, "p": f"policy 3\n{policy}", "shape.py": SHAPE},
        f"rules: expected forbidden trusted\nstatus: {status}\n{out}", status=status,
        how='log=$("$@"); status=$?; printf "%s\\n" "$log" | python3 shape.py; exit $status\n')


logged("a log of each kind", EACH, "p 2 forbidden known, #1\np 4 forbidden\np 5 expected\n", 1)
logged("a log of what is waived alone", PASSES, "p 2 forbidden known, #1\n", 1)
logged("a log of a yes", PASSES, "p 2 forbidden known, #1\n", 0, " --waive")

# What is refused, with the line.

refused("any right is expected", "BadLine 2", APART, "expect a any port p\n")
refused("any kind is expected", "BadLine 3", APART, f"{OWN}expect \"x\" b send births a any\n")
refused("two names", "BadLine 2", APART, 'forbid "a" "b" a send port p\n')
refused("a string without an end", "BadLine 2", APART, 'forbid "x b send port p\n')
refused("an empty string", "BadLine 2", APART, 'forbid "" b send port p\n')
refused("a name of 129 bytes", "BadLine 3", APART, f'# so\nforbid "{LONG}x" b send port p\n')
refused("words of 129 bytes", "BadLine 3", APART, f'forbid "x" b send port p\nwaive "x" "{129 * "y"}"\n')
refused("a tab in a string", "BadLine 2", APART, 'forbid "x\ty" b send port p\n')
refused("a control character of two bytes in a string", "BadLine 2", APART, 'forbid "x\u0085y" b send port p\n')
refused("a waiver without words", "BadLine 3", APART, 'forbid "x" b send port p\nwaive "x"\n')
refused("a waiver without a name", "BadLine 3", APART, 'forbid b send port p\nwaive b send port p "known"\n')
refused("a waiver with its words in front", "BadLine 3", APART, 'forbid "x" b send port p\nwaive "x" "known" b send port p\n')
refused("other in a set", "BadLine 2", APART, "set z task other\n")
refused("a group of a reserved name", "BadLine 2", APART, "group other b\n")
refused("a line of a wiring", "BadLine 3", APART, f"{OWN}hold b send port p\n")
for name, version, line in (
        ("name", 2, 'forbid "x" b send births a 1'), ("list", 2, "forbid b, c send port p"), ("set", 1, "set s port p"),
        ("line that expects", 1, "expect b send port p")):
    row(f"no {name} in version {version}", ASKED, {"w": APART, "p": f"policy {version}\n{line}\n"}, "",
        "machcheck: p: BadLine 2\n", 2)
row("no version 4", ASKED, {"w": APART, "p": "policy 4\n"}, "", "machcheck: p: Version\n", 2)
refused("an unknown task", "UnknownName 2", APART, "forbid b, d send port p\n")
refused("an unknown port", "UnknownName 3", APART, f"{OWN}expect b send port p, port q\n")
refused("an unknown kind", "UnknownName 2", APART, "forbid b send births all 2\n")
refused("a group that is below", "UnknownName 2", APART, "forbid h send port p\ngroup h a\n")
refused("an unknown set", "UnknownName 2", APART, "set z s\n")
refused("a waiver of a name that is below", "UnknownName 2", APART, 'waive "x" "known"\nforbid "x" b send port p\n')
refused("a waiver of a name of what is expected", "UnknownName 3", APART, 'expect "x" b send port p\nwaive "x" "known"\n')
refused("a waiver of an unknown task", "UnknownName 3", APART, 'forbid "x" b send port p\nwaive "x" d send task b "known"\n')
refused("a waiver of an unknown name before its lists", "UnknownName 3", APART,
        'forbid "x" b send port p\nwaive "y" all but a, u send port p "known"\n')
refused("a waiver of no fact", "Empty 3", APART, 'forbid "x" b send port p\nwaive "x" c send port p "known"\n')
refused("all but all", "Empty 3", APART, "group h c, u, a\nforbid all but h send port p\n")
refused("tasks that are none before an unknown port", "Empty 2", APART, "forbid all but u, a send port q\n")
refused("other of one task", "Empty 2", "wiring 1\ntask a\n", "forbid a send task other\n")
refused("a group of a name of the wiring", "TwiceNamed 2", APART, "group u a\n")
refused("a group of a task's name", "TwiceNamed 2", APART, "group a b\n")
refused("a set of a name of the wiring", "TwiceNamed 2", SET, "set s port p\n")
refused("two groups of one name", "TwiceNamed 3", APART, "group h a\ngroup h b\n")
# 64 tasks with 64 kernel ports, 1,024 births and 256 ports: a line stands for 64 x 3 x 1,344 facts.
EVERY = "wiring 4\ntask {}\n{}{}".format(
    ", ".join(f"t{number}" for number in range(64)),
    "".join(f"births all {kind} accepts none\n" for kind in range(16)),
    "".join(f"port p{number} receiver t0 accepts none\n" for number in range(256)))
refused("more facts than there may be", "TooMany 7", EVERY, "set every task all, births all any, {}\n{}".format(
    ", ".join(f"port p{number}" for number in range(256)), 5 * "forbid all any every\n"))
