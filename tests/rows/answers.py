"""Answers as texts: `verify` as it is asked for, also at a terminal, `graph` and `slots`.

All was written by hand, from docs/FORMATS.md.
"""

from texts import ASKED, CERTIFICATE, CHECKED, FORBID, LOADER, NAME, STD, UNWRITTEN

ROWS = []


def row(name, words, files, out, err="", status=0, **others):
    told = {"args": words.split(" "), "stdout": out, "stderr": err, "status": status}
    ROWS.append({"name": name, "files": files, **told, **others})


# verify: the text as it was, and as it is asked for.

CHAIN = """\
  0 K1 hold loader task:loader send by line 2
  1 K1 hold loader task:server send by line 4
  2 K7 hold server task:loader send from 1 0 by task:server
"""
BROKEN = {"w": LOADER, "p": "policy 1\nforbid server send task loader\t# \x1b the \\ \n"}
HEAD = "NO forbidden line 2 hold server task:loader send\n"
QUOTE = "  # forbid server send task loader\\t# \\x1b the \\\\\n"
row("verify", ASKED, BROKEN, HEAD + CHAIN, status=1)
row("verify with quotes", f"{ASKED} --verbose", BROKEN, HEAD + QUOTE + CHAIN, status=1)
row("verify, briefly", f"{ASKED} --brief", BROKEN, HEAD, status=1)
row("verify, briefly and with quotes", f"{ASKED} --brief --verbose", BROKEN, HEAD + QUOTE, status=1)
row("verify at a terminal", ASKED, BROKEN, HEAD + QUOTE + CHAIN, status=1, terminal="stdout")
row("verify at a terminal, briefly", f"{ASKED} --brief", BROKEN, HEAD + QUOTE, status=1, terminal="stdout")
row("verify of one line", f"{ASKED} --line 2", BROKEN, HEAD + CHAIN, status=1)
row("verify of a line that holds", f"{ASKED} --line 3", BROKEN, "", "machcheck: --line: NotBroken\n", 2)
row("verify of no line", f"{ASKED} --line two", BROKEN, "", "machcheck: --line: BadLine\n", 2)
row("verify of a yes", f"{ASKED} --line 9 --brief --verbose",
    {"w": "wiring 1\ntask loader\ntask server\n", "p": FORBID}, "YES\n")
# All three are broken because the loader controls the server.
SEVERAL = {"w": LOADER, "p": """\
policy 1
forbid server send task loader
forbid server receive births loader
forbid loader receive births server
"""}
LINES = [
    "NO forbidden line 2 hold server task:loader send\n",
    "NO forbidden line 3 hold server births:loader receive\n",
    "NO forbidden line 4 hold loader births:server receive\n",
]
COMMON = "# 3 of 3 lines by: hold loader task:server send\n"
row("verify of several lines, briefly", f"{ASKED} --brief", SEVERAL, COMMON + "".join(LINES), status=1)
row("verify of several lines, briefly and with quotes", f"{ASKED} --brief --verbose", SEVERAL, f"""\
{COMMON}{LINES[0]}  # forbid server send task loader
{LINES[1]}  # forbid server receive births loader
{LINES[2]}  # forbid loader receive births server
""", status=1)
row("verify of the third of several lines", f"{ASKED} --brief --line 4", SEVERAL, LINES[2], status=1)
TRUSTED = {"w": "wiring 3\ntask proc\ntask guest\nhold guest send task proc\n trust proc takes none \n", "p": "policy 1\n"}
EXPOSED = "NO trusted line 5 hold guest task:proc send\n"
NOTHING = "machcheck: p: forbids nothing\n"
row("verify of a trusted task", ASKED, TRUSTED, f"{EXPOSED}  0 K1 hold guest task:proc send by line 4\n", NOTHING, 1)
row("verify of a trusted task, briefly and with quotes", f"{ASKED} --brief --verbose", TRUSTED,
    f"{EXPOSED}  # trust proc takes none\n", NOTHING, 1)

# graph and slots.

PING = f"subsystem ping 500;\n{STD}routine ping(server : mach_port_t);\n"
PAIR = {"w": "wiring 1\ntask a\ntask b\nport p receiver b accepts request ping\nhold a send port p\n", "ping.defs": PING}
NODES = '  "a" [shape=box,label="a"];\n', '  "b" [shape=box,label="b"];\n'
EDGES_OF_A = """\
  "a" -> "port:p" [label="send"];
  "a" -> "task:a" [label="send"];
  "a" -> "births:a" [label="send, receive, once",style=dashed];
"""
EDGES_OF_B = """\
  "b" -> "port:p" [label="receive"];
  "b" -> "port:p" [label="send, once",style=dashed];
  "b" -> "task:b" [label="send"];
  "b" -> "births:a" [label="once",style=dashed];
  "b" -> "births:b" [label="send, receive, once",style=dashed];
"""
CARRIED = """\
  "port:p" -> "port:p" [label="once",style=dotted,arrowhead=vee];
  "port:p" -> "births:a" [label="once",style=dotted,arrowhead=vee];
  "port:p" -> "births:b" [label="once",style=dotted,arrowhead=vee];
"""


def drawing(*lines):
    return "digraph facts {\n  rankdir=LR;\n" + "".join(lines) + "}\n"


row("graph", "graph --wiring w ping.defs", PAIR, drawing(*NODES, EDGES_OF_A, EDGES_OF_B, CARRIED))
row("graph of holds", "graph --holds --wiring w ping.defs", PAIR, drawing(*NODES, EDGES_OF_A, EDGES_OF_B))
row("graph of a task", "graph --task a --wiring w ping.defs", PAIR, drawing(NODES[0], EDGES_OF_A))
row("graph of a task's holds", "graph --task b --holds --wiring w ping.defs", PAIR, drawing(NODES[1], EDGES_OF_B))
SLOTS = f"""\
subsystem fs 100;
{STD}type file_t = MACH_MSG_TYPE_COPY_SEND;
type dir_t = MACH_MSG_TYPE_MAKE_SEND;
type box_t = MACH_MSG_TYPE_MOVE_RECEIVE;
routine open(server : mach_port_t; in flags : int; out file : file_t; out dir : dir_t);
simpleroutine give(server : mach_port_t; box : box_t);
routine swap(server : mach_port_t; inout door : file_t);
"""
row("slots", "slots --wiring w name.defs fs.defs", {"name.defs": NAME, "fs.defs": SLOTS, "w": """\
wiring 2
task client
task server
port root receiver server accepts request fs
births server 3 accepts request fs
admit fs.file_t births server 3
admit fs.file_t task client
admit fs.file_t port root
admit fs.dir_t none
"""}, """\
fs.open.file (fs.file_t): port:root, task:client, births:server:3
fs.open.dir (fs.dir_t): none
fs.give.box (fs.box_t): any
fs.swap.door (fs.file_t): port:root, task:client, births:server:3
""")
row("no slots", "slots --wiring w name.defs", {"name.defs": NAME, "w": "wiring 1\n"}, "")
# A certificate of the wiring before a change.
row("a stale certificate", f"{CHECKED} --verbose", {
    "w": "wiring 1\ntask a\ntask b\n", "p": "policy 1\nforbid a send task b\n",
    "c": CERTIFICATE,
}, "NO counts\n", "machcheck: this certificate is not of this wiring: make it anew, or use verify\n", 1)
# A folder that is not there.
READ = "machcheck: absent/name.defs: WriteFailed 0\n"
for how, note in (("", ""), (" --verbose", f"  {UNWRITTEN}\n")):
    row(f"mig into no folder{how}", f"mig --out absent{how} name.defs", {"name.defs": NAME}, "",
        f"name.defs: 1 of 1 routines read\n{READ}{note}", 2)
