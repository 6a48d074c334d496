"""Faults: the first line that is printed of each, and the lines below it that show its place and help.

All was written by hand, from docs/FAULTS.md and docs/FORMATS.md.
"""

import os

from texts import ALONE, CERTIFICATE, CHECKED, FACTS_FROM, FS, LOADER, NAME, STD, UNWRITTEN, words_in

TWO = "wiring 1\ntask client\ntask server\nport root receiver server accepts none\n"
ROWS = []


def fault(name, words, files, err):
    first, hints = err.split("\n", 1)
    told = {"args": words_in(words), "status": 2, "stderr": f"{first}\n", "hints": hints}
    ROWS.append({"name": name, "files": files, **told})


def wiring(name, text, err, /, **defs):
    """A fault of the wiring `w`, with MIG files that are named by their subsystems."""
    files = {"w": text, **{f"{subsystem}.defs": given for subsystem, given in defs.items()}}
    fault(name, " ".join(["facts --wiring w", *(file for file in files if file != "w")]), files, err)


def policy(name, text, err, wired=TWO):
    """A fault of the policy `p`."""
    fault(name, "verify --wiring w --policy p", {"w": wired, "p": text}, err)


def defs(name, text, err):
    """A fault of the MIG file `d`."""
    fault(name, "facts --wiring w d", {"w": "wiring 1\n", "d": text}, err)


# Files that can't be read.

fault("a missing file", "facts --wiring absent", {}, """\
machcheck: absent: ReadFailed
  no such file or folder
""")
fault("a missing folder", "facts --wiring absent/w", {}, """\
machcheck: absent/w: ReadFailed
  no such file or folder
""")
fault("a folder", "facts --wiring w folder", {"w": "wiring 1\n", "folder/d": ""}, """\
machcheck: folder: ReadFailed
  it is a folder
""")
fault("a file as a folder", "facts --wiring w/w", {"w": "wiring 1\n"}, """\
machcheck: w/w: ReadFailed
  a part of its path is not a folder
""")
if os.geteuid() != 0:
    fault("no permission", "facts --wiring w", {"w": None}, """\
machcheck: w: ReadFailed
  permission denied
""")
fault("mig of a missing file", "mig --out . absent.defs", {}, """\
machcheck: absent.defs: ReadFailed
  no such file or folder
""")
fault("a missing policy", "verify --wiring w --policy p", {"w": "wiring 1\n"}, """\
machcheck: p: ReadFailed
  no such file or folder
""")

# The text of a wiring.

wiring("a typo in the first word", "wiring 1\ntsk fs\n", """\
machcheck: w: BadLine 2
w:2:1
  tsk fs
  ^^^
  expected: task, port, births, hold or admit
  did you mean: task
""")
wiring("a typo in version 3", "wiring 3\ntask a\nreplys fit\n", """\
machcheck: w: BadLine 3
w:3:1
  replys fit
  ^^^^^^
  expected: task, port, births, hold, admit, trust or replies
  did you mean: replies
""")
wiring("a typo inside a line", "wiring 1\ntask fs\nport root reciever fs accepts none # its root\n", """\
machcheck: w: BadLine 3
w:3:11
  port root reciever fs accepts none # its root
            ^^^^^^^^
  expected: receiver
  did you mean: receiver
""")
wiring("a missing word", "wiring 1\ntask # of the disk\n", """\
machcheck: w: BadLine 2
w:2:5
  task # of the disk
      ^
  expected: the name of a task
""")
wiring("a right without a class", "wiring 1\ntask a\nhold a send\n", """\
machcheck: w: BadLine 3
w:3:12
  hold a send
             ^
  expected: port or task
""")
wiring("a word too many", "wiring 1\ntask a b\n", """\
machcheck: w: BadLine 2
w:2:8
  task a b
         ^
  expected: the end of the line
""")
wiring("a name that begins with a digit", "wiring 1\ntask 9p\n", """\
machcheck: w: BadLine 2
w:2:6
  task 9p
       ^^
  expected: the name of a task
  a name has letters, digits and _, begins with no digit, and has at most 64 characters
""")
wiring("a name with a hyphen", "wiring 1\ntask file-server\n", """\
machcheck: w: BadLine 2
w:2:6
  task file-server
       ^^^^^^^^^^^
  expected: the name of a task
  a name has letters, digits and _, begins with no digit, and has at most 64 characters
""")
wiring("a class for no type", "wiring 1\nadmit file_t none\n", """\
machcheck: w: BadLine 2
w:2:7
  admit file_t none
        ^^^^^^
  expected: the name of a subsystem, a dot and the name of a type
  a name has letters, digits and _, begins with no digit, and has at most 64 characters
""")
wiring("none is not alone", "wiring 1\nbirths a accepts none, destroyed\n", """\
machcheck: w: BadLine 2
w:2:22
  births a accepts none, destroyed
                       ^
  expected: the end of the line
""")
wiring("an item is empty", "wiring 1\nbirths a accepts request s,\n", """\
machcheck: w: BadLine 2
w:2:28
  births a accepts request s,
                             ^
  expected: request, reply or destroyed
""")
wiring("two items without a comma", "wiring 1\nbirths a accepts request s reply s\n", """\
machcheck: w: BadLine 2
w:2:28
  births a accepts request s reply s
                             ^^^^^
  expected: a comma or the end of the line
""")
wiring("no item", "wiring 1\nbirths a accepts requests s\n", """\
machcheck: w: BadLine 2
w:2:18
  births a accepts requests s
                   ^^^^^^^^
  expected: none, request, reply or destroyed
  did you mean: request
""")
wiring("a verb of a trusted task", "wiring 3\ntask a\ntrust a take none\n", """\
machcheck: w: BadLine 3
w:3:9
  trust a take none
          ^^^^
  expected: takes, gives, sends or replies
  did you mean: takes
""")
wiring("a kind in version 1", "wiring 1\nbirths a 0 accepts none\n", """\
machcheck: w: BadLine 2
w:2:10
  births a 0 accepts none
           ^
  expected: accepts
  up to here it is a line of version 2 or 3: the heading says wiring 1
""")
wiring("no kind in version 2", "wiring 2\nbirths a accepts none\n", """\
machcheck: w: BadLine 2
w:2:10
  births a accepts none
           ^^^^^^^
  expected: a number from 0 to 15
  up to here it is a line of version 1: the heading says wiring 2
""")
wiring("a kind above 15", "wiring 2\nbirths a 16 accepts none\n", """\
machcheck: w: BadLine 2
w:2:10
  births a 16 accepts none
           ^^
  expected: a number from 0 to 15
""")
wiring("a trusted task in version 2", "wiring 2\ntask a\ntrust a takes none\n", """\
machcheck: w: BadLine 3
w:3:1
  trust a takes none
  ^^^^^
  expected: task, port, births, hold or admit
  up to here it is a line of version 3: the heading says wiring 2
""")
wiring("a trusted task below a comment", "# x\nwiring 2\ntrust fs gives none\n", """\
machcheck: w: BadLine 3
w:3:1
  trust fs gives none
  ^^^^^
  expected: task, port, births, hold or admit
  up to here it is a line of version 3: the heading says wiring 2
""")
wiring("a policy as the wiring", "# of the files\npolicy 1\nforbid a send task b\n", """\
machcheck: w: BadLine 2
w:2:1
  policy 1
  ^^^^^^
  expected: wiring 1, wiring 2, wiring 3 or wiring 4
  this is the heading of a policy: the options --wiring and --policy may be exchanged
""")
wiring("no heading", "task a\n", """\
machcheck: w: BadLine 1
w:1:1
  task a
  ^^^^
  expected: wiring 1, wiring 2, wiring 3 or wiring 4
""")
wiring("a typo in the heading", "wirnig 1\ntask a\n", """\
machcheck: w: BadLine 1
w:1:1
  wirnig 1
  ^^^^^^
  expected: wiring 1, wiring 2, wiring 3 or wiring 4
  did you mean: wiring
""")
wiring("a heading without its number", "wiring\n", """\
machcheck: w: BadLine 1
w:1:7
  wiring
        ^
  expected: 1, 2, 3 or 4
""")
wiring("another version", "# x\nwiring 5 # later\n", """\
machcheck: w: Version
w:2:8
  wiring 5 # later
         ^
  expected: 1, 2, 3 or 4
""")
wiring("a byte-order mark", "\ufeffwiring 1\n", """\
machcheck: w: BadLine 1
w:1:1
  \ufeffwiring 1
  ^^^^^^^
  expected: wiring 1, wiring 2, wiring 3 or wiring 4
  the file begins with a byte-order mark: save it without one
""")
wiring("an empty file", "", """\
machcheck: w: BadLine 1
  expected: wiring 1, wiring 2, wiring 3 or wiring 4
""")
wiring("a comment alone", "# nothing\n", """\
machcheck: w: BadLine 1
w:1:1
  # nothing
  ^
  expected: wiring 1, wiring 2, wiring 3 or wiring 4
""")
wiring("a carriage return at each end", "wiring 1\r\ntask a\r\nholds a send task a\r\n", """\
machcheck: w: BadLine 3
w:3:1
  holds a send task a\\r
  ^^^^^
  expected: task, port, births, hold or admit
  did you mean: hold
""")
wiring("control characters", "wiring 1\n\ttask\ta\x1b[31m\\ # x\x07\n", """\
machcheck: w: BadLine 2
w:2:7
  \\ttask\\ta\\x1b[31m\\\\ # x\\x07
          ^^^^^^^^^^^
  expected: the name of a task
  a name has letters, digits and _, begins with no digit, and has at most 64 characters
""")
wiring("letters of two bytes", "wiring 1\ntask é x\n", """\
machcheck: w: BadLine 2
w:2:6
  task é x
       ^
  expected: the name of a task
  a name has letters, digits and _, begins with no digit, and has at most 64 characters
""")
wiring("bytes that are no text", b"wiring 1\ntask a # \xff\n", """\
machcheck: w: NotUtf8
  the byte ff on line 2 is not UTF-8
""")
wiring("too many lines", "wiring 1\n" + 65535 * "\n", """\
machcheck: w: BadLine 65536
  the text has more than 65,535 lines
""")
fault("a name that would colour the line", "facts --wiring a\tb\x1b", {"a\tb\x1b": "wiring 1\ntsk fs\n"}, """\
machcheck: a\\tb\\x1b: BadLine 2
a\\tb\\x1b:2:1
  tsk fs
  ^^^
  expected: task, port, births, hold or admit
  did you mean: task
""")

# The text of a policy.

policy("a typo in a right", "policy 1\nforbid client recieve port root\n", """\
machcheck: p: BadLine 2
p:2:15
  forbid client recieve port root
                ^^^^^^^
  expected: send, receive or once
  did you mean: receive
""")
policy("another first word", "policy 1\nallow client send port root\n", """\
machcheck: p: BadLine 2
p:2:1
  allow client send port root
  ^^^^^
  expected: forbid
""")
policy("a wiring as the policy", TWO, """\
machcheck: p: BadLine 1
p:1:1
  wiring 1
  ^^^^^^
  expected: policy 1, policy 2 or policy 3
  this is the heading of a wiring: the options --wiring and --policy may be exchanged
""")
policy("a kind in a policy of version 1", "policy 1\nforbid client send births server 1\n", """\
machcheck: p: BadLine 2
p:2:34
  forbid client send births server 1
                                   ^
  expected: the end of the line
  up to here it is a line of version 2: the heading says policy 1
""")
policy("another version of a policy", "policy 4\n", """\
machcheck: p: Version
p:1:8
  policy 4
         ^
  expected: 1, 2 or 3
""")

# Names of a wiring.

wiring("a typo in the name of a task", "wiring 1\ntask client\ntask server\nhold clent send task server\n", """\
machcheck: w: UnknownName 4
w:4:6
  hold clent send task server
       ^^^^^
  no line above declares a task of this name
  did you mean: client
""")
wiring("a typo in the task of a class", "wiring 1\ntask shell\nhold shell send task shlel\n", """\
machcheck: w: UnknownName 3
w:3:22
  hold shell send task shlel
                       ^^^^^
  no line above declares a task of this name
  did you mean: shell
""")
wiring("another task", "wiring 1\ntask client\ntask server\nhold client send task disk\n", """\
machcheck: w: UnknownName 4
w:4:23
  hold client send task disk
                        ^^^^
  no line above declares a task of this name
  tasks declared above: client, server
""")
wiring("a task of one letter", "wiring 1\ntask a\ntask c\nhold b send task a\n", """\
machcheck: w: UnknownName 4
w:4:6
  hold b send task a
       ^
  no line above declares a task of this name
  tasks declared above: a, c
""")
wiring("another receiver of a port", "wiring 1\ntask shell\ntask disk\nport p receiver nobody accepts none\n", """\
machcheck: w: UnknownName 4
w:4:17
  port p receiver nobody accepts none
                  ^^^^^^
  no line above declares a task of this name
  tasks declared above: shell, disk
""")
wiring("a task that is declared below", "wiring 1\nhold shell send task shell # both\ntask shell\n", """\
machcheck: w: UnknownName 2
w:2:6
  hold shell send task shell # both
       ^^^^^
  no line above declares a task of this name
  declared below, on line 3
""")
wiring("no task above", "wiring 1\nhold client send port root\ntask server\n", """\
machcheck: w: UnknownName 2
w:2:6
  hold client send port root
       ^^^^^^
  no line above declares a task of this name
""")
wiring("more than ten tasks", "wiring 1\n" + "".join(f"task task_{n}\n" for n in range(12)) + "hold x send task y\n", """\
machcheck: w: UnknownName 14
w:14:6
  hold x send task y
       ^
  no line above declares a task of this name
  tasks declared above: task_0, task_1, task_2, task_3, task_4, task_5, task_6, task_7, task_8, task_9 and 2 more
""")
wiring("lines in a wrong order",
       "wiring 1\ntask client\nhold client send port root\ntask server\nport root receiver server accepts none\n", """\
machcheck: w: UnknownName 3
w:3:23
  hold client send port root
                        ^^^^
  no line above declares a port of this name
  declared below, on line 5
""")
wiring("another port", TWO + "hold client send port disk\n", """\
machcheck: w: UnknownName 5
w:5:23
  hold client send port disk
                        ^^^^
  no line above declares a port of this name
  ports declared above: root
""")
wiring("no port above", "wiring 1\ntask a\nhold a once port p\n", """\
machcheck: w: UnknownName 3
w:3:18
  hold a once port p
                   ^
  no line above declares a port of this name
""")
wiring("no MIG file", "wiring 1\ntask fs\nbirths fs accepts request fs\n", """\
machcheck: w: UnknownName 3
w:3:27
  births fs accepts request fs
                            ^^
  no MIG file was given
""")
wiring("no MIG file, behind a comma without blanks", "wiring 1\ntask a\nbirths a accepts destroyed,request fs\n", """\
machcheck: w: UnknownName 3
w:3:36
  births a accepts destroyed,request fs
                                     ^^
  no MIG file was given
""")
wiring("no MIG file, behind a kind", "wiring 2\ntask a\nbirths a 3 accepts destroyed , request fs\n", """\
machcheck: w: UnknownName 3
w:3:40
  births a 3 accepts destroyed , request fs
                                         ^^
  no MIG file was given
""")
wiring("a missing MIG file", "wiring 1\ntask fs\nbirths fs accepts reply fs, request proc\n", """\
machcheck: w: UnknownName 3
w:3:37
  births fs accepts reply fs, request proc
                                      ^^^^
  no MIG file that was given has this subsystem; they have: fs, name
""", fs=FS, name=NAME)
wiring("a typo in a subsystem", "wiring 1\ntask fs\nport root receiver fs accepts request nmae\n", """\
machcheck: w: UnknownName 3
w:3:39
  port root receiver fs accepts request nmae
                                        ^^^^
  no MIG file that was given has this subsystem; they have: fs, name
  did you mean: name
""", fs=FS, name=NAME)
wiring("both letters of the subsystem of a type", "wiring 1\nadmit sf.file_t none\n", """\
machcheck: w: UnknownName 2
w:2:7
  admit sf.file_t none
        ^^^^^^^^^
  no MIG file that was given has this subsystem; they have: fs, name
""", fs=FS, name=NAME)
wiring("a letter of the subsystem of a type", "wiring 1\nadmit ft.file_t none\n", """\
machcheck: w: UnknownName 2
w:2:7
  admit ft.file_t none
        ^^^^^^^^^
  no MIG file that was given has this subsystem; they have: fs, name
  did you mean: fs
""", fs=FS, name=NAME)
wiring("a typo in a type", "wiring 1\nadmit fs.fle_t none\n", """\
machcheck: w: UnknownName 2
w:2:7
  admit fs.fle_t none
        ^^^^^^^^
  no port argument of the subsystem fs has this type; its types of port arguments: file_t
  did you mean: file_t
""", fs=FS)
wiring("a type that is no port's", "wiring 1\nadmit name.int none\n", """\
machcheck: w: UnknownName 2
w:2:7
  admit name.int none
        ^^^^^^^^
  no port argument of the subsystem name has this type; no routine of it has port arguments
""", name=NAME)
wiring("a kind that no line makes", "wiring 2\ntask a\nadmit fs.file_t births a 1\n", """\
machcheck: w: UnknownName 3
w:3:26
  admit fs.file_t births a 1
                           ^
  no births line of the task a above has this kind
""", fs=FS)
wiring("a kind that a later line makes", "wiring 2\ntask a\nadmit fs.file_t births a 1\nbirths a 1 accepts none\n", """\
machcheck: w: UnknownName 3
w:3:26
  admit fs.file_t births a 1
                           ^
  no births line of the task a above has this kind
  declared below, on line 4
""", fs=FS)
wiring("a second task of a name", "wiring 1\n# two\ntask a\ntask b\ntask a\n", """\
machcheck: w: TwiceNamed 5
w:5:6
  task a
       ^
  declared above, on line 3
""")
wiring("a second port of a name", TWO + "port root receiver client accepts none\n", """\
machcheck: w: TwiceNamed 5
w:5:6
  port root receiver client accepts none
       ^^^^
  declared above, on line 4
""")
wiring("births of a task twice", "wiring 2\ntask a\nbirths a 1 accepts none\nbirths a 01 accepts none\n", """\
machcheck: w: TwiceNamed 4
w:4:8
  births a 01 accepts none
         ^
  declared above, on line 3
""")
wiring("replies fit twice", "wiring 3\nreplies fit\n\nreplies fit\n", """\
machcheck: w: TwiceNamed 4
w:4:1
  replies fit
  ^^^^^^^
  declared above, on line 2
""")
wiring("two MIG files of one subsystem", "wiring 1\n", """\
machcheck: w: TwiceNamed 0
  one.defs and other.defs have the same subsystem: fs
""", one=FS, name=NAME, other=FS)
wiring("too many MIG files", "wiring 1\n", """\
machcheck: w: TooMany 0
  d16.defs is the 17th MIG file: a wiring of version 1 or 2 has at most 16, one of version 3 has 256
""", **{f"d{n}": f"subsystem s{n} 5;\n" for n in range(17)})
wiring("too many MIG files of a wiring of version 3", "wiring 3\n", """\
machcheck: w: TooMany 0
  d256.defs is the 257th MIG file: a wiring has at most 256
""", **{f"d{n}": f"subsystem s{n} 5;\n" for n in range(257)})
wiring("too many tasks", "wiring 1\n" + "".join(f"task t{n}\n" for n in range(65)), """\
machcheck: w: TooMany 66
w:66:6
  task t64
       ^^^
  a wiring has at most 64 tasks
""")
wiring("too many ports", "wiring 1\ntask a\n" + "".join(f"port p{n} receiver a accepts none\n" for n in range(257)), """\
machcheck: w: TooMany 259
w:259:6
  port p256 receiver a accepts none
       ^^^^
  a wiring has at most 256 ports
""")
wiring("too many names", "wiring 1\ntask a\nport p receiver a accepts none\n" + 4095 * "hold a once port p\n", """\
machcheck: w: TooManyNames a
  the task a would have more than 4,096 names
""")
wiring("items of one id", "wiring 1\ntask a\nbirths a accepts request fs, request fs\n", """\
machcheck: w: IdClash 3
w:3:10
  births a accepts request fs, request fs
           ^^^^^^^
  two items have a message of the same id
""", fs=FS)
wiring("items of one id, behind a kind", "wiring 2\ntask a\nbirths a 1 accepts request fs, request fs\n", """\
machcheck: w: IdClash 3
w:3:12
  births a 1 accepts request fs, request fs
             ^^^^^^^
  two items have a message of the same id
""", fs=FS)

# Names of a policy.

policy("a typo in a policy's task", "policy 1\n\nforbid cleint receive port root\n", """\
machcheck: p: UnknownName 3
p:3:8
  forbid cleint receive port root
         ^^^^^^
  the wiring has no task of this name
  did you mean: client
""")
policy("a typo in the task of a policy's class", "policy 1\nforbid client send task sever\n", """\
machcheck: p: UnknownName 2
p:2:25
  forbid client send task sever
                          ^^^^^
  the wiring has no task of this name
  did you mean: server
""")
policy("another task in a policy", "policy 1\nforbid printer send task server\n", """\
machcheck: p: UnknownName 2
p:2:8
  forbid printer send task server
         ^^^^^^^
  the wiring has no task of this name
  tasks of the wiring: client, server
""")
policy("another port in a policy", "policy 1\nforbid client receive port disk\n", """\
machcheck: p: UnknownName 2
p:2:28
  forbid client receive port disk
                             ^^^^
  the wiring has no port of this name
  ports of the wiring: root
""")
policy("a kind that the wiring lacks", "policy 2\nforbid client send births server 1\n", """\
machcheck: p: UnknownName 2
p:2:34
  forbid client send births server 1
                                   ^
  no births line of the task server has this kind in the wiring
""")

# MIG files.

defs("a macro", "subsystem s 5;\n#define MAX 5\n", """\
machcheck: d: LeftOut 15 Preprocessor
d:2:1
  #define MAX 5
  ^^^^^^^^^^^^^
  run machcheck mig first: it works out macros, conditions and includes
""")
defs("a form that is left out", f"subsystem s 5;\n{STD}type t = ^ int;\n", """\
machcheck: d: LeftOut 55 OutOfLine
d:3:10
  type t = ^ int;
           ^
  this form of MIG is not read: see MIG.md, What is left out, OutOfLine
""")
defs("another form that is left out", "subsystem s 5;\nsimpleprocedure p();\n", """\
machcheck: d: LeftOut 15 OldForm
d:2:1
  simpleprocedure p();
  ^^^^^^^^^^^^^^^
  this form of MIG is not read: see MIG.md, What is left out, OldForm
""")
defs("a typo in a statement", "subsystem s 5;\nrutine r(p : t);\n", """\
machcheck: d: Unexpected 15
d:2:1
  rutine r(p : t);
  ^^^^^^
  expected: type, routine, simpleroutine, skip, import, uimport, simport, serverprefix, userprefix or rcsid
""")
defs("a missing sign", f"subsystem s 5;\n{STD}type t int;\n", """\
machcheck: d: Unexpected 53
d:3:8
  type t int;
         ^^^
  expected: "="
""")
defs("a missing type", "subsystem s 5;\ntype t = ;\n", """\
machcheck: d: Unexpected 24
d:2:10
  type t = ;
           ^
  expected: array, struct, c_string, the name of a type or "("
""")
defs("a missing number", "subsystem s;\n", """\
machcheck: d: Unexpected 11
d:1:12
  subsystem s;
             ^
  expected: a number
""")
defs("a divisor 0", f"subsystem s 5;\n{STD}type t = array[1/0] of int;\n", """\
machcheck: d: Unexpected 63
d:3:18
  type t = array[1/0] of int;
                   ^
  expected: a number or "("
  a divisor is not 0
""")
defs("a divisor 0 in parentheses", f"subsystem s 5;\n{STD}type t = array[1/(1-1)] of int;\n", """\
machcheck: d: Unexpected 63
d:3:18
  type t = array[1/(1-1)] of int;
                   ^
  expected: a number or "("
  its value does not fit: see MIG.md, Grammar, for sizes and the parts of an expression
""")
defs("a value below 0", f"subsystem s 5;\n{STD}type t = array[5-7] of int;\n", """\
machcheck: d: Unexpected 61
d:3:16
  type t = array[5-7] of int;
                 ^
  expected: a number, "(" or "*"
  its value does not fit: see MIG.md, Grammar, for sizes and the parts of an expression
""")
defs("a size that does not fit", "subsystem s 5;\ntype t = (MACH_MSG_TYPE_CHAR, 7);\n", """\
machcheck: d: Unexpected 45
d:2:31
  type t = (MACH_MSG_TYPE_CHAR, 7);
                                ^
  expected: a number or "("
  its value does not fit: see MIG.md, Grammar, for sizes and the parts of an expression
""")
defs("no name of a subsystem", "subsystem 5;\n", """\
machcheck: d: Unexpected 10
d:1:11
  subsystem 5;
            ^
  expected: kernelserver, kerneluser or a name
""")
defs("an end too early", "subsystem s 5;\nimport\n", """\
machcheck: d: Unexpected 21
d:2:7
  import
        ^
  expected: a string or <..>
""")
defs("no subsystem", STD, """\
machcheck: d: Unexpected 30
d:1:31
  #include <mach/std_types.defs>
                                ^
  expected: subsystem
  the file has no subsystem
""")
defs("an empty MIG file", "", """\
machcheck: d: Unexpected 0
d:1:1
  
  ^
  expected: subsystem
  the file has no subsystem
""")
defs("a typo in a MIG type", f"subsystem s 5;\n{STD}routine r(p : mach_prot_t);\n", """\
machcheck: d: UnknownType 60
d:3:15
  routine r(p : mach_prot_t);
                ^^^^^^^^^^^
  did you mean: mach_port_t
""")
defs("a typo in a basic type", "subsystem s 5;\ntype t = MACH_MSG_TYPE_CHARS;\n", """\
machcheck: d: UnknownType 24
d:2:10
  type t = MACH_MSG_TYPE_CHARS;
           ^^^^^^^^^^^^^^^^^^^
  did you mean: MACH_MSG_TYPE_CHAR
""")
defs("a typo in the type of an array",
     "subsystem s 5;\ntype door = MACH_MSG_TYPE_MAKE_SEND;\ntype gate = array[2] of dor;\n", """\
machcheck: d: UnknownType 76
d:3:25
  type gate = array[2] of dor;
                          ^^^
  did you mean: door
""")
defs("a type that is declared below", f"subsystem s 5;\n{STD}type t = u;\ntype u = int;\n", """\
machcheck: d: UnknownType 55
d:3:10
  type t = u;
           ^
  declared below, on line 4
""")
defs("a type of the line that is missing", "subsystem s 5;\ntype t = int;\n", """\
machcheck: d: UnknownType 24
d:2:10
  type t = int;
           ^^^
  #include <mach/std_types.defs> declares it
""")
defs("a type of its own declaration", "subsystem s 5;\ntype file_t = file;\n", """\
machcheck: d: UnknownType 29
d:2:15
  type file_t = file;
                ^^^^
  known types: MACH_MSG_TYPE_BOOLEAN, MACH_MSG_TYPE_INTEGER_16, MACH_MSG_TYPE_INTEGER_32, MACH_MSG_TYPE_CHAR, \
MACH_MSG_TYPE_BYTE, MACH_MSG_TYPE_INTEGER_8, MACH_MSG_TYPE_STRING, MACH_MSG_TYPE_STRING_C, MACH_MSG_TYPE_PORT_NAME, \
MACH_MSG_TYPE_MOVE_RECEIVE and 10 more
""")
defs("a type that is nowhere", "subsystem s 5;\ntype gate = MACH_MSG_TYPE_MAKE_SEND;\nroutine r(p : port);\n", """\
machcheck: d: UnknownType 66
d:3:15
  routine r(p : port);
                ^^^^
  known types: gate
""")
defs("a second argument's type that is nowhere",
     "subsystem s 5;\ntype gate = MACH_MSG_TYPE_MAKE_SEND;\nroutine r(p : gate; q : t);\n", """\
machcheck: d: UnknownType 76
d:3:25
  routine r(p : gate; q : t);
                          ^
  known types: gate
""")
defs("a type that is nowhere, below two",
     "subsystem s 5;\ntype door = MACH_MSG_TYPE_MAKE_SEND;\ntype gate = door;\nroutine r(p : port);\n", """\
machcheck: d: UnknownType 84
d:4:15
  routine r(p : port);
                ^^^^
  known types: door, gate
""")
defs("no type above", "subsystem s 5;\nroutine r(p : port);\n", """\
machcheck: d: UnknownType 29
d:2:15
  routine r(p : port);
                ^^^^
  no type is declared above
""")
defs("a second type of a name", f"subsystem s 5;\n{STD}type t = int;\n\ntype t = char;\n", """\
machcheck: d: TwiceNamed 66
d:5:6
  type t = char;
       ^
  declared above, on line 3
""")
defs("a type that the include line has", f"{STD}subsystem s 5;\ntype int = MACH_MSG_TYPE_CHAR;\n", """\
machcheck: d: TwiceNamed 51
d:3:6
  type int = MACH_MSG_TYPE_CHAR;
       ^^^
  declared above, on line 1
""")
defs("a second argument of a name", f"subsystem s 5;\n{STD}routine r(p : mach_port_t;\n\tp : int);\n", """\
machcheck: d: TwiceNamed 74
d:4:2
  \\tp : int);
    ^
  declared above, on line 3
""")
defs("a second argument of a name, below a routine of this name",
     "subsystem s 5;\ntype t = MACH_MSG_TYPE_MAKE_SEND;\nroutine p(p : t);\nroutine q(p : t;\np : t);\n", """\
machcheck: d: TwiceNamed 84
d:5:1
  p : t);
  ^
  declared above, on line 4
""")
defs("no request port", f"subsystem s 5;\n{STD}routine r(x : int);\n", """\
machcheck: d: NoRequestPort 63
d:3:18
  routine r(x : int);
                   ^
  a routine has one request port, of a port type: the argument marked requestport, or else the first, unmarked or in
""")
defs("a count that is too large", f"subsystem s 5;\n{STD}type t = array[8193] of int;\n", """\
machcheck: d: TooMany 61
d:3:16
  type t = array[8193] of int;
                 ^^^^
  a count is from 1 to 8192, and counts of nested arrays multiply
""")
defs("a string that is not closed", "subsystem s 5;\nrcsid \"1.5;\n", """\
machcheck: d: BadCharacter 21
d:2:7
  rcsid "1.5;
        ^^^^^
  this string is not closed on its line
""")
defs("a comment that is not closed", "subsystem s 5;\nskip; /* later\n", """\
machcheck: d: OpenComment 21
d:2:7
  skip; /* later
        ^^
  this comment is not closed
""")
defs("a character of no token", "subsystem s 5;\nskip; @\n", """\
machcheck: d: BadCharacter 21
d:2:7
  skip; @
        ^
  no token begins with this character
""")
defs("a # inside a line", "subsystem s 5;\nskip #if\n", """\
machcheck: d: BadCharacter 20
d:2:6
  skip #if
       ^
  a # may only come first on its line
""")
defs("a number that is too large", "subsystem s 2147483648;\n", """\
machcheck: d: NumberTooLarge 12
d:1:13
  subsystem s 2147483648;
              ^^^^^^^^^^
  a number is at most 2147483647
""")
defs("MIG bytes that are no text", b"subsystem s 5;\n/* \xe9 */\n", """\
machcheck: d: NotUtf8
  the byte e9 on line 2 is not UTF-8
""")
defs("ids that are too large", f"subsystem s 2147483548;\n{STD}routine r(p : mach_port_t);\n", """\
machcheck: d: IdRange
  ids are at most 2147483647, and that of a reply is 100 above that of its request
""")
# The edition of a MIG file, and faults of edition 2. A `;` that is missing is told behind the last token.

EDITION = "#pragma machcheck 2\n"
defs("the line of another edition", "#pragma machcheck 3\nsubsystem s 1;\n", """\
machcheck: d: LeftOut 0 Preprocessor
d:1:1
  #pragma machcheck 3
  ^^^^^^^^^^^^^^^^^^^
  run machcheck mig first: it works out macros, conditions and includes
""")
defs("the line of edition 2 behind a token", "subsystem s 1;\n#pragma machcheck 2\n", """\
machcheck: d: LeftOut 15 Preprocessor
d:2:1
  #pragma machcheck 2
  ^^^^^^^^^^^^^^^^^^^
  run machcheck mig first: it works out macros, conditions and includes
""")
SECOND = f"{EDITION}subsystem s 1;"
defs("edition 2: a type that is declared twice", f"{SECOND}\ntype t = int;\ntype t = int;", """\
machcheck: d: TwiceNamed 54
d:4:6
  type t = int;
       ^
  declared above, on line 3
""")
defs("edition 2: a parenthesis that is not closed", f"{SECOND}\nroutine r(p : q;\n", """\
machcheck: d: Unexpected 51
d:3:17
  routine r(p : q;
                  ^
""")
defs("edition 2: a parenthesis that is not opened", f"{SECOND}\nroutine r(p : q));", """\
machcheck: d: Unexpected 51
d:3:17
  routine r(p : q));
                  ^
""")
defs("edition 2: a word of no statement", f"{SECOND}\nnonsense x;", """\
machcheck: d: Unexpected 35
d:3:1
  nonsense x;
  ^^^^^^^^
""")
defs("edition 2: a condition", f"{SECOND}\n#if 1", """\
machcheck: d: LeftOut 35 Preprocessor
d:3:1
  #if 1
  ^^^^^
  run machcheck mig first: it works out macros, conditions and includes
""")
defs("edition 2: no number of a skip", f"{SECOND}\nskip x;", """\
machcheck: d: Unexpected 40
d:3:6
  skip x;
       ^
""")
defs("edition 2: a routine before the subsystem", f"{EDITION}routine r();", """\
machcheck: d: Unexpected 20
d:2:1
  routine r();
  ^^^^^^^
""")
defs("edition 2: no subsystem", f"{EDITION}import <x.h>;", """\
machcheck: d: Unexpected 33
d:2:14
  import <x.h>;
               ^
  the file has no subsystem
""")
defs("edition 2: an open comment", f"{SECOND} /* x", """\
machcheck: d: OpenComment 35
d:2:16
  subsystem s 1; /* x
                 ^^
  this comment is not closed
""")
fault("mig of what is no MIG file", "mig --out . d.defs", {"d.defs": "subsystem s 5;\nnonsense x;\n"}, """\
machcheck: d.defs: Unexpected 15
d.defs:2:1
  nonsense x;
  ^^^^^^^^
""")
MARKED = '# 7 "s/x.defs"\nsubsystem s 5;\n# 3 "s/y\\\\z.h" 1\n\n type '
fault("mig of what is no MIG file of another source", "mig --out . d.defs", {"d.defs": MARKED + "t = int; nonsense x;\n"}, r"""
machcheck: d.defs: Unexpected 63
s/y\\z.h:4:16
   type t = int; nonsense x;
                 ^^^^^^^^
"""[1:])
fault("mig of an open comment of another source", "mig --out . d.defs", {"d.defs": MARKED + "/*\n"}, r"""
machcheck: d.defs: OpenComment 54
s/y\\z.h:4:7
   type /*
        ^^
  this comment is not closed
"""[1:])
fault("mig behind a mark without a name", "mig --out . d.defs", {"d.defs": "#line 30\nsubsystem s 5; x y;\n"}, """\
machcheck: d.defs: Unexpected 24
d.defs:30:16
  subsystem s 5; x y;
                 ^
""")
fault("mig of a long name", "mig --out . d.defs", {"d.defs": f"subsystem {65 * 'n'} 5;\n"}, f"""\
machcheck: d.defs: TooMany 10
d.defs:1:11
  subsystem {65 * 'n'} 5;
            {65 * '^'}
  a name has at most 64 bytes
""")
fault("a fault of another source, of facts", "facts --wiring w d", {
    "w": "wiring 1\n", "d": "#pragma machcheck 2\n# 7 \"x.defs\"\nsubsystem s 5; x y;\n"}, """\
machcheck: d: Unexpected 48
d:3:16
  subsystem s 5; x y;
                 ^
""")
fault("mig of an open comment", "mig --out . d.defs", {"d.defs": "subsystem s 5; /*\n"}, """\
machcheck: d.defs: OpenComment 15
d.defs:1:16
  subsystem s 5; /*
                 ^^
  this comment is not closed
""")

# Scripts. A message of 24 bytes, and one that moves a receive right (docs/FORMATS.md, section 4).

SIMPLE = "13000000180000000200000000000000" "00000000f4010000"
MOVES = "13000080200000000300000000000000" "00000000d0070000" "1020011004000000"
CALLS = "send, allocate, get_refs, insert_right, extract_right, set_qlimit, type, names, rename, deallocate, destroy, " \
    "mod_refs, move_member, request_notification, task_create, task_terminate or receive"


def script(name, line, column, carets, *notes):
    """A fault of a line of the script `s`, at this column."""
    told = f"machcheck: s: BadLine 3\ns:3:{column}\n  {line}\n  {' ' * (column - 1)}{'^' * carets}\n"
    told += "".join(f"  {note}\n" for note in notes)
    fault(name, "replay --wiring w --script s", {"w": LOADER, "s": f"# so\nloader names 1\n{line}\n"}, told)


def message(name, digits, column, carets, *notes):
    """A fault of what is sent."""
    script(name, f"loader send {digits}", column, carets, *notes)


def at_byte(name, digits, told, byte, *notes):
    """A fault of the message at a byte of one word of digits."""
    message(name, digits, 13 + 2 * byte, 2, f"the message has a fault: {told} at byte {byte}, counted from 0", *notes)


message("no digit", SIMPLE.replace("f", "g"), 53, 1, "not a hexadecimal digit: g")
message("no digit behind a blank", "1300 00\u00e90", 20, 1, "not a hexadecimal digit: \u00e9")
message("half a byte", SIMPLE + "0", 61, 1, "the digits are no whole bytes: one is missing or too many")
script("no digits", "loader send # it", 12, 1, "expected: the bytes of a message, two hexadecimal digits each")
message("a message that is too short", "13000080", 21, 1, "the message has a fault: TooShort at byte 4, counted from 0",
        "a message has at least 24 bytes, which are its header")
message("a message of two words that is too short", "13000000 18000000", 30, 1,
        "the message has a fault: TooShort at byte 8, counted from 0",
        "a message has at least 24 bytes, which are its header")
message("a message that is too long", SIMPLE + 16338 * "0", 13 + 16384, 2,
        "the message has a fault: TooLong at byte 8192, counted from 0", "a message has at most 8,192 bytes")
at_byte("a disposition of the destination", "10" + SIMPLE[2:], "BadHeaderDisp", 0,
        "the disposition of the destination has to be 17 to 21 (digits 11 to 15)")
at_byte("a reply port without a disposition", SIMPLE[:24] + "05" + SIMPLE[26:], "BadHeaderDisp", 1,
        "the disposition of the reply port has to be 17 to 21, or 0 if its name is 0")
DESCRIPTOR = "the name has to be 0 to 21, the size 8, 16 and so on (32 of port rights), " \
    "and deallocate and unused may not be set"
at_byte("a descriptor's name", MOVES.replace("10200110", "16200110"), "BadDesc", 24, DESCRIPTOR)
at_byte("a descriptor of the long form", MOVES[:48] + "00000030" "16002000" "01000000" "04000000", "BadDesc", 24, DESCRIPTOR,
        "its longform bit is set: name, size and number are in the 8 bytes behind")
at_byte("a descriptor that is not inline", MOVES.replace("10200110", "10200100"), "OutOfLine", 24,
        "the inline bit of this descriptor has to be set")
at_byte("data that are missing", MOVES[:-2], "Truncated", 24,
        "this descriptor, or its data with their padding, passes the end of the message")
at_byte("a byte too many", MOVES + "00", "Truncated", 32,
        "this descriptor, or its data with their padding, passes the end of the message")
at_byte("the long form by mistake", MOVES.replace("10200110", "13200130"), "Truncated", 24,
        "this descriptor, or its data with their padding, passes the end of the message",
        "its longform bit is set: name, size and number are in the 8 bytes behind")
at_byte("a complex bit that is not set", "13000000" + MOVES[8:], "ComplexDiffers", 3,
        "the complex bit (80 in this byte) has to be set if a descriptor has port rights, and only then")
message("digits in words", "13000080 20000000 03000000 00000000 00000000 d0070000 16200110 04000000", 67, 2,
        "the message has a fault: BadDesc at byte 24, counted from 0", DESCRIPTOR)
message("a byte in two words", f"{MOVES[:49]} {MOVES[49:].replace('0200110', '3200100')}", 61, 1,
        "the message has a fault: OutOfLine at byte 24, counted from 0", "the inline bit of this descriptor has to be set")

script("a typo in the task of a call", "laoder names 1", 1, 6, "the wiring has no task of this name", "did you mean: loader")
script("another task in a script", "disk names 1", 1, 4, "the wiring has no task of this name",
       "tasks of the wiring: loader, server")
script("a number of a wired task", "@1 names 1", 1, 2, "@N is a task that a call makes: N is from 2 on")
script("a typo in a call", "loader alocate 1 receive", 8, 7, "did you mean: allocate")
script("a call by Mach's name", "loader mach_port_names 1", 8, 15, "write it without mach_port_", "did you mean: names")
script("no such call", "loader listen 1", 8, 6, f"expected: {CALLS}")
script("no call", "loader", 7, 1, f"expected: {CALLS}")
script("wait in a replay", "loader wait 2 24", 8, 4, "wait is for live: in a replay write receive")
script("a parameter that is missing", "loader names", 13, 1, "expected: a number to 4,294,967,295",
       "the call is written: names TASK")
script("a parameter too many", "loader type 1 2 3", 17, 1, "expected: the end of the line",
       "the call is written: type TASK NAME")
script("a number with a sign", "loader names +1", 14, 2, "expected: a number to 4,294,967,295",
       "the call is written: names TASK")
script("a typo in a right of a call", "loader allocate 1 recieve", 19, 7, "expected: send, receive, once, set or dead",
       "did you mean: receive", "the call is written: allocate TASK RIGHT [KIND]")
script("a comma in a script", "loader rename 1, 2, 3", 16, 1, "expected: a number to 4,294,967,295",
       "the call is written: rename TASK OLD NEW")
script("a kind that is none", "loader allocate 1 receive one", 27, 3,
       "expected: a number to 4,294,967,295 or the end of the line", "the call is written: allocate TASK RIGHT [KIND]")
script("a disposition that is none", "loader extract_right 1 2 22", 26, 2, "expected: a disposition from 16 to 21",
       "the call is written: extract_right TASK NAME DISP")
script("a delta that is too large", "loader mod_refs 1 2 send 2147483648", 26, 10,
       "expected: a number from -2,147,483,648 to 2,147,483,647", "the call is written: mod_refs TASK NAME RIGHT DELTA")
script("a delta with a plus sign", "loader mod_refs 1 2 send +1", 26, 2,
       "expected: a number from -2,147,483,648 to 2,147,483,647", "the call is written: mod_refs TASK NAME RIGHT DELTA")
LIVE = "live --wiring w --policy p --cert c --script s"
fault("a task that a call makes, in live", LIVE, {**ALONE, "s": "a wait 2 24\n@1 names 1\n"}, """\
machcheck: s: BadLine 2
s:2:1
  @1 names 1
  ^^
  @N is a task that a call makes: run scripts with such tasks by replay
""")
fault("no such call in live", LIVE, {**ALONE, "s": "a mach_msg 1\n"}, f"""\
machcheck: s: BadLine 1
s:1:3
  a mach_msg 1
    ^^^^^^^^
  expected: {CALLS.replace(" or receive", ", receive or wait")}
""")
fault("a typo of wait in live", LIVE, {**ALONE, "s": "a wiat 2 24\n"}, """\
machcheck: s: BadLine 1
s:1:3
  a wiat 2 24
    ^^^^
  did you mean: wait
""")
fault("a script of too many lines", "replay --wiring w --script s", {"w": LOADER, "s": 65536 * "\n"}, """\
machcheck: s: BadLine 65536
  the text has more than 65,535 lines
""")
fault("a script that is no text", "replay --wiring w --script s", {"w": LOADER, "s": b"# \xff\n"}, """\
machcheck: s: NotUtf8
  the byte ff on line 1 is not UTF-8
""")

# Certificates, words of options, and files that are to be written.


def certificate(name, bytes_of_it, err):
    fault(name, CHECKED, {**ALONE, "c": bytes_of_it}, err)


certificate("a certificate that is none", b"no", """\
machcheck: c: Magic
  a certificate begins with the bytes MRCC: make writes one
""")
certificate("a certificate of another version", b"MRCC\0\3" + CERTIFICATE[6:], """\
machcheck: c: Version
  the version is 1, or 2 with more classes of births than tasks: make it again
""")
certificate("a certificate that is cut", CERTIFICATE[:-1], """\
machcheck: c: Truncated
  the bytes end before the last fact that the header counts
""")
certificate("a certificate with no fact", CERTIFICATE[:FACTS_FROM] + b"\4" + CERTIFICATE[FACTS_FROM + 1 :], """\
machcheck: c: BadFact 14
  no fact begins at this byte: its kind, task, class or right is out of range
""")
certificate("a certificate with a fact twice",
            CERTIFICATE[: FACTS_FROM + 6] + CERTIFICATE[FACTS_FROM : FACTS_FROM + 6] + CERTIFICATE[FACTS_FROM + 12 :], """\
machcheck: c: NotAscending 20
  the fact at this byte is not above the one before it
""")
certificate("a certificate with more bytes", CERTIFICATE + b"\0", """\
machcheck: c: Trailing
  there are bytes behind the last fact that the header counts
""")

NO_TASK = "the wiring has no task of this name"
NO_CLASS = "the wiring has no class of this name"
CLASSES = "classes of the wiring: task:loader, task:server, births:loader, births:server"
FORMS = "expected: hold TASK CLASS RIGHT, carry CLASS CLASS RIGHT or backup CLASS CLASS"
RIGHTS = "expected: send, receive or once"


def option(name, words, word, files, *notes):
    """A fault of an option: what is printed of it, and the notes."""
    fault(name, words, files, f"machcheck: {word}\n" + "".join(f"  {note}\n" for note in notes))


W = {"w": LOADER}
option("a task of facts", "facts --task nobody --wiring w", "--task: BadTask", W, NO_TASK,
       "tasks of the wiring: loader, server")
option("a task of graph", "graph --task sever --wiring w", "--task: BadTask", W, NO_TASK, "did you mean: server")
option("a task of no tasks", "facts --task nobody --wiring w", "--task: BadTask", {"w": "wiring 1\n"}, NO_TASK)
option("a class of facts", "facts --class tsk:loader --wiring w", "--class: BadClass", W, NO_CLASS,
       "did you mean: task:loader")
option("another class of facts", "facts --class loader --wiring w", "--class: BadClass", W, NO_CLASS, CLASSES)
option("a class of many", "facts --class port:x --wiring w", "--class: BadClass",
       {"w": "wiring 1\n" + "".join(f"task t{n}\n" for n in range(6))}, NO_CLASS,
       "classes of the wiring: task:t0, task:t1, task:t2, task:t3, task:t4, task:t5, births:t0, births:t1, births:t2, "
       "births:t3 and 2 more")
option("a right of facts", "facts --right snd --wiring w", "--right: BadRight", W, RIGHTS)
option("the first of three words", "facts --right snd --class loader --task sever --wiring w", "--task: BadTask", W,
       NO_TASK, "did you mean: server")
option("a fact of another form", "explain --fact hold_loader --wiring w", "--fact: BadFact", W, FORMS)
option("a fact of no kind", "explain --fact hld_loader_task:server_send --wiring w", "--fact: BadFact", W, FORMS)
option("a fact with two blanks", "explain --fact hold__loader_task:server --wiring w", "--fact: BadFact", W, NO_TASK,
       "tasks of the wiring: loader, server")
option("a task of a fact", "graph --fact hold_lodr_task:server_send --wiring w", "--fact: BadFact", W, NO_TASK,
       "did you mean: loader")
option("a class of a fact", "explain --fact carry_task:loader_port:p_snd --wiring w", "--fact: BadFact", W, NO_CLASS,
       CLASSES)
option("a class of a backup", "explain --fact backup_births:loader_births:servr --wiring w", "--fact: BadFact", W,
       NO_CLASS, "did you mean: births:server")
option("a right of a fact", "explain --fact hold_loader_task:server_snd --wiring w", "--fact: BadFact", W, RIGHTS)
option("a line that can't be", "verify --line 0 --wiring w --policy p", "--line: BadLine", {},
       "expected: a number from 1 to 4294967295")
option("a line of an attack that can't be", "attack --line 0 --wiring w --policy p", "--line: BadLine", {},
       "expected: a number from 1 to 4294967295")
option("a line that holds", "verify --line 3 --wiring w --policy p", "--line: NotBroken",
       {"w": LOADER, "p": "policy 1\nforbid server send task loader\n"},
       "verify without --line prints the lines that are broken")
option("no number of mends", "mend --most 0 --wiring w --policy p", "--most: BadMost", {},
       "expected: a number from 1 to 1000000")
option("too many workers", "make --workers 65 --wiring w --out c", "--workers: Workers", W,
       "expected: a number from 1 to 64")
option("make into no folder", "make --wiring w --out absent/c", "absent/c: WriteFailed 0", W, UNWRITTEN)
option("mig of two files of one name", "mig --out . a/d.defs b/d.defs", "b/d.defs: SameName", {},
       "an earlier file has this name: write them into two folders")
