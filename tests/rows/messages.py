"""Messages in words: what `encode` and `decode` print, and the faults of both.

All was written by hand, from docs/FORMATS.md, section 4, and docs/FAULTS.md.
"""

from pathlib import Path

from texts import FS, STD

EXAMPLE = Path(__file__).resolve().parents[2] / "examples/file_server.defs"
ROWS = []


def row(name, words, files, **told):
    ROWS.append({"name": name, "args": [*words, *files], "files": files, "stderr": "", **told})


def encoded(name, words, digits, files):
    row(name, ["encode", "--message", words], files, stdout=f"{digits}\n")


def decoded(name, digits, words, files):
    row(name, ["decode", "--hex", digits], files, stdout=f"{words}\n")


def both(name, words, digits, files, printed=None):
    """A message, its bytes, and how it is printed, if that is in another way."""
    encoded(name, words, digits, files)
    decoded(f"{name}, as it is printed", digits, printed or words, files)


def taking(spec, edition=1):
    """The subsystem s with one message of the id 2000, whose argument v is of this type."""
    first = "#pragma machcheck 2\n" if edition == 2 else ""
    return {"s.defs": f"{first}subsystem s 2000;\n{STD}{spec}\nsimpleroutine r(server : mach_port_t; v : t);\n"}


def value(name, spec, said, digits, printed=None, edition=1, is_complex=False):
    """A value of a type: how it is said, its descriptor with the data and the padding, and how it is printed."""
    size = 24 + len(digits.replace(" ", "")) // 2
    head = f"130000{'80' if is_complex else '00'} {size:02x}000000 03000000 00000000 00000000 d0070000"
    files = taking(spec if spec.endswith(";") else f"type t = {spec};", edition)
    both(name, f"{{ s.r to 3 v={said} }}", f"{head} {digits}", files, f"{{ s.r to 3 v={printed or said} }}")


def right(name, spec, said, digits, printed=None, edition=1):
    value(name, spec, said, digits, printed, edition, True)


# The value of an argument.

BITS = "( MACH_MSG_TYPE_INTEGER_32 , {} )".format
value("a number", "int", "300", "02200110 2c010000")
value("a number behind 0x", "int", "0x12C", "02200110 2c010000", "300")
value("a number of 8 bits", "char", "255", "08080110 ff000000")
value("a number of 16 bits", "short", "4660", "01100110 34120000")
value("a number of 24 bits", BITS(24), "1193046", "02180110 56341200")
value("a number of 64 bits", BITS(64), "18446744073709551615", "02400110 ffffffff ffffffff")
value("numbers", "array[3] of short", "[1 2 3]", "01100310 01000200 03000000")
value("numbers with blanks", "array[3] of short", "[ 1\t 0x2  3 ]", "01100310 01000200 03000000", "[1 2 3]")
value("no number of a bound", "array[*:4] of int", "[]", "02200010")
value("a number of a bound", "array[*:4] of int", "[7]", "02200110 07000000")
value("a text up to a bound", "c_string[*:16]", '"/etc/motd"', "0c080a10 2f657463 2f6d6f74 64000000")
value("a text of an exact number", "c_string[8]", '"a"', "0c080810 61000000 00000000")
value("an empty text", "c_string[*:16]", '""', "0c080110 00000000")
value("signs in a text", "c_string[*:16]", r'"\"# {}\\"', "0c080710 2223207b 7d5c0000")
value("a text with a zero too many", "c_string[*:16]", "[97 0 0]", "0c080310 61000000")
value("a text without a zero", "c_string[2]", "[97 98]", "0c080210 61620000")
value("no byte of a text", "c_string[*:16]", "[]", "0c080010")
value("a text with a line feed", "c_string[4]", "[97 10 0 0]", "0c080410 610a0000")
value("a text of one byte", "c_string[1]", "0", "0c080110 00000000")
value("bytes as a text", "array[*:8] of char", '"hi"', "08080210 68690000", "[104 105]")
value("items of 128 bits", BITS(128), "0x000102030405060708090a0b0c0d0e0f",
      "02800110 00010203 04050607 08090a0b 0c0d0e0f")
value("no item of 128 bits", f"array[*:2] of {BITS(128)}", "0x", "02800010")
value("data of any kind", "array[] of int", "0x010203", "09080310 01020300", edition=2)
value("data of any kind of another type", "array[] of int", "type 2 size 32 0x0aFF0000", "02200110 0aff0000",
      "type 2 size 32 0x0aff0000", edition=2)
value("data of any kind by a long descriptor", "array[] of int", f"type 9 size 256 0x{'ab' * 32}",
      f"00000030 09000001 01000000 {' '.join(['abababab'] * 8)}", edition=2)
right("a right", "mach_port_t", "4", "13200110 04000000")
right("a null port", "mach_port_t", "0", "13200110 00000000", "null")
right("a dead port", "mach_port_t", "dead", "13200110 ffffffff")
right("a right with its disposition", "mach_port_move_receive_t", "move-receive 4", "10200110 04000000", "4")
right("rights", "array[*:3] of mach_port_t", "[4 null 4294967295]", "13200310 04000000 00000000 ffffffff", "[4 null dead]")
right("a right of three dispositions", "MACH_MSG_TYPE_PORT_SEND", "make-send 4", "14200110 04000000", edition=2)
right("rights of two dispositions", "array[2] of MACH_MSG_TYPE_PORT_SEND_ONCE", "make-send-once [4 5]",
      "15200210 04000000 05000000", edition=2)
right("any right", "polymorphic", "move-send 4", "11200110 04000000", edition=2)
value("any data", "polymorphic", "type 2 5", "02200110 05000000", edition=2)
value("some of any data", "type p = polymorphic; type t = array[*:3] of p;", "type 15 [1 2]", "0f200210 01000000 02000000",
      edition=2)

# Ports, replies, arguments.

BARE = {"s.defs": f"subsystem s 2000;\n{STD}routine r(server : mach_port_t; out v : int);\n"}
both("no reply port", "{ s.r to 3 }", "13000000 18000000 03000000 00000000 00000000 d0070000", BARE)
both("a reply port", "{ s.r to 3 reply 4 }", "13150000 18000000 03000000 04000000 00000000 d0070000", BARE)
both("a null reply port", "{ s.r to 3 reply null }", "13150000 18000000 03000000 00000000 00000000 d0070000", BARE)
both("dispositions of ports", "{ s.r to dead as make-send reply 4 as move-send-once }",
     "14120000 18000000 ffffffff 04000000 00000000 d0070000", BARE)
both("dispositions that are the usual ones", "{ s.r to 3 as copy-send reply 4 as make-send-once }",
     "13150000 18000000 03000000 04000000 00000000 d0070000", BARE, "{ s.r to 3 reply 4 }")
both("a reply without its code", "{ reply s.r to 3 v=5 }",
     "12000000 28000000 03000000 00000000 00000000 34080000 02200110 00000000 02200110 05000000", BARE,
     "{ reply s.r to 3 code=0 v=5 }")
both("a reply with its code", "{ reply s.r to 3 as move-send v=5 code=9 }",
     "11000000 28000000 03000000 00000000 00000000 34080000 02200110 09000000 02200110 05000000", BARE,
     "{ reply s.r to 3 as move-send code=9 v=5 }")
CODE = {"s.defs": f"subsystem s 2000;\n{STD}routine r(server : mach_port_t; out code : int);\n"}
both("an argument named code", "{ reply s.r to 3 code=5 RetCode=9 }",
     "12000000 28000000 03000000 00000000 00000000 34080000 02200110 09000000 02200110 05000000", CODE,
     "{ reply s.r to 3 RetCode=9 code=5 }")
WORDS = {"s.defs": f"subsystem s 2000;\n{STD}simpleroutine r(server : mach_port_t; to : int; reply : int; as : int);\n"}
both("arguments that are named as words", "{ s.r to 3 as=1 reply=2 to=4 }",
     "13000000 30000000 03000000 00000000 00000000 d0070000 02200110 04000000 02200110 02000000 02200110 01000000", WORDS,
     "{ s.r to 3 to=4 reply=2 as=1 }")
OPEN = {"file_server.defs": EXAMPLE.read_text()}
both("the example", '{ file_server.open to 2 reply 3 name="/etc/motd" flags=0 }',
     "13150000 30000000 02000000 03000000 00000000 b80b0000 0c080a10 2f657463 2f6d6f74 64000000 02200110 00000000", OPEN)
both("the reply of the example", "{ reply file_server.open to 3 code=0 file=1 }",
     "12000080 28000000 03000000 00000000 00000000 1c0c0000 02200110 00000000 13200110 01000000", OPEN)
decoded("what is ignored", "1300ff7f ffffffff 03000000 00000000 07000000 d0070000", "{ s.r to 3 }", BARE)
decoded("a long descriptor and padding",
        "13000000 00000000 03000000 00000000 00000000 d0070000 ffffff3f 08000800 01000000 05aabbcc", "{ s.r to 3 v=5 }",
        taking("type t = char;"))
decoded("HEX with blanks", "1 300000018000000 03000000 0000000000000000\tD0070000 ", "{ s.r to 3 }", BARE)
NEXT = {"t.defs": f"subsystem t 2000;\n{STD}simpleroutine q(server : mach_port_t; v : short);\n"}
decoded("the file that has the message", "13000000 20000000 03000000 00000000 00000000 d0070000 01100110 05000000",
        "{ t.q to 3 v=5 }", {**BARE, **NEXT})
decoded("the first file that has the message", "13000000 18000000 03000000 00000000 00000000 d0070000", "{ s.r to 3 }",
        {**BARE, "u.defs": f"subsystem u 2000;\n{STD}simpleroutine p(server : mach_port_t);\n"})

# Faults of words, with their places.

NOTES = {
    "NotWords": "expected: { I.R to NAME reply NAME ARGUMENT=VALUE .. } or { reply I.R to NAME .. }",
    "UnknownMessage": "no MIG file has this message",
    "UnknownArgument": "the message has no argument of this name",
    "SaidTwice": "the argument is said in front of this",
    "NotAValue": "this is no value of the argument",
    "Missing": "an argument of the message is not said",
    "TooLong": "a message has at most 8,192 bytes",
}
SOME = {"s.defs": f"subsystem s 2000;\n{STD}routine r(server : mach_port_t; n : int; l : l_t = array[2] of short; "
                  f"p : p_t = c_string[4]; g : mach_port_t; out v : int);\nsimpleroutine q(server : mach_port_t);\n"}


def fault(name, told, words, marks, files=SOME):
    """A fault of words, and below them the marks of the place."""
    column = marks.index("^") + 1
    hints = f"--message:1:{column}\n  {words}\n  {marks}\n  {NOTES[told.split()[0]]}\n"
    row(f"fault: {name}", ["encode", "--message", words], files, status=2, stderr=f"machcheck: --message: {told}\n",
        hints=hints)


fault("no words", "NotWords", "", "^")
fault("no opening brace", "NotWords", "s.q to 3 }", "^^^")
fault("no closing brace", "NotWords", "{ s.q to 3", "          ^")
fault("a second closing brace", "NotWords", "{ s.q to 3 }}", "            ^")
fault("a word behind the brace", "NotWords", "{ s.q to 3 } x", "             ^")
fault("no routine", "NotWords", "{ s to 3 }", "  ^")
fault("no destination", "NotWords", "{ s.q }", "      ^")
fault("no name of the destination", "NotWords", "{ s.q to }", "         ^")
fault("no disposition behind as", "NotWords", "{ s.q to 3 as }", "              ^")
fault("a reply port of a reply", "NotWords", "{ reply s.r to 3 reply 4 v=5 }", "                 ^^^^^")
fault("no NAME=VALUE", "NotWords", "{ s.r to 3 n }", "           ^")
fault("no value", "NotWords", "{ s.r to 3 n= l=[1 2] }", "           ^^")
fault("a bracket that does not close", "NotWords", "{ s.r to 3 l=[1 2 }", "                  ^")
fault("a quote that does not close", "NotWords", '{ s.r to 3 p="a }', "             ^^^^")
fault("no such interface", "UnknownMessage", "{ t.q to 3 }", "  ^^^")
fault("no such routine", "UnknownMessage", "{ s.t to 3 }", "  ^^^")
fault("no reply of a simpleroutine", "UnknownMessage", "{ reply s.q to 3 }", "        ^^^")
fault("no MIG file", "UnknownMessage", "{ s.q to 3 }", "  ^^^", {})
fault("no such argument", "UnknownArgument", "{ s.q to 3 n=5 }", "           ^")
fault("the request port as an argument", "UnknownArgument", "{ s.q to 3 server=5 }", "           ^^^^^^")
fault("said twice", "SaidTwice", "{ s.r to 3 n=1 n=1 }", "               ^")
fault("a code said twice", "SaidTwice", "{ reply s.r to 3 code=1 RetCode=1 v=5 }", "                        ^^^^^^^")
fault("no number", "NotAValue", "{ s.r to 3 n=one }", "             ^^^")
fault("a number that is too large", "NotAValue", "{ s.r to 3 n=4294967296 }", "             ^^^^^^^^^^")
fault("an item that is too large", "NotAValue", "{ s.r to 3 l=[1 65536] }", "                ^^^^^")
fault("too few items", "NotAValue", "{ s.r to 3 l=[1] }", "             ^^^")
fault("too many items", "NotAValue", "{ s.r to 3 l=[1 2 3] }", "             ^^^^^^^")
fault("a number for a list", "NotAValue", "{ s.r to 3 l=1 }", "             ^")
fault("a text of items of 16 bits", "NotAValue", '{ s.r to 3 l="ab" }', "             ^^^^")
fault("a text that is too long", "NotAValue", '{ s.r to 3 p="four" }', "             ^^^^^^")
fault("a disposition of another", "NotAValue", "{ s.r to 3 g=move-send 4 }", "             ^^^^^^^^^")
fault("a name that is too large", "NotAValue", "{ s.r to 3 g=4294967296 }", "             ^^^^^^^^^^")
fault("a destination that is no name", "NotAValue", "{ s.q to -1 }", "         ^^")
fault("a receive right to the destination", "NotAValue", "{ s.q to 3 as move-receive }", "              ^^^^^^^^^^^^")
fault("no disposition", "NotAValue", "{ s.r to 3 v=4 }", "             ^", taking("type t = MACH_MSG_TYPE_PORT_SEND;", 2))
fault("no type of any data", "NotAValue", "{ s.r to 3 v=4 }", "             ^", taking("type t = polymorphic;", 2))
fault("a type that is no type of data", "NotAValue", "{ s.r to 3 v=type 16 4 }", "                  ^^",
      taking("type t = polymorphic;", 2))
fault("half a byte", "NotAValue", "{ s.r to 3 v=0x012 }", "             ^^^^^", taking("type t = array[] of int;", 2))
fault("bytes that are no whole items", "NotAValue", "{ s.r to 3 v=type 2 size 32 0x0102 }",
      "                            ^^^^^^", taking("type t = array[] of int;", 2))
fault("too few bytes of an item", "NotAValue", "{ s.r to 3 v=0x0102 }", "             ^^^^^^", taking(f"type t = {BITS(128)};"))
fault("missing", "Missing 2", '{ s.r to 3 n=1 l=[1 2] g=4 }', "                           ^")
fault("missing, the first of the form", "Missing 0", "{ s.r to 3 }", "           ^")
fault("missing of a reply", "Missing 1", "{ reply s.r to 3 code=0 }", "                        ^")
fault("missing behind others", "UnknownArgument", "{ s.r to 3 x=1 }", "           ^")
fault("the first from the left", "SaidTwice", "{ s.r to 3 n=1 n=2 l=[1] }", "               ^")
LONG = f"{{ s.r to 3 v=0x{'00' * 8157} }}"
fault("too long", "TooLong", LONG, "^" * len(LONG), taking("type t = array[] of int;", 2))

# Faults of HEX, and of files.


def hex_fault(name, told, digits, hints=None):
    row(f"fault: {name}", ["decode", "--hex", digits], SOME, status=2, stderr=f"machcheck: --hex: {told}\n",
        **({"hints": hints} if hints else {}))


hex_fault("no hexadecimal digit", "BadHex", "1300000g")
hex_fault("a digit too many", "BadHex", "130")
hex_fault("no bytes", "TooShort", "")
hex_fault("a header without its end", "TooShort", "13000000 18000000 03000000 00000000 00000000 d00700")
hex_fault("a receive right as destination in bytes", "BadHeaderDisp", "10000000 18000000 03000000 00000000 00000000 d1070000")
hex_fault("no data", "Truncated 24", "13000000 1c000000 03000000 00000000 00000000 d1070000 02200110")
NONE = "  no MIG file has a message of this id and of such arguments\n"
hex_fault("another id", "NoWords", "13000000 18000000 03000000 00000000 00000000 d2070000", NONE)
hex_fault("another argument", "NoWords", "13000000 20000000 03000000 00000000 00000000 d1070000 02200110 01000000", NONE)
hex_fault("a reply port of a reply in bytes", "NoWords",
          "12150000 28000000 03000000 04000000 00000000 34080000 02200110 00000000 02200110 05000000", NONE)
hex_fault("a code alone", "NoWords", "12000000 20000000 03000000 00000000 00000000 34080000 02200110 05000000", NONE)
for command in (["encode", "--message", "x"], ["decode", "--hex", "x"]):
    row(f"{command[0]}: the fault of a file first", command, {"d": "subsystem s 1;\n@"}, status=2,
        stderr="machcheck: d: BadCharacter 15\n")
    row(f"{command[0]}: a missing file first", [*command, "absent", "d"], {"d": "@"}, status=2,
        stderr="machcheck: absent: ReadFailed\n")
row("no message", ["encode"], {}, status=2, stderr="""\
error: the following required arguments were not provided:
  --message <WORDS>

Usage: machcheck encode --message <WORDS> [DEFS]...

For more information, try '--help'.
""")
row("no bytes", ["decode"], {}, status=2, stderr="""\
error: the following required arguments were not provided:
  --hex <HEX>

Usage: machcheck decode --hex <HEX> [DEFS]...

For more information, try '--help'.
""")
encoded("a subsystem with a reply", "{ reply fs.open to 3 file=4 }",
        "12000080 28000000 03000000 00000000 00000000 c8000000 02200110 00000000 13200110 04000000", {"fs.defs": FS})
