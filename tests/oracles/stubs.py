"""The messages of MIG files as the stubs that GNU MIG makes have them, and as they are read by the word forms2 of mrc_cases.

Both are by their ids, and whether they are replies: a kind, the arguments in their order, and the slots, each a word as
mrc_cases prints it, but for the name of a slot's type. Which rights a caller may pick is known from the stub that receives:
from the type number for which it looks. Where data are not in the body, or there with any length, they are of any kind, and
of rights there are at most 8,192. A slot is an argument of rights.
"""
import os
import re
import subprocess
import sys

sys.dont_write_bytecode = True
sys.path.append(os.path.dirname(os.path.dirname(os.path.realpath(__file__))))
from programs import load

migs = load("oracles/mig-stubs")
# The type numbers of rights, and the most items that an array of them or of data has.
RIGHTS, MOST = range(16, 22), 8192
# A type number that the caller of a stub picks; and the rights of which it may pick one, by what is received.
PICKED = -1
GIVING = {16: "16", 17: "17+19+20", 18: "18+21", 19: "17+19+20", 20: "17+19+20", 21: "18+21", PICKED: "0-21"}
# The type numbers by their names; in a kernel's server the names of what is received are also those of what is sent.
NUMBERS = {
    **migs.NUMBERS, "UNSTRUCTURED": 0, "BIT": 0, "REAL": 10, "PORT_RECEIVE": 16, "PORT_SEND": 17, "PORT_SEND_ONCE": 18,
    "POLYMORPHIC": PICKED,
}


def preprocessed(line, include, macros=()):
    """The text that cpp makes of a line."""
    words = ["cpp", "-x", "c", "-undef", "-nostdinc", *(f"-D{macro}" for macro in macros), f"-I{include}", "-"]
    return migs.run(words, input=line, capture_output=True, text=True).stdout


def number_of(word):
    word = word.removeprefix("MACH_MSG_TYPE_")
    return NUMBERS[word] if word in NUMBERS else int(word)


def received_number(stub, name):
    """The type number for which the stub that receives an argument looks; where it looks for none, any is received."""
    fixed = r"const mach_msg_type_t %sCheck = \{\s*\.msgt_name =\s*\([^)]*\) ([-\w]+)," % name
    found = re.search(fixed, stub) or re.search(r"P->%sType\.msgtl?_name != ([-\w]+)\)" % name, stub)
    return number_of(found.group(1)) if found else PICKED


def word_of(sent, received, size, count, is_bound, is_inline):
    """An argument as mrc_cases prints it."""
    fits = is_inline and 1 <= count <= MOST
    numbers = GIVING.get(received, "") if sent == PICKED else str(sent) if sent in RIGHTS else ""
    if numbers and not fits:
        return f"{numbers}/{size}/{MOST}*"
    if not numbers and (not fits or not 0 <= sent <= 15 or size % 8 or not 8 <= size <= 65528):
        return "any"
    return f"{numbers or sent}/{size}/{count}{'*' if is_bound else ''}"


def argument_of(sending, receiving, name):
    """What an argument is in the stub that sends it."""
    fields = re.search(r"const mach_msg_type_(?:long_)?t %sType = \{(.*?)\};" % name, sending, re.S)
    if name == "RetCode" and not fields:
        return "2/32/1"
    fields = fields.group(1)
    # In a long descriptor the fields of the short one are 0.
    long = "l" if "msgtl_size" in fields else ""
    sent = number_of(re.search(r"msgt%s_name =\s*\([^)]*\) ([-\w]+)" % long, fields).group(1))
    size = int(re.search(r"\.msgt%s_size =\s*(-?\d+)" % long, fields).group(1))
    count = int(re.search(r"\.msgt%s_number =\s*(-?\d+)" % long, fields).group(1))
    is_inline = "TRUE" in re.search(r"msgt_inline =\s*(\w+)", fields).group(1)
    # A stub that may send an array out of line says so when it runs.
    varies = bool(re.search(r"->%sType\.(?:msgtl_header\.)?msgt_inline =" % name, sending))
    is_bound = bool(re.search(r"P->%sType\.(?:msgtl_header\.)?msgtl?_number =" % name, sending))
    received = received_number(receiving, name)
    return word_of(sent, received, size, count, is_bound, is_inline and not varies)


def arguments_of(sending, receiving, record):
    """The arguments that a stub writes into this record."""
    found = re.search(r"typedef struct \{\n((?:(?!typedef).)*?)\n\t\} %s;" % record, sending, re.S)
    names = re.findall(r"mach_msg_type_(?:long_)?t (\w+)Type;", found.group(1)) if found else []
    return [argument_of(sending, receiving, name) for name in names]


def with_slots(arguments):
    """The arguments, and behind them the slots."""
    numbers = [word.split("/")[0] for word in arguments]
    slots = [f"{at}:{it}" for at, it in enumerate(numbers) if it in GIVING.values() or it.isdigit() and int(it) in RIGHTS]
    return arguments + slots


def request_kind(user, server):
    """What answers a request: a reply, whatever goes to the reply port that one of its stubs has, or nothing."""
    if "OutP->Head.msgh_id != " in user:
        return "request"
    is_sent = "msgh_reply_port = MACH_PORT_NULL;" not in user
    return "replied" if is_sent or re.search(r"In\dP->Head\.msgh_reply_port", server) else "simple"


def stub_messages(migcom, text, base):
    """The messages of a file: a request as its user sends it, a reply as its server does. There are none where GNU MIG refuses
    the file. Its stubs are written to files whose names begin so."""
    names = [f"{base}.{end}" for end in ("user.c", "server.c", "h", "i.h")]
    options = ["-user", "-server", "-header", "-iheader"]
    words = [migcom, *(word for pair in zip(options, names) for word in pair)]
    if subprocess.run(words, input=text, text=True, capture_output=True).returncode:
        return None
    with open(names[0]) as user, open(names[1]) as server:
        stubs = zip(migs.parts_of(user.read()), migs.parts_of(server.read()), strict=True)
    messages = {}
    for (_, asks), (_, answers) in stubs:
        number = int(re.search(r"InP->Head\.msgh_id = (-?\d+);", asks).group(1))
        messages[number, False] = request_kind(asks, answers), with_slots(arguments_of(asks, answers, "Request"))
        reply = re.search(r"OutP->Head\.msgh_id != (-?\d+)\)", asks)
        if reply:
            messages[int(reply.group(1)), True] = "reply", with_slots(arguments_of(answers, asks, "Reply"))
    return messages


def read_messages(said, has_types=False):
    """What mrc_cases prints of a file: the words of its subsystem, its messages, with the types of their slots or without, and
    what is left out."""
    heading, *parts = said.split("; ")
    messages, left = {}, []
    for part in parts:
        kind, *words = part.split()
        if kind in ("left", "type"):
            left.append(part)
        else:
            told = words[1:] if has_types else [":".join(word.split(":")[:2]) for word in words[1:]]
            messages[int(words[0]), kind == "reply"] = kind, told
    return heading, messages, left


def counted(messages):
    """How many routines these messages are of, how many messages there are, and how many arguments they have."""
    words = [word for _, words in messages.values() for word in words if ":" not in word]
    return sum(not is_reply for _, is_reply in messages), len(messages), len(words)


def second(texts):
    """What mrc_cases reads of texts as ones of edition 2."""
    return migs.said("forms2", ["#pragma machcheck 2\n" + text for text in texts])
