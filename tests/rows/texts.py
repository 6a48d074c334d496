"""Texts of files that several tables use."""

STD = "#include <mach/std_types.defs>\n"
# A subsystem whose one slot is `file`, of the type `file_t`, and one without slots.
FS = f"subsystem fs 100;\n{STD}type file_t = MACH_MSG_TYPE_COPY_SEND;\n" \
    "routine open(server : mach_port_t; out file : file_t);\n"
NAME = f"subsystem name 200;\n{STD}simpleroutine lookup(server : mach_port_t);\n"
# The loader controls the server: both tasks may come to hold the same. So this policy is broken.
LOADER = "wiring 1\ntask loader\ntask server\nhold loader send task server\n"
FORBID = "policy 1\nforbid server send task loader\n"
ASKED = "verify --wiring w --policy p"
# A task alone with its certificate, whose facts begin at byte 14.
FACTS_FROM = 14
CERTIFICATE = bytes.fromhex(
    "4d52434300010001000200000004" "010000000000" "010000000100" "010000000101" "010000000102")
ALONE = {"w": "wiring 1\ntask a\n", "p": "policy 1\n", "c": CERTIFICATE}
CHECKED = "check --wiring w --policy p --cert c"
# The client gets the server's kernel port at its reply port.
CLIENT = {
    "w": "wiring 1\ntask client\ntask server\nport root receiver server accepts request fs\n"
         "births client accepts reply fs\nhold client send port root\n",
    "p": "policy 1\nforbid client send task server\n",
    "fs.defs": FS,
}
UNWRITTEN = "its folder is missing or takes no new file, or it may not be written to, or is a folder"


def words_in(line):
    """The words of a line, with `_` for a blank in one."""
    return [word.replace("_", " ") for word in line.split(" ")]
