"""The machine room: boots GNU Mach in qemu with the driver as its first task, and reads what that
prints.

`missing()` is the command that installs the packages that are not there, or "" if all are.
`left_out(what)` is the line that a test prints if there is no kernel, or "".
`boot(scripts)` plays scripts, each a list of words of 32 bits (see cases.py), and returns a `Log`.

The kernel is fetched by get-kernel into a cache: machcheck/gnumach-1.8 in $XDG_CACHE_HOME or
~/.cache. GNUMACH names another file instead.
"""

import os
import re
import shutil
import struct
import subprocess
import sys
import tempfile
import threading
import time
from dataclasses import dataclass, field
from pathlib import Path

HERE = Path(__file__).resolve().parent
SECONDS = 1800  # that a boot may take
PACKAGES = {
    "qemu-system-i386": "qemu-system-x86",
    "gcc": "gcc",
    "as": "binutils",
    "ld": "binutils",
}
# Headers and libraries of 32 bits are not needed. The last flag: no loop becomes a call of memcpy.
COMPILE = [
    "gcc", "-m32", "-O1", "-ffreestanding", "-fno-pic", "-fno-stack-protector",
    "-fno-tree-loop-distribute-patterns",
]
# The batch is linked into the driver, which has no files. A word of ones ends it.
BATCH = """.data
.globl batch
.balign 4
batch: .incbin "words"
.long -1
.section .note.GNU-stack,""
"""
LINK = ["ld", "-m", "elf_i386", "-static"]
QEMU = [
    "qemu-system-i386", "-accel", "tcg", "-nodefaults", "-display", "none", "-serial", "stdio",
    "-no-reboot", "-m", "512", "-append", "console=com0",
]
# How the kernel starts its first task: the words of its command line, then what it does.
FIRST_TASK = "boot.elf boot.elf ${host-port} $(task-create) $(task-resume)"


class NoKernel(Exception):
    """The kernel can't be had, or it stopped."""


def missing():
    """The command that installs what is not there."""
    packages = {package for program, package in PACKAGES.items() if not shutil.which(program)}
    return f"apt-get install {' '.join(sorted(packages))}" if packages else ""


def kernel():
    """The kernel's file, which is fetched once."""
    if "GNUMACH" in os.environ:
        return Path(os.environ["GNUMACH"]).resolve()
    cache = Path(os.environ.get("XDG_CACHE_HOME") or Path.home() / ".cache")
    path = cache / "machcheck/gnumach-1.8"
    if not path.exists():
        print("apt-get fetches the kernel once: GNU Mach 1.8, 766 kB", file=sys.stderr, flush=True)
        got = subprocess.run([HERE / "get-kernel", path], capture_output=True, text=True)
        if got.returncode:
            raise NoKernel(f"{HERE / 'get-kernel'} failed: {got.stderr.strip()}")
    return path


def left_out(what):
    """The line that says why something on a kernel is left out, or "" if a kernel is there."""
    why = missing()
    try:
        why = why or (kernel() and "")
    except NoKernel as reason:
        why = str(reason).splitlines()[-1]
    return f"left out: {what}: {why}" if why else ""


def pack(numbers):
    """The bytes of numbers of 32 bits."""
    return b"".join(struct.pack("<I", number & 0xFFFFFFFF) for number in numbers)


def words_of(data):
    """The numbers of 32 bits in bytes."""
    return list(struct.unpack(f"<{len(data) // 4}I", data))


def build(folder, scripts):
    """Makes the driver with a batch: boot.elf in the folder."""
    Path(folder, "words").write_bytes(pack([word for script in scripts for word in script]))
    Path(folder, "batch.s").write_text(BATCH)
    for words in (
        ["as", "--32", "-o", "batch.o", "batch.s"],
        [*COMPILE, "-c", HERE / "driver/driver.c", "-o", "driver.o"],
        [*LINK, "-o", "boot.elf", "driver.o", "batch.o"],
    ):
        subprocess.run(words, cwd=folder, check=True)


@dataclass
class Log:
    """What the driver printed: the lines of each script, by the script's number; and the seconds
    to the driver, and in all."""

    scripts: dict = field(default_factory=dict)
    begun: float = None
    seconds: float = 0.0
    current: list = None

    def take(self, line):
        """Takes a line: whether there are more."""
        if line.endswith("BEGIN"):
            self.begun = self.seconds
        elif line == "END":
            return False
        elif line.startswith("script "):
            self.current = self.scripts[int(line.split()[1], 16)] = []
        elif self.current is not None and re.match(r"([0-9a-f]{4}|=) ", line):
            self.current.append(line)
        elif line.startswith("!"):
            print(f"driver: {line}", file=sys.stderr)
        # Of a name that is none the kernel complains on its console. Scripts have many.
        elif self.begun is not None and "bogus port" not in line:
            print(f"kernel: {line}", file=sys.stderr)
        return True


def boot(scripts):
    """Plays scripts on the kernel."""
    log, last, start = Log(), "", time.monotonic()
    with tempfile.TemporaryDirectory() as folder:
        build(folder, scripts)
        qemu = subprocess.Popen(
            [*QEMU, "-kernel", kernel(), "-initrd", FIRST_TASK],
            cwd=folder,
            stdin=subprocess.DEVNULL,
            stdout=subprocess.PIPE,
            text=True,
            errors="replace",
        )
        watch = threading.Timer(SECONDS, qemu.kill)
        watch.start()
        try:
            for line in qemu.stdout:
                log.seconds = time.monotonic() - start
                if line.strip() and not log.take(line.strip()):
                    return log
                last = line.strip() or last
        finally:
            watch.cancel()
            qemu.kill()
            qemu.wait()
    raise NoKernel(f"the kernel stopped before the end: {last}")
