"""The rows of tests/rows, as tests/rows/README.md has them: what they are, and how one runs."""

import importlib
import os
import pty
import shutil
import subprocess
import sys
import tempfile
from pathlib import Path
from typing import NamedTuple

ROWS = Path(__file__).resolve().parent / "rows"
TABLES = ["faults", "messages", "options", "answers", "json_answers", "policies"]
SECONDS = 300
# What of a row says how it runs and what it gives: the program sees none of these files.
TOLD = ["args", "how", "make.py", "stdout", "stderr", "hints", "terminal", "status", "written"]


class Entry(NamedTuple):
    """A row of a table: its name, its input files, and what a folder has in files of TOLD."""

    name: str
    files: dict
    told: dict


def as_bytes(value):
    """What a table gives as text, as a number or as a list of words has the bytes that a folder's file has."""
    if isinstance(value, list):
        return b"\n".join(map(as_bytes, value))
    return value if isinstance(value, bytes) else str(value).encode()


def entries(table):
    """The rows of a table."""
    if str(ROWS) not in sys.path:
        sys.path.append(str(ROWS))
    for row in importlib.import_module(table).ROWS:
        told = {key: as_bytes(value) for key, value in row.items() if key in TOLD and key != "written"}
        told["written"] = {name: as_bytes(text) for name, text in row.get("written", {}).items()}
        yield Entry(f"{table}: {row['name']}", row["files"], told)


def folders():
    """The rows that are folders, by their names."""
    return sorted({path.parent for name in ("args", "make.py") for path in ROWS.glob(f"*/{name}")})


def rows():
    """All rows: a folder is its path."""
    return [*folders(), *(row for table in TABLES for row in entries(table))]


# How a row runs


def bytes_of(path):
    """The bytes of a file; of one with `.hex` behind its name those that its digits stand for."""
    if path.suffix != ".hex":
        return path.read_bytes()
    lines = path.read_text().split("\n")
    return bytes.fromhex("".join(line.split("#")[0] for line in lines))


def files_of(folder):
    """What is in a folder, by its path there: see `held`."""
    return {str(path.relative_to(folder)): held(path) for path in folder.rglob("*")}


def held(path):
    """The bytes of a file, or what stands for them: a row may make links, devices and files that can't be read."""
    if path.is_symlink():
        return f"(a link to {os.readlink(path)})".encode()
    if path.is_dir():
        return b"(a folder)"
    if not path.is_file():
        return b"(no regular file)"
    try:
        return path.read_bytes()
    except PermissionError:
        return b"(not readable)"


def write(folder, files):
    """Writes files by their names. One without bytes may not be read."""
    for name, text in files.items():
        path = Path(folder) / name
        path.parent.mkdir(parents=True, exist_ok=True)
        path.write_bytes(b"" if text is None else as_bytes(text))
        if text is None:
            path.chmod(0)


def prepare(row, folder):
    """Copies a row to a folder of its own and makes what it generates; gives what is told of it and is wanted."""
    if isinstance(row, Entry):
        folder.mkdir(exist_ok=True)
        write(folder, row.files)
        return row.told
    shutil.copytree(row, folder, dirs_exist_ok=True)
    if (folder / "make.py").exists():
        subprocess.run([sys.executable, "make.py"], cwd=folder, check=True, timeout=SECONDS)
    for path in list(folder.rglob("*.hex")):
        path.with_suffix("").write_bytes(bytes_of(path))
        path.unlink()
    told = {}
    for name in TOLD:
        path = folder / name
        if path.is_dir():
            told[name] = files_of(path)
            shutil.rmtree(path)
        elif path.exists():
            told[name] = path.read_bytes()
            path.unlink()
    return told


def words_of(told):
    """The words of a row's command line."""
    return told["args"].removesuffix(b"\n").split(b"\n")


def run(program, told, folder):
    """Runs a row: the status, standard output and standard error."""
    command = [program, *words_of(told)]
    if "how" in told:
        command = ["sh", "-c", told["how"].decode(), "how", *command]
    try:
        if "terminal" in told:
            return watched(command, folder, told["terminal"].decode().strip())
        ran = subprocess.run(command, cwd=folder, capture_output=True, stdin=subprocess.DEVNULL, timeout=SECONDS)
    except subprocess.TimeoutExpired:
        return f"no end after {SECONDS} seconds", b"", b""
    return ran.returncode, ran.stdout, ran.stderr


def watched(command, folder, output):
    """A run with a terminal as one of its outputs: what is printed there is read while the program runs."""
    reader, writer = pty.openpty()
    pipes = {"stdout": subprocess.PIPE, "stderr": subprocess.PIPE, output: writer}
    with subprocess.Popen(command, cwd=folder, stdin=subprocess.DEVNULL, **pipes) as ran:
        os.close(writer)
        text = b""
        while piece := read(reader):
            text += piece
        out, err = ran.communicate(timeout=SECONDS)
    os.close(reader)
    text = text.replace(b"\r\n", b"\n")
    return (ran.returncode, text, err) if output == "stdout" else (ran.returncode, out, text)


def read(terminal):
    """What comes of a terminal: nothing at its end."""
    try:
        return os.read(terminal, 65536)
    except OSError:
        return b""


def ways(told):
    """The ways in which a row runs, each with what is told of it then: with hints there are four."""
    yield "", told
    if "hints" in told:
        command, *words = words_of(told)
        hinted = {**told, "stderr": told["stderr"] + told["hints"]}
        yield " with --verbose", {**hinted, "args": b"\n".join([command, b"--verbose", *words])}
        yield " at a terminal", {**hinted, "terminal": b"stderr"}
        yield " with a terminal for answers", {**told, "terminal": b"stdout"}


# What differs


def compared(program, told, folder):
    """What differs in a run, as triples of a title, of what was wanted and of what came."""
    before = files_of(folder)
    came = run(program, told, folder)
    after = files_of(folder)
    wanted = int(told.get("status", b"0")), told.get("stdout", b""), told.get("stderr", b"")
    found = [*zip(("status", "standard output", "standard error"), wanted, came)]
    files = {**before, **told.get("written", {})}
    for path in sorted(files.keys() | after.keys()):
        found.append((f"the file {path}", files.get(path, b"(no file)"), after.get(path, b"(no file)")))
    return [(title, want, come) for title, want, come in found if want != come]


def differences(row, program):
    """What differs in a row; or what is wrong with the row itself."""
    try:
        with tempfile.TemporaryDirectory() as name:
            folder = Path(name) / "row"
            told = prepare(row, folder)
            return [(title + way, *rest) for way, one in ways(told) for title, *rest in compared(program, one, folder)]
    except Exception as error:  # a row that is wrong is one that fails, and the others go on
        return [("the row", "a row as tests/rows/README.md says", f"{type(error).__name__}: {error}")]
