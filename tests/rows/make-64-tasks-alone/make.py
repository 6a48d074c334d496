# 64 tasks that hold nothing of each other: each has its kernel port and its own births.
import os

TASKS = 64
with open("wiring", "w") as file:
    file.write("wiring 1\n" + "".join(f"task t{t}\n" for t in range(TASKS)))
facts = [(t, t, 0) for t in range(TASKS)] + [(t, TASKS + t, right) for t in range(TASKS) for right in range(3)]
head = b"MRCC" + bytes.fromhex("0001 0040 0080") + len(facts).to_bytes(4, "big")
os.mkdir("written")
with open("written/made", "wb") as file:
    file.write(head + b"".join(bytes([1, 0, t, 0, c, right]) for t, c, right in sorted(facts)))
assert os.path.getsize("written/made") == 1_550
