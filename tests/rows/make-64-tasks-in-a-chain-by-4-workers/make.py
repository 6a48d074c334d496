import os

# 64 tasks; each but the last holds the kernel port of the next. So each may hold the 64 kernel ports, and all three
# rights on each of the 64 classes of births: 256 facts a task. What is to be written is worked out here.
TASKS = 64
with open("wiring", "w") as file:
    file.write("wiring 1\n" + "".join(f"task t{t}\n" for t in range(TASKS)))
    file.write("".join(f"hold t{t} send task t{t + 1}\n" for t in range(TASKS - 1)))
facts = [(t, c, right) for t in range(TASKS) for c in range(2 * TASKS) for right in range(1 if c < TASKS else 3)]
head = b"MRCC" + bytes.fromhex("0001") + TASKS.to_bytes(2, "big") + (2 * TASKS).to_bytes(2, "big")
body = b"".join(bytes([1, 0, t, 0, c, right]) for t, c, right in facts)
assert len(facts) == 16_384
os.mkdir("written")
with open("written/made", "wb") as file:
    file.write(head + len(facts).to_bytes(4, "big") + body)
assert os.path.getsize("written/made") == 98_318
