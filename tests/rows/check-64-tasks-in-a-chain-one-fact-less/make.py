# 64 tasks; each but the last holds the kernel port of the next. So each may hold the 64 kernel ports, and all three
# rights on each of the 64 classes of births: 256 facts a task. What is to be written is worked out here.
TASKS = 64
with open("wiring", "w") as file:
    file.write("wiring 1\n" + "".join(f"task t{t}\n" for t in range(TASKS)))
    file.write("".join(f"hold t{t} send task t{t + 1}\n" for t in range(TASKS - 1)))
facts = [(t, c, right) for t in range(TASKS) for c in range(2 * TASKS) for right in range(1 if c < TASKS else 3)]
head = b"MRCC" + bytes.fromhex("0001") + TASKS.to_bytes(2, "big") + (2 * TASKS).to_bytes(2, "big")
body = b"".join(bytes([1, 0, t, 0, c, right]) for t, c, right in facts)
assert len(facts) == 16_384
# Task 63 has all of task 62 by its kernel port. The certificate lacks one of its facts.
gone = facts.index((63, 64, 1))
body = body[: 6 * gone] + body[6 * gone + 6 :]
with open("cert", "wb") as file:
    file.write(head + (len(facts) - 1).to_bytes(4, "big") + body)
