"""64 tasks, of which t0 has as many names as it may have. They and port p have 65 ports; the others make 65,471 more.

As many live as there may be then. A kind of births that a task lacks and a full space come before that; what is no port
can still be made.
"""
from pathlib import Path

# The kernel port of a task has the name 1; port p and 4,094 send-once rights on it fill the space of t0.
lines = ["wiring 1", *(f"task t{number}" for number in range(64)), "port p receiver t0 accepts none"]
lines += ["hold t0 once port p"] * 4094
script, stdout = [], []


def call(words, reply):
    script.append(words)
    stdout.append(f"{len(stdout)} {words.split()[0]} {reply}")


for number in range(65_471):
    call(f"t{1 + number % 63} allocate 1 receive", f"name {2 + number // 63}")
# 65,471 is 63 times 1,039, and 14: so t63 has made 1,039 ports, and its last name is 1,040.
call("t63 allocate 1 receive", "refused KERN_RESOURCE_SHORTAGE")
call("t63 task_create 1", "refused KERN_RESOURCE_SHORTAGE")
call("t63 allocate 1 receive 1", "refused KERN_INVALID_VALUE")
call("t63 allocate 1 set", "name 1041")
call("t0 allocate 1 receive", "refused KERN_NO_SPACE")
call("t0 task_create 1", "refused KERN_NO_SPACE")
# A port that dies makes room for one.
call("t63 destroy 1 1040", "done")
call("t63 task_create 1", "task 64 name 1040")
call("t63 allocate 1 receive", "refused KERN_RESOURCE_SHORTAGE")
stdout.append(f"end events {len(script)} ports 65536")
for name, text in ("wiring", lines), ("script", script), ("stdout", stdout):
    Path(name).write_text("\n".join(text) + "\n")
