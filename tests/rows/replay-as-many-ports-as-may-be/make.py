# 64 tasks have a kernel port each, and 65,472 calls make a port each: 65,536 in all. One more is refused.
tasks = [f"t{number}" for number in range(64)]
with open("wiring", "w") as wiring, open("script", "w") as script, open("stdout", "w") as stdout:
    wiring.write("wiring 1\n" + "".join(f"task {task}\n" for task in tasks))
    for call in range(65_472):
        task = tasks[call % 64]
        script.write(f"{task} allocate 1 receive\n")
        # The kernel port of a task has the name 1.
        stdout.write(f"{call} {task} name {2 + call // 64}\n")
    script.write("t0 allocate 1 receive\n")
    stdout.write("65472 t0 refused KERN_RESOURCE_SHORTAGE\nend events 65473 ports 65536\n")
