"""A wiring of 64 tasks, 1,024 births and 256 ports, 1,344 lines, whose lines of trust stand for 774,144, 208,896 and 64,192
more: 1,048,576 together."""
tasks, kinds, ports = range(64), range(16), range(256)
lines = ["wiring 4", "task " + ", ".join(f"t{n}" for n in tasks)]
lines += [f"births all {kind} accepts none" for kind in kinds]
lines += [f"port p{n} receiver t0 accepts none" for n in ports]
every = ", ".join(["task all", "births all any", *(f"port p{n}" for n in ports)])
lines += [f"trust all takes, gives, sends any {every}", "trust all takes any task all, births all any"]
some = ", ".join([*(f"births all {kind}" for kind in kinds[1:]), *(f"task t{n}" for n in tasks[:43])])
lines += [f"trust all takes send {some}"]
with open("wiring", "w") as file:
    file.write("\n".join(lines) + "\n")
