"""A task with 4,096 send-once rights beside the name of its kernel port, by 16 lines."""
ports = range(256)
lines = ["wiring 4", "task a, b", *(f"port p{n} receiver b accepts none" for n in ports)]
lines += ["hold a once " + ", ".join(f"port p{n}" for n in ports)] * 16
with open("wiring", "w") as file:
    file.write("\n".join(lines) + "\n")
