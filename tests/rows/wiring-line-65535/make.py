# A wiring of 65,535 lines: the last has a task, and no line feed.
with open("wiring", "w") as file:
    file.write("wiring 1\n" + "\n" * 65_533 + "task a")
