# A policy of 65,535 lines: the last forbids what the task has, and has no line feed.
with open("policy", "w") as file:
    file.write("policy 1\n" + "\n" * 65_533 + "forbid a send task a")
