# The second task has a name for its kernel port, 4,095 for send-once rights, and one more for a receive right.
with open("wiring", "w") as file:
    file.write("wiring 1\ntask a\ntask b\nport p receiver a accepts none\n" + "hold b once port p\n" * 4_095)
    file.write("port q receiver b accepts none\n")
