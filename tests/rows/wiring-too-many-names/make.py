# A task with a name for its kernel port, one for a receive right and 4,095 for send-once rights.
with open("wiring", "w") as file:
    file.write("wiring 1\ntask a\nport p receiver a accepts none\n" + "hold a once port p\n" * 4_095)
