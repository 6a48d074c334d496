# One name less than is too many: the last has a send-once right.
with open("wiring", "w") as file:
    file.write("wiring 1\ntask a\nport p receiver a accepts none\n" + "hold a once port p\n" * 4_094)
