# A wiring of 65,536 lines, of which all but the first are empty.
with open("wiring", "w") as file:
    file.write("wiring 1\n" + "\n" * 65_535)
