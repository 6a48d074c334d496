# A script of 65,536 lines, of which all but the first are empty.
with open("script", "w") as file:
    file.write("a names 1\n" + "\n" * 65_535)
