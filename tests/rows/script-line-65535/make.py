# A script of 65,535 lines: the last has a call, and no line feed.
with open("script", "w") as file:
    file.write("\n" * 65_534 + "a names 1")
