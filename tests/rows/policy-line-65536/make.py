# A policy of 65,536 lines, of which all but the first are empty.
with open("policy", "w") as file:
    file.write("policy 1\n" + "\n" * 65_535)
