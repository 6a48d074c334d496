# A byte more than a file may have, all of them 0.
with open("large", "wb") as file:
    file.truncate(67_108_865)
