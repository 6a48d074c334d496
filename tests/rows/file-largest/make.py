# As many bytes as a file may have: all are 0, and the last begins no character.
with open("large", "wb") as file:
    file.seek(67_108_863)
    file.write(b"\xff")
