# The last of three tasks has a name for its kernel port and 4,096 for send-once rights. Its number is 2; what is printed
# is its name.
with open("wiring", "w") as file:
    file.write("wiring 1\n# three tasks\ntask app\n\nport p receiver app accepts none\ntask keeper_of_app\ntask keeper\n")
    file.write("hold keeper once port p\n" * 4_096)
