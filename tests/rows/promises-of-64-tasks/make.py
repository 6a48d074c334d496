# A wiring of 65,535 lines: 64 tasks, and then lines about each of them by each verb, again and again. No births accept
# messages.
TASKS, LINES = 64, 65_535
VERBS = {
    "takes": "mach_port_extract_right from another task",
    "gives": "mach_port_insert_right on another task",
    "sends": "mach_msg with rights in its body",
    "replies": "mach_msg with reply ports",
}
text = ["wiring 3"] + [f"task t{task}" for task in range(TASKS)]
told, seen = [f"births t{task}: mach_msg delivers nothing (no line)\n" for task in range(TASKS)], set()
while len(text) < LINES:
    number = len(text) + 1
    task = f"t{number % TASKS}"
    verb = list(VERBS)[number // TASKS % 4]
    right = "" if verb == "replies" else "send "
    text.append(f"trust {task} {verb} {right}births {task}")
    limit = "or" if (task, verb) in seen else "only"
    seen.add((task, verb))
    ports = "of" if verb == "replies" else "of send rights on ports of"
    told.append(f"{task}: {VERBS[verb]} {limit} {ports} births {task} (line {number})\n")
with open("wiring", "w") as file:
    file.write("\n".join(text))
with open("stdout", "w") as file:
    file.writelines(told)
