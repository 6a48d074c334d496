# The same with one parenthesis less at the end: what is missing is missed at the `]`.
PAIRS = 100_000
text = "subsystem s 1;\n#include <mach/std_types.defs>\ntype t = array[" + "(" * PAIRS + "3" + ")" * (PAIRS - 1)
with open("s.defs", "w") as file:
    file.write(text + "] of int;\n")
with open("stderr", "w") as file:
    file.write(f"machcheck: s.defs: Unexpected {len(text)}\n")
