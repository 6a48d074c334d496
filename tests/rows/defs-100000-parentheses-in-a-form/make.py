# An argument of (((..3..))) numbers of 32 bits, in 100,000 pairs of parentheses.
PAIRS = 100_000
with open("s.defs", "w") as file:
    file.write("subsystem s 1;\n#include <mach/std_types.defs>\n")
    file.write("type t = array[" + "(" * PAIRS + "3" + ")" * PAIRS + "] of int;\n")
    file.write("simpleroutine r(p : mach_port_t; in a : t);\n")
